//! The longest formula of several goldens: a session keeps the longest so far, reads the next golden behind it, and reclaims the rest.
use sillgarland::{Code, Session, Value};
use std::error::Error;

fn main() -> Result<(), Box<dyn Error>> {
    let mut session = Session::new();
    let mut longest = None;
    for name in ["fees", "rates", "shared"] {
        let module = session.read_more(&std::fs::read(format!("goldens/{name}.golden"))?)?;
        let [nodes, _] = session.used();
        let candidates = longest.into_iter().chain([module]).flat_map(|held| session.value(held).walk());
        let found = candidates.filter_map(Value::as_code).max_by_key(Code::instructions).ok_or("no code object")?;
        let kept = session.keep(session.held(found.value()));
        println!("{name}: {} of {nodes} nodes kept", kept.nodes);
        longest = Some(kept.value);
    }
    let code = session.value(longest.ok_or("no golden")?).as_code().ok_or("no code object")?;
    println!("{}, of {}: {} instructions", code.qualified_name(), code.file(), code.instructions());
    Ok(())
}
