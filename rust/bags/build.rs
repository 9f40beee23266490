//! Passes on whether the carried Rust was found: without it there is no reader to make bags for, and this crate is empty.
fn main() {
    println!("cargo::rustc-check-cfg=cfg(carried)");
    if std::env::var_os("DEP_CARRIED_PRESENT").is_some() {
        println!("cargo::rustc-cfg=carried");
    }
}
