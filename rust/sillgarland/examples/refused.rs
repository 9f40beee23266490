//! What a program shows that ends with a refusal: a sentence, on standard error, and exit status 1.
use sillgarland::{Reader, Refused};

fn main() -> Result<(), Refused> {
    let input = std::fs::read("goldens/damaged-text.golden").unwrap_or_default();
    let consumed = Reader::new().read(&input)?.consumed();
    println!("{consumed} bytes are sound");
    Ok(())
}
