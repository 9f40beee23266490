//! Forty tuples, each of which holds the one before twice: a recursion over children would make 2^40 visits.
use sillgarland::{Reader, Refused};

fn main() -> Result<(), Refused> {
    let mut input = b"(\x29\0\0\0\xA9\0".to_vec(); // a tuple of 41: the empty one, and forty more
    for slot in 0..40 {
        input.extend([0xA9, 2, b'r', slot, 0, 0, 0, b'r', slot, 0, 0, 0]);
    }
    let mut reader = Reader::new();
    let golden = reader.read(&input)?;
    let last = golden.root().children().last().expect("the tuple has 41 children");
    println!("{} bytes, and {} values in the last tuple", input.len(), last.walk().count());
    let kept = last.to_owned_value();
    println!("a copy of it is equal: {}", kept == last);
    Ok(())
}
