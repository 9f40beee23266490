//! Bags for the carried Rust's reader of values: what it reads becomes what the bag makes of it. One builds a tree with
//! every container kept as a sequence, the other keeps nothing. Neither gives placeholders. A tree is written back by the
//! Rust too.
#![cfg(carried)]

mod dump;
mod notes;
mod nothing;
mod tree;

pub use dump::{CodeBytes, Written, written};
pub use notes::Notes;
pub use nothing::NothingBag;
pub use tree::{Code, Group, Tree, TreeBag};
