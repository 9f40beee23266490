//! `sill show`: the values of a file as a tree, for people or as JSON.
mod json;
mod tree;
mod walk;

pub use json::{damaged, handler};

use crate::options::Arguments;
use crate::{Outcome, complaints, files, looks};
use sillgarland::{Golden, Reader, Refused};
use std::io::{self, Write};
use std::path::Path;

pub fn run(arguments: &Arguments, out: &mut dyn Write) -> io::Result<Outcome> {
    let Some(depth) = depth(arguments) else {
        complaints::say("show: --depth wants a whole number; sill show --help says how to call it");
        return Ok(Outcome::Trouble);
    };
    let Some(bytes) = files::read(Path::new(&arguments.operands()[0])) else { return Ok(Outcome::Trouble) };
    let input = Input { from: looks::skipped(&bytes, arguments.has("pyc")), bytes: &bytes };
    let refused = if arguments.has("json") { json::show(&input, depth, out)? } else { tree::show(&input, depth, out)? };
    Ok(if refused { Outcome::Bad } else { Outcome::Good })
}

/// How many levels are shown: all, where nothing is asked.
fn depth(arguments: &Arguments) -> Option<usize> {
    match arguments.word_of("depth") {
        None => Some(usize::MAX),
        Some(word) => word.to_str()?.parse().ok(),
    }
}

/// A file, and where its first value begins.
struct Input<'a> {
    bytes: &'a [u8],
    from: usize,
}

impl Input<'_> {
    /// What both ways of showing begin with.
    fn each_value(&self, act: impl FnMut(usize, Golden) -> io::Result<()>) -> io::Result<Option<Refused>> {
        Ok(files::for_each_value_from(self.from, &mut Reader::new(), self.bytes, act)?.refused)
    }
}
