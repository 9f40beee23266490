//! A walk over a value and everything in it, each shared value once. It keeps its own stack: values nest deeply.
use sillgarland::{Children, Golden, Step, Value};
use std::io;

/// A value that is met on the way.
pub struct Entered<'a> {
    pub value: Value<'a>,
    /// How many values it stands in.
    pub depth: usize,
    /// Which child it is; nothing for the root.
    pub step: Option<Step>,
    /// What is known of its children.
    pub parted: Parted,
}

/// What follows a value that was entered.
#[derive(Clone, Copy, Debug, PartialEq, Eq)]
pub enum Parted {
    /// Nothing: it is no container.
    Leaf,
    /// All of its children.
    Whole,
    /// None of its children: the walk goes no deeper.
    Cut,
    /// None: it is shared, and was met before.
    Again,
}

/// Shared values of no more bytes than this are met in full every time.
const SHORT: usize = 32;

struct Open<'a> {
    value: Value<'a>,
    children: Children<'a>,
    begun: usize,
}

pub fn walk<'a>(
    golden: Golden<'a>,
    depth: usize,
    mut act: impl FnMut(Entered<'a>) -> io::Result<()>,
) -> io::Result<()> {
    let mut seen = vec![false; golden.values().len()];
    let mut open: Vec<Open> = Vec::new();
    let mut next = Some((golden.root(), None));
    while let Some((value, step)) = next {
        let parted = parted(value, open.len() >= depth, &mut seen);
        act(Entered { value, depth: open.len(), step, parted })?;
        if parted == Parted::Whole {
            open.push(Open { value, children: value.children(), begun: 0 });
        }
        next = next_child(&mut open);
    }
    Ok(())
}

fn parted(value: Value, deep_enough: bool, seen: &mut [bool]) -> Parted {
    let (container, has_children) = ("()[<>:{c".contains(value.letter()), value.children().len() > 0);
    if seen[value.node() as usize] && (has_children || value.size() > SHORT) {
        return Parted::Again;
    }
    if has_children && deep_enough {
        return Parted::Cut;
    }
    seen[value.node() as usize] = true;
    if container { Parted::Whole } else { Parted::Leaf }
}

/// The next child of what is open; whatever has none left is closed on the way.
fn next_child<'a>(open: &mut Vec<Open<'a>>) -> Option<(Value<'a>, Option<Step>)> {
    loop {
        let innermost = open.last_mut()?;
        if let Some(child) = innermost.children.next() {
            innermost.begun += 1;
            return Some((child, Some(Step::to_child(innermost.value, innermost.begun - 1))));
        }
        open.pop();
    }
}
