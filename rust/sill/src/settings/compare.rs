//! `sill diff --settings`: the code objects that the settings name, or whole values, by value or by the bytes that they are written as.
use super::scope::Scope;
use crate::{Outcome, files, text};
use sillgarland::{Code, Golden, Reader, Refused, Value, first_difference};
use std::io::{self, Write};
use std::path::Path;

pub fn run(paths: [&Path; 2], scope: &Scope, out: &mut dyn Write) -> io::Result<Outcome> {
    let [Some(left), Some(right)] = paths.map(files::read) else { return Ok(Outcome::Trouble) };
    let (inputs, mut at) = ([left, right], [0, 0]);
    let mut readers = [scope.reader(), scope.reader()];
    let mut compared = Compared { values: 0, codes: 0 };
    let has_more = |side: usize, at: [usize; 2]| at[side] < inputs[side].len() || at[side] == 0;
    while has_more(0, at) && has_more(1, at) {
        compared.values += 1;
        let [one, other] = &mut readers;
        let (left, right) = match (read(one, &inputs[0], at[0]), read(other, &inputs[1], at[1])) {
            (Ok(left), Ok(right)) => (left, right),
            (left, right) => {
                for (path, refused) in paths.iter().zip([left.err(), right.err()]) {
                    if let Some(refused) = refused {
                        writeln!(out, "refused  {}: {refused}", text::path(path))?;
                    }
                }
                return Ok(Outcome::Bad);
            }
        };
        if let Err(told) = compared.pair(left, right, scope) {
            writeln!(out, "different in value {}{told}", compared.values)?;
            return Ok(Outcome::Bad);
        }
        at = [at[0] + left.consumed(), at[1] + right.consumed()];
    }
    match [0, 1].into_iter().find(|side| has_more(*side, at)) {
        None => compared.tell(paths, scope, out),
        Some(side) => {
            let (longer, values) = (text::path(paths[side]), compared.values);
            writeln!(out, "different: alike up to value {values}, and {longer} goes on at byte {}", at[side])?;
            Ok(Outcome::Bad)
        }
    }
}

fn read<'a>(reader: &'a mut Reader, input: &'a [u8], at: usize) -> Result<Golden<'a>, Refused> {
    reader.read(&input[at..]).map_err(|refused| refused.after(at))
}

/// How much was compared.
struct Compared {
    values: usize,
    codes: usize,
}

impl Compared {
    /// Two values; with a prefix, their code objects of that prefix, in order.
    fn pair(&mut self, left: Golden, right: Golden, scope: &Scope) -> Result<(), String> {
        if scope.prefix.is_empty() {
            return alike(left.root(), right.root(), scope).map_err(|told| format!(", {told}"));
        }
        let (ours, theirs) = (named(left, scope), named(right, scope));
        for (one, other) in ours.iter().zip(&theirs) {
            self.codes += 1;
            let name = text::name(one.qualified_name());
            alike(one.value(), other.value(), scope).map_err(|told| format!(", code object {name}, {told}"))?;
        }
        if ours.len() == theirs.len() {
            return Ok(());
        }
        Err(format!(
            ": {} whose names begin with {:?}, and {}",
            text::count(ours.len(), "code object"),
            scope.prefix,
            theirs.len()
        ))
    }

    fn tell(&self, paths: [&Path; 2], scope: &Scope, out: &mut dyn Write) -> io::Result<Outcome> {
        let [one, other] = paths.map(text::path);
        let how = if scope.by_bytes { ", by written bytes" } else { "" };
        if scope.prefix.is_empty() {
            writeln!(out, "the same: {one} and {other}, {}{how}", text::count(self.values, "value"))?;
            return Ok(Outcome::Good);
        }
        let named = format!("whose names begin with {:?}", scope.prefix);
        if self.codes == 0 {
            writeln!(out, "nothing compared: {one} and {other} have no code object {named}")?;
            return Ok(Outcome::Bad);
        }
        writeln!(out, "the same: {one} and {other}, {} {named}{how}", text::count(self.codes, "code object"))?;
        Ok(Outcome::Good)
    }
}

fn named<'a>(golden: Golden<'a>, scope: &Scope) -> Vec<Code<'a>> {
    golden.code_objects().filter(|code| scope.covers(code)).collect()
}

/// By value, or by the bytes that both are written as; what differs is told.
fn alike(left: Value, right: Value, scope: &Scope) -> Result<(), String> {
    let place = |path: String| format!("at {path}: bytes {} and {}", left.place(), right.place());
    if !scope.by_bytes {
        let difference = first_difference(left, right);
        return difference.map_or(Ok(()), |difference| Err(place(difference.path.to_string())));
    }
    match (left.written(), right.written()) {
        (Ok(one), Ok(other)) if one == other => Ok(()),
        (Ok(one), Ok(other)) => {
            let alike = one.iter().zip(&other).take_while(|(one, other)| one == other).count();
            Err(format!("written, from byte {alike} on"))
        }
        (Err(refused), _) | (_, Err(refused)) => Err(format!("which cannot be written: {refused}")),
    }
}
