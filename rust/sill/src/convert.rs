//! `sill convert`: goldens moved from one form into the other.
use crate::files::{self, Item, is_stdin};
use crate::glob::Filter;
use crate::options::Arguments;
use crate::words::{self, Within};
use crate::write::{beside_output, may_be_replaced, put};
use crate::{Outcome, complaints, text};
use sillgarland::{Form, Reader, Refused};
use std::collections::HashSet;
use std::fs;
use std::io::{self, Write};
use std::path::{Path, PathBuf};

pub fn run(arguments: &Arguments, out: &mut dyn Write) -> io::Result<Outcome> {
    let Some(target) = arguments.word_of("output").map(Path::new) else {
        complaints::say("convert: -o OUT must be given; sill convert --help says how to call it");
        return Ok(Outcome::Trouble);
    };
    let form = if arguments.word_of("to").is_some_and(|word| word == "plain") { Form::Plain } else { Form::Fields };
    match arguments.operands() {
        [file] if !Path::new(file).is_dir() => convert(Path::new(file), target, form, out),
        operands => convert_all(operands, &Filter::of(arguments), target, form, out),
    }
}

/// Each file to its own name below the folder OUT; of a folder, to its path below that.
fn convert_all(
    operands: &[std::ffi::OsString],
    filter: &Filter,
    folder: &Path,
    form: Form,
    out: &mut dyn Write,
) -> io::Result<Outcome> {
    let (mut counts, mut taken) = ([0; 3], HashSet::new());
    for operand in operands {
        for Item { path, trouble } in files::find(std::slice::from_ref(operand), filter) {
            let target = below(folder, Path::new(operand), &path);
            let ready = trouble.map_or_else(|| prepare(&path, &target, taken.insert(target.clone())), Err);
            let outcome = match ready {
                Ok(()) => convert(&path, &target, form, out)?,
                Err(error) => {
                    complaints::about(&path, &error);
                    Outcome::Trouble
                }
            };
            counts[outcome as usize] += 1;
        }
    }
    let [written, refused, troubles] = counts;
    let trouble = if troubles > 0 { format!("; {}", text::count(troubles, "trouble")) } else { String::new() };
    writeln!(out, "{}: {written} written, {refused} refused{trouble}", text::count(counts.iter().sum(), "file"))?;
    Ok(if troubles > 0 {
        Outcome::Trouble
    } else if refused > 0 {
        Outcome::Bad
    } else {
        Outcome::Good
    })
}

fn below(folder: &Path, operand: &Path, path: &Path) -> PathBuf {
    match path.strip_prefix(operand) {
        Ok(inner) if !inner.as_os_str().is_empty() => folder.join(inner),
        _ => folder.join(path.file_name().unwrap_or(path.as_os_str())),
    }
}

/// The folder that a file goes to is there; no two files go to one place.
fn prepare(path: &Path, target: &Path, first: bool) -> io::Result<()> {
    if is_stdin(path) {
        return Err(io::Error::other("standard input is converted alone, to one OUT"));
    }
    if !first {
        return Err(io::Error::other(format!("another file goes to {} already", text::path(target))));
    }
    target.parent().map_or(Ok(()), fs::create_dir_all)
}

/// One file: as a whole or not at all.
fn convert(path: &Path, target: &Path, form: Form, out: &mut dyn Write) -> io::Result<Outcome> {
    if let Err(error) = may_be_replaced(path, target) {
        complaints::about(target, &error);
        return Ok(Outcome::Trouble);
    }
    let Some(input) = files::read(path) else { return Ok(Outcome::Trouble) };
    let written = match converted(&input, form) {
        Ok(written) => written,
        Err(refused) => {
            let reason = words::told(&refused, Within::Value(&input), 0);
            let told = format!("refused  {}: {reason}; nothing is written", text::path(path));
            return beside_output(target, out, &told).map(|()| Outcome::Bad);
        }
    };
    if let Err(error) = put(target, &written, out) {
        complaints::about(target, &error);
        return Ok(Outcome::Trouble);
    }
    let named = match form {
        Form::Plain => "plain",
        Form::Fields => "in fields",
    };
    let bytes = text::count(written.len(), "byte");
    let told = format!("written  {}: {bytes} (was {}), {named}", text::path(target), input.len());
    beside_output(target, out, &told).map(|()| Outcome::Good)
}

/// The golden in that form. One that has it already is held to be a golden, and stays as it is.
fn converted(input: &[u8], form: Form) -> Result<Vec<u8>, Refused> {
    let mut reader = Reader::new();
    match (Form::of(input), form) {
        (Form::Plain, Form::Fields) => reader.golden_to_fields(input),
        (Form::Fields, Form::Plain) => reader.golden_from_fields(input),
        _ => reader.golden_parts(input).map(|_| input.to_vec()),
    }
}
