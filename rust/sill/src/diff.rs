//! `sill diff`: whether two files, or the files of two folders, hold the same values, and where they differ.
mod beside;
mod classes;
mod page;
mod places;
mod rows;
mod tree;
mod values;

pub use places::named_step;

use crate::files::{self, Item, is_stdin};
use crate::glob::Filter;
use crate::options::Arguments;
use crate::{Outcome, complaints, settings, text};
use std::collections::BTreeMap;
use std::ffi::OsStr;
use std::io::{self, Write};
use std::os::unix::ffi::OsStrExt;
use std::path::{Path, PathBuf};
use values::{Compared, Side, compare};

/// What is asked of every pair of files.
#[derive(Clone, Copy)]
struct Asked {
    /// Every difference, not only the first.
    all: bool,
    pyc: bool,
    /// As a page.
    html: bool,
}

pub fn run(arguments: &Arguments, out: &mut dyn Write) -> io::Result<Outcome> {
    let [one, other] = [0, 1].map(|at| PathBuf::from(&arguments.operands()[at]));
    let asked = Asked { all: arguments.has("all"), pyc: arguments.has("pyc"), html: arguments.has("html") };
    if asked.html && (arguments.has("settings") || one.is_dir() && other.is_dir()) {
        complaints::say("diff: --html is of two files, and takes no --settings; sill diff --help says how to call it");
        return Ok(Outcome::Trouble);
    }
    if arguments.has("settings") {
        return settings::diff(arguments, [&one, &other], out);
    }
    let below = |folder: &Path, file: &Path| folder.join(file.file_name().unwrap_or(OsStr::new("")));
    match (one.is_dir(), other.is_dir()) {
        (true, true) => folders([&one, &other], &Filter::of(arguments), asked, out),
        (true, false) => pair([&below(&one, &other), &other], asked, out),
        (false, true) => pair([&one, &below(&other, &one)], asked, out),
        (false, false) if is_stdin(&one) && is_stdin(&other) => {
            complaints::say("diff: standard input is read only once");
            Ok(Outcome::Trouble)
        }
        (false, false) => pair([&one, &other], asked, out),
    }
}

/// Two files, or a value of each.
fn pair(paths: [&Path; 2], asked: Asked, out: &mut dyn Write) -> io::Result<Outcome> {
    if asked.html {
        return sides(paths, asked).map_or(Ok(Outcome::Trouble), |mut sides| page::show(&mut sides, out));
    }
    let [one, other] = paths.map(text::path);
    Ok(match compared(paths, asked, out)? {
        Compared::Same { values, by_bytes } => {
            let how = if by_bytes { ", written as the same bytes" } else { "" };
            writeln!(out, "the same: {one} and {other}, {}{how}", text::count(values, "value"))?;
            Outcome::Good
        }
        Compared::Different => Outcome::Bad,
        Compared::Trouble => Outcome::Trouble,
    })
}

fn compared(paths: [&Path; 2], asked: Asked, out: &mut dyn Write) -> io::Result<Compared> {
    sides(paths, asked).map_or(Ok(Compared::Trouble), |mut sides| compare(&mut sides, asked, out))
}

/// Both files; nothing where one cannot be read, which is told.
fn sides(paths: [&Path; 2], asked: Asked) -> Option<[Side; 2]> {
    let [one, other] = paths.map(|path| {
        let (file, value) = file_and_value(path);
        files::read(&file).map(|input| Side::new(path, input, value, asked.pyc))
    });
    one.zip(other).map(|(one, other)| [one, other])
}

/// `FILE#2` is the second value of FILE, unless there is a file of that very name.
fn file_and_value(path: &Path) -> (PathBuf, Option<usize>) {
    let bytes = path.as_os_str().as_bytes();
    let hash = bytes.iter().rposition(|byte| *byte == b'#').filter(|_| !path.exists());
    let value = hash.and_then(|hash| std::str::from_utf8(&bytes[hash + 1..]).ok()?.parse().ok());
    match (hash, value.filter(|value| *value > 0)) {
        (Some(hash), Some(value)) => (PathBuf::from(OsStr::from_bytes(&bytes[..hash])), Some(value)),
        _ => (path.to_path_buf(), None),
    }
}

/// Files by their paths below a folder; what cannot be read is told, and counted.
fn below(folder: &Path, filter: &Filter, troubles: &mut usize) -> BTreeMap<PathBuf, PathBuf> {
    let mut files = BTreeMap::new();
    for Item { path, trouble } in files::find(&[folder.as_os_str().to_os_string()], filter) {
        match trouble {
            Some(error) => {
                complaints::about(&path, &error);
                *troubles += 1;
            }
            None => {
                files.insert(path.strip_prefix(folder).unwrap_or(&path).to_path_buf(), path);
            }
        }
    }
    files
}

fn folders(folders: [&Path; 2], filter: &Filter, asked: Asked, out: &mut dyn Write) -> io::Result<Outcome> {
    let (mut same, mut different, mut troubles) = (0, 0, 0);
    let [one, mut other] = folders.map(|folder| below(folder, filter, &mut troubles));
    let mut alone = Vec::new();
    for (name, left) in one {
        let Some(right) = other.remove(&name) else {
            alone.push(left);
            continue;
        };
        match compared([&left, &right], asked, out)? {
            Compared::Same { .. } => same += 1,
            Compared::Different => different += 1,
            Compared::Trouble => troubles += 1,
        }
    }
    alone.extend(other.into_values());
    for path in &alone {
        writeln!(out, "only on one side: {}", text::path(path))?;
    }
    let trouble = if troubles > 0 { format!("; {}", text::count(troubles, "trouble")) } else { String::new() };
    let pairs = text::count(same + different, "pair");
    writeln!(out, "{pairs}: {same} the same, {different} different, {} on one side only{trouble}", alone.len())?;
    Ok(match (troubles, different + alone.len()) {
        (0, 0) => Outcome::Good,
        (0, _) => Outcome::Bad,
        _ => Outcome::Trouble,
    })
}

#[cfg(test)]
mod tests {
    use super::*;

    #[test]
    fn a_value_of_a_file() {
        let named = |path: &str| file_and_value(Path::new(path));
        assert_eq!(named("a.golden#2"), (PathBuf::from("a.golden"), Some(2)));
        assert_eq!(named("a#b#10"), (PathBuf::from("a#b"), Some(10)));
        for whole in ["a.golden", "a#0", "a#", "a#x", "a#-1"] {
            assert_eq!(named(whole), (PathBuf::from(whole), None));
        }
    }
}
