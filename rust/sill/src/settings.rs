//! `sill settings`: the settings files that customers keep, and archives of their editions.
mod compare;
mod names;
mod scope;

pub use scope::Scope;

use crate::options::Arguments;
use crate::write::put_in_place;
use crate::{Outcome, complaints, text};
use names::{KNOWN, Name};
use scope::{Defaults, read, told};
use sillgarland::{Refused, edition, rewrite_settings, save_edition, setting, settings_field, settings_fields};
use std::ffi::OsString;
use std::io::{self, Write};
use std::path::Path;

/// How an action ended, in the line that tells it: done, refused, or that a file could not be read or written.
enum Ended {
    Done(String),
    Refused(String),
    Trouble(String),
}

pub fn run(arguments: &Arguments, out: &mut dyn Write) -> io::Result<Outcome> {
    let words = arguments.operands();
    let ended = match (words[0].to_str(), &words[1..]) {
        (Some("get"), [file]) => get(arguments, Path::new(file), None),
        (Some("get"), [file, name]) => get(arguments, Path::new(file), Some(name)),
        (Some("set"), [file, changes @ ..]) if !changes.is_empty() && changes.len().is_multiple_of(2) => {
            set(Path::new(file), changes)
        }
        (Some("save"), [file, archive]) => save(Path::new(file), Path::new(archive)),
        (Some("rollback"), [file, archive, wanted]) => rollback(Path::new(file), Path::new(archive), wanted),
        (Some("list"), [archive]) => list(Path::new(archive)),
        _ => Ended::Trouble(
            "settings: no such action, or other names than it wants; sill settings --help says how to call it"
                .to_string(),
        ),
    };
    match ended {
        Ended::Done(told) => writeln!(out, "{told}").map(|()| Outcome::Good),
        Ended::Refused(told) => writeln!(out, "refused  {told}").map(|()| Outcome::Bad),
        Ended::Trouble(told) => {
            complaints::say(told);
            Ok(Outcome::Trouble)
        }
    }
}

/// What the settings say, or nothing where they cannot be used (which is told).
pub fn scope(arguments: &Arguments) -> Option<Scope> {
    Scope::of(arguments).map_err(complaints::say).ok()
}

/// `sill diff --settings`.
pub fn diff(arguments: &Arguments, paths: [&Path; 2], out: &mut dyn Write) -> io::Result<Outcome> {
    scope(arguments).map_or(Ok(Outcome::Trouble), |scope| compare::run(paths, &scope, out))
}

fn refused(path: &Path, refused: Refused) -> Ended {
    Ended::Refused(format!("{}: {refused}", text::path(path)))
}

/// A file's bytes, none where it is not there yet.
fn read_or_new(path: &Path) -> Result<Vec<u8>, Ended> {
    match std::fs::read(path) {
        Ok(bytes) => Ok(bytes),
        Err(error) if error.kind() == io::ErrorKind::NotFound => Ok(Vec::new()),
        Err(error) => Err(Ended::Trouble(told(path, &error))),
    }
}

fn put(path: &Path, bytes: &[u8], said: String) -> Ended {
    match put_in_place(path, bytes) {
        Ok(()) => Ended::Done(said),
        Err(error) => Ended::Trouble(told(path, &error)),
    }
}

/// One setting alone, or a line for each.
fn get(arguments: &Arguments, path: &Path, name: Option<&OsString>) -> Ended {
    let found = read(path).and_then(|own| Ok((own, Defaults::of(arguments)?)));
    let (own, defaults) = match found {
        Ok(found) => found,
        Err(told) => return Ended::Trouble(told),
    };
    let shown = |name: Name| -> Result<(String, String), String> {
        let (contents, from) = defaults.look(path, &own, name)?;
        let shown = name.shown(contents).map_err(|reason| format!("{}: {reason}", text::path(from)))?;
        Ok((shown, text::path(from)))
    };
    let told = match name.map(|word| (word, word.to_str().and_then(Name::of_word))) {
        Some((word, None)) => {
            return Ended::Trouble(format!("settings: there is no setting '{}'", word.to_string_lossy()));
        }
        Some((_, Some(name))) => shown(name).map(|(shown, _)| shown),
        None => all_settings(&own, shown),
    };
    told.map_or_else(Ended::Refused, Ended::Done)
}

/// The settings that have a name, and the fields of the file that have none.
fn all_settings(own: &[u8], shown: impl Fn(Name) -> Result<(String, String), String>) -> Result<String, String> {
    let line = |name: Name| {
        let label = name.to_string();
        shown(name).map(|(shown, from)| format!("{label:<9} {shown}  ({from})"))
    };
    let mut lines: Vec<String> = KNOWN.into_iter().map(line).collect::<Result<_, _>>()?;
    let fields = settings_fields(own).map_err(|refused| refused.to_string())?;
    for name in fields.iter().map(|(tag, _)| Name::of_tag(*tag)).filter(|name| !KNOWN.contains(name)) {
        lines.push(line(name)?);
    }
    Ok(lines.join("\n"))
}

/// Rewrites the file with the contents that are named; what it does not name stays byte for byte.
fn set(path: &Path, words: &[OsString]) -> Ended {
    let mut changes = Vec::new();
    for pair in words.chunks(2) {
        let [name, word] = [&pair[0], &pair[1]].map(|word| word.to_str().unwrap_or_default());
        let change = Name::of_word(name)
            .ok_or_else(|| format!("there is no setting '{name}'"))
            .and_then(|name| Ok(settings_field(name.tag(), &name.contents_of(word)?)));
        match change {
            Ok(field) => changes.extend(field),
            Err(reason) => return Ended::Trouble(format!("settings: {reason}")),
        }
    }
    if let Err(repeated) = settings_fields(&changes) {
        return Ended::Trouble(format!("settings: one setting is named twice: {repeated}"));
    }
    let file = match read_or_new(path) {
        Ok(file) => file,
        Err(ended) => return ended,
    };
    match rewrite_settings(&file, &changes) {
        Err(reason) => refused(path, reason),
        Ok(new) => {
            let said =
                format!("written  {}: {} (was {})", text::path(path), text::count(new.len(), "byte"), file.len());
            put(path, &new, said)
        }
    }
}

/// The archive with the file behind those that it has.
fn save(path: &Path, archive_path: &Path) -> Ended {
    let (file, archive) = match (read(path), read_or_new(archive_path)) {
        (Ok(file), Ok(archive)) => (file, archive),
        (Err(told), _) => return Ended::Trouble(told),
        (_, Err(ended)) => return ended,
    };
    if let Err(reason) = settings_fields(&file) {
        return refused(path, reason);
    }
    match save_edition(&archive, &file) {
        Ok(grown) => {
            let saved = setting(&file, &[], sillgarland::EDITION)
                .map_or(String::new(), |found| names::text_or_hex(found.contents));
            put(
                archive_path,
                &grown,
                format!("saved    {}: edition {saved} of {}", text::path(archive_path), text::path(path)),
            )
        }
        Err(reason) if reason.refusal == sillgarland::Refusal::NoSuchField => {
            let why = match setting(&file, &[], sillgarland::EDITION) {
                Ok(found) => format!("edition {} is saved already", names::text_or_hex(found.contents)),
                Err(_) => format!("{} has no edition; sill settings set gives it one", text::path(path)),
            };
            Ended::Refused(format!("{}: {reason}; {why}", text::path(archive_path)))
        }
        Err(reason) => refused(archive_path, reason),
    }
}

/// The file as it was when that edition was saved.
fn rollback(path: &Path, archive_path: &Path, wanted: &OsString) -> Ended {
    let archive = match read(archive_path) {
        Ok(archive) => archive,
        Err(told) => return Ended::Trouble(told),
    };
    let shown = wanted.to_string_lossy();
    match edition(&archive, &names::edition_of(&shown)) {
        Ok(file) => {
            let said = format!("written  {}: edition {shown}, {}", text::path(path), text::count(file.len(), "byte"));
            put(path, file, said)
        }
        Err(reason) => Ended::Refused(format!("{}: edition {shown}: {reason}", text::path(archive_path))),
    }
}

/// A line for each edition, in the order in which they were saved.
fn list(archive_path: &Path) -> Ended {
    let archive = match read(archive_path) {
        Ok(archive) => archive,
        Err(told) => return Ended::Trouble(told),
    };
    match edition(&archive, &[]) {
        Err(reason) if reason.refusal != sillgarland::Refusal::NoSuchField => return refused(archive_path, reason),
        _ => {}
    }
    let (mut lines, mut rest) = (Vec::new(), &archive[..]);
    while let Some((size, behind)) = rest.split_first_chunk::<4>() {
        let (file, after) = behind.split_at(u32::from_le_bytes(*size) as usize);
        let name = setting(file, &[], sillgarland::EDITION)
            .map_or("-".to_string(), |found| names::text_or_hex(found.contents));
        let fields = settings_fields(file).map_or(0, |fields| fields.len());
        lines.push(format!("edition {name}: {}, {}", text::count(fields, "field"), text::count(file.len(), "byte")));
        rest = after;
    }
    lines.push(text::count(lines.len(), "edition"));
    Ended::Done(lines.join("\n"))
}
