//! Files and folders: what there is to read, and the values of a file one after another.
use crate::complaints;
use crate::glob::Filter;
use sillgarland::{Form, Golden, MOST_BYTES, Place, Reader, Refusal, Refused, settings_fields};
use std::ffi::OsString;
use std::fs::{self, File};
use std::io::{self, Read};
use std::ops::Range;
use std::path::{Path, PathBuf};

/// A path that is to be read, or why it cannot be.
#[derive(Debug)]
pub struct Item {
    pub path: PathBuf,
    pub trouble: Option<io::Error>,
}

/// Every path that is no folder as it is; of a folder, every file in it and below it that the filter lets through, by name.
/// What cannot be read is among them, with the reason.
pub fn find(paths: &[OsString], filter: &Filter) -> Vec<Item> {
    let mut found = Found::default();
    for path in paths.iter().map(PathBuf::from) {
        match fs::metadata(&path) {
            _ if is_stdin(&path) => found.add_stdin(path),
            Ok(kind) if kind.is_dir() => found.add_folder(path, filter),
            Ok(_) => found.add(path, None),
            Err(error) => found.add(path, Some(error)),
        }
    }
    found.items
}

/// Whether a path stands for standard input.
pub fn is_stdin(path: &Path) -> bool {
    path.as_os_str() == "-"
}

#[derive(Default)]
struct Found {
    items: Vec<Item>,
    stdin: bool,
}

impl Found {
    fn add(&mut self, path: PathBuf, trouble: Option<io::Error>) {
        self.items.push(Item { path, trouble });
    }

    fn add_stdin(&mut self, path: PathBuf) {
        let twice = std::mem::replace(&mut self.stdin, true);
        self.add(path, twice.then(|| io::Error::other("standard input is read only once")));
    }

    fn add_folder(&mut self, folder: PathBuf, filter: &Filter) {
        let before = self.items.len();
        let mut folders = vec![folder.clone()];
        while let Some(inner) = folders.pop() {
            if let Err(error) = self.add_members(&inner, &folder, filter, &mut folders) {
                self.add(inner, Some(error));
            }
        }
        self.items[before..].sort_by(|one, other| one.path.cmp(&other.path));
        if before == self.items.len() {
            let wanted = if filter.is_empty() { "" } else { " that --ext and --glob let through" };
            self.add(folder, Some(io::Error::other(format!("no files in this folder{wanted}"))));
        }
    }

    /// What stands in a folder, but for names that begin with a dot.
    fn add_members(&mut self, inner: &Path, top: &Path, filter: &Filter, folders: &mut Vec<PathBuf>) -> io::Result<()> {
        for entry in fs::read_dir(inner)? {
            let entry = entry?;
            if entry.file_name().as_encoded_bytes().starts_with(b".") {
                continue;
            }
            let (path, kind) = (entry.path(), entry.file_type()?);
            if kind.is_dir() {
                folders.push(path);
            } else if filter.lets_through(path.strip_prefix(top).unwrap_or(&path)) {
                self.add_member(path, kind);
            }
        }
        Ok(())
    }

    fn add_member(&mut self, path: PathBuf, kind: fs::FileType) {
        let led_to = if kind.is_symlink() { fs::metadata(&path).map(|led_to| led_to.file_type()) } else { Ok(kind) };
        match led_to {
            Ok(kind) if kind.is_file() => self.add(path, None),
            Ok(kind) if kind.is_dir() => {}
            Ok(_) => self.add(path, Some(io::Error::other("neither a file nor a folder"))),
            Err(error) => self.add(path, Some(error)),
        }
    }
}

/// The most that is read of a file.
const MOST_OF_A_FILE: usize = 1 << 30;

/// Reads a file, or standard input where the path is `-`, into the buffer.
pub fn read_into(path: &Path, buffer: &mut Vec<u8>) -> io::Result<()> {
    buffer.clear();
    let most = MOST_OF_A_FILE as u64;
    let mut length = 0;
    if is_stdin(path) {
        io::stdin().lock().take(most + 1).read_to_end(buffer)?;
    } else {
        let file = File::open(path)?;
        length = file.metadata()?.len();
        if length <= most {
            buffer.reserve(length as usize);
            file.take(most + 1).read_to_end(buffer)?;
        }
    }
    if length > most || buffer.len() > MOST_OF_A_FILE {
        return Err(io::Error::other("longer than 1 GiB, the most that is read of a file"));
    }
    Ok(())
}

/// A file's bytes, or nothing where it cannot be read (which is told).
pub fn read(path: &Path) -> Option<Vec<u8>> {
    let mut buffer = Vec::new();
    read_into(path, &mut buffer).map_err(|error| complaints::about(path, &error)).ok().map(|()| buffer)
}

/// Reads the value that begins at a byte of the input. 16 MiB are of a value, not of a file: where more than that follows, the
/// port is lent so much, and a value that runs past it is too long.
pub fn read_value<'a>(reader: &'a mut Reader, input: &'a [u8], at: usize) -> Result<Golden<'a>, Refused> {
    let rest = &input[at..];
    let lent = &rest[..rest.len().min(MOST_BYTES)];
    let runs_out = |refused: &Refused| matches!(refused.refusal, Refusal::EofObject | Refusal::DataTooShort);
    reader.read(lent).map_err(|refused| match refused {
        refused if lent.len() < rest.len() && runs_out(&refused) => {
            Refused { refusal: Refusal::InputTooLong, place: Place::Byte(at) }
        }
        refused => refused.after(at),
    })
}

/// How the reading of a file ended.
#[derive(Clone, Copy, Debug, PartialEq, Eq)]
pub struct Ended {
    /// How many whole values there are.
    pub values: usize,
    /// Where the last of them ends.
    pub end: usize,
    /// Why the bytes from there on are none; nothing if there are no bytes left.
    pub refused: Option<Refused>,
}

/// Reads the values of a file, and hands on each with the place where it begins: those that stand back to back, or the two of a
/// golden in fields. An empty file has none, and that is a refusal.
pub fn for_each_value<E>(
    reader: &mut Reader,
    input: &[u8],
    act: impl FnMut(usize, Golden) -> Result<(), E>,
) -> Result<Ended, E> {
    for_each_value_from(0, reader, input, act)
}

/// The same from a byte of the file on.
pub fn for_each_value_from<E>(
    from: usize,
    reader: &mut Reader,
    input: &[u8],
    mut act: impl FnMut(usize, Golden) -> Result<(), E>,
) -> Result<Ended, E> {
    if from == 0 && Form::of(input) == Form::Fields {
        return for_each_in_fields(reader, input, act);
    }
    let mut ended = Ended { values: 0, end: from, refused: None };
    loop {
        match read_value(reader, input, ended.end) {
            Err(refused) => return Ok(Ended { refused: Some(refused), ..ended }),
            Ok(golden) => {
                act(ended.end, golden)?;
                ended.values += 1;
                ended.end += golden.consumed();
            }
        }
        if ended.end == input.len() {
            return Ok(ended);
        }
    }
}

/// Where code and result stand in a golden in fields; nothing where it has other fields, or a fault.
pub fn parts_in_fields(input: &[u8]) -> Option<[Range<usize>; 2]> {
    let fields = settings_fields(input).ok()?;
    let [(1, [1]), (2, code), (3, _)] = fields[..] else { return None };
    Some([7..7 + code.len(), 10 + code.len()..input.len()])
}

/// Code and result of a golden in fields, as far as they are sound. What is wrong with it is told by the port's own move.
fn for_each_in_fields<E>(
    reader: &mut Reader,
    input: &[u8],
    mut act: impl FnMut(usize, Golden) -> Result<(), E>,
) -> Result<Ended, E> {
    let mut ended = Ended { values: 0, end: 0, refused: reader.golden_from_fields(input).err() };
    for part in parts_in_fields(input).into_iter().flatten() {
        let Ok(golden) = reader.read(&input[part.clone()]) else { break };
        act(part.start, golden)?;
        ended.values += 1;
        ended.end = part.start + golden.consumed();
    }
    Ok(ended)
}

#[cfg(test)]
mod tests {
    use super::*;

    fn starts(input: &[u8]) -> (Vec<usize>, Ended) {
        let mut starts = Vec::new();
        let ended = for_each_value(&mut Reader::new(), input, |start, _| {
            starts.push(start);
            Ok::<(), std::convert::Infallible>(())
        });
        (starts, ended.unwrap())
    }

    fn refused(refusal: Refusal, at: usize) -> Option<Refused> {
        Some(Refused { refusal, place: Place::Byte(at) })
    }

    #[test]
    fn values_back_to_back() {
        assert_eq!(starts(b"N"), (vec![0], Ended { values: 1, end: 1, refused: None }));
        assert_eq!(starts(b")\x01NT"), (vec![0, 3], Ended { values: 2, end: 4, refused: None }));
    }

    #[test]
    fn bytes_that_are_left() {
        let newline = refused(Refusal::UnknownType, 1);
        assert_eq!(starts(b"N\n"), (vec![0], Ended { values: 1, end: 1, refused: newline }));
        assert_eq!(starts(b""), (vec![], Ended { values: 0, end: 0, refused: refused(Refusal::EofObject, 0) }));
    }

    /// Reading clears its stores for each value anew: this stays quick because they start small.
    #[test]
    fn a_million_values() {
        let (starts, ended) = starts(&[b'N'; 1_000_000]);
        assert_eq!((starts.len(), ended.values, ended.refused), (1_000_000, 1_000_000, None));
    }

    /// A bytes value of so many bytes in all.
    fn bytes_of(all: usize) -> Vec<u8> {
        let mut value = vec![b'x'; all];
        value[0] = b's';
        value[1..5].copy_from_slice(&(all as u32 - 5).to_le_bytes());
        value
    }

    #[test]
    fn sixteen_mebibytes_are_of_a_value() {
        let most = bytes_of(MOST_BYTES);
        assert_eq!(starts(&[&most[..], &most].concat()).1, Ended { values: 2, end: 2 * MOST_BYTES, refused: None });
        let (_, ended) = starts(&[b"N", &bytes_of(MOST_BYTES + 1)[..]].concat());
        assert_eq!((ended.values, ended.refused), (1, refused(Refusal::InputTooLong, 1)));
        let (_, ended) = starts(&[&bytes_of(MOST_BYTES)[..], b"?"].concat());
        assert_eq!((ended.values, ended.refused), (1, refused(Refusal::UnknownType, MOST_BYTES)));
        let (_, ended) = starts(&[b")\x02N?", &most[..]].concat());
        assert_eq!((ended.values, ended.refused), (0, refused(Refusal::UnknownType, 3)));
    }
}
