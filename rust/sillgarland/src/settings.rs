//! Settings files of tagged fields, and archives of their editions.
use crate::Refused;
use std::ops::Range;

/// The tag of a file's edition.
pub const EDITION: u8 = 1;

/// The most bytes that one field holds.
pub const MOST_CONTENTS: usize = 65_535;

/// Which of two files a setting came from.
#[derive(Clone, Copy, Debug, PartialEq, Eq, Hash)]
pub enum FromFile {
    /// The customer's file.
    Override,
    /// The file that ships.
    Default,
}

/// A setting as a part of the file that it came from.
#[derive(Clone, Copy, Debug, PartialEq, Eq)]
pub struct Setting<'a> {
    /// Its contents.
    pub contents: &'a [u8],
    /// The file.
    pub from: FromFile,
}

/// The contents of a tag, from the override if it has the tag, else from the default. Both files are tested whole first, and a place
/// counts from the start of the file that has the fault. [`Refusal::NoSuchField`](crate::Refusal::NoSuchField) where neither has the tag.
///
/// ```
/// use sillgarland::{FromFile, setting, settings_field};
/// let default = [settings_field(1, b"3"), settings_field(4, &[0])].concat();
/// let own = settings_field(4, &[1]);
/// let found = setting(&own, &default, 4)?;
/// assert_eq!((found.contents, found.from), (&[1][..], FromFile::Override));
/// assert_eq!(setting(&own, &default, 1)?.from, FromFile::Default);
/// # Ok::<(), sillgarland::Refused>(())
/// ```
pub fn setting<'a>(own: &'a [u8], default: &'a [u8], tag: u8) -> Result<Setting<'a>, Refused> {
    // SAFETY: two slices, handed on by their pointers and lengths.
    let answer = unsafe {
        sillgarland_sys::sill_setting(own.as_ptr(), own.len(), default.as_ptr(), default.len(), u32::from(tag))
    };
    Refused::unless_accepted_in_bytes(answer.refusal, answer.place)?;
    let (file, from) = if answer.file == 0 { (own, FromFile::Override) } else { (default, FromFile::Default) };
    Ok(Setting { contents: &file[part(answer.start, answer.size)], from })
}

fn part(start: u32, size: u32) -> Range<usize> {
    start as usize..start as usize + size as usize
}

/// A field as it is written: tag, length and contents.
///
/// # Panics
/// Where the contents are longer than [`MOST_CONTENTS`].
pub fn settings_field(tag: u8, contents: &[u8]) -> Vec<u8> {
    let size = u16::try_from(contents.len()).expect("a field holds at most 65,535 bytes");
    let mut field = vec![tag];
    field.extend(size.to_le_bytes());
    field.extend(contents);
    field
}

/// A file of fields written again with changes, which are a file of fields too: a field whose tag they have gets its contents there, every
/// other is kept byte for byte, what the file lacks follows. A fault of the file comes before one of the changes.
///
/// ```
/// use sillgarland::{rewrite_settings, settings_field};
/// let file = [settings_field(200, b"unknown"), settings_field(4, &[0])].concat();
/// let new = rewrite_settings(&file, &settings_field(4, &[1]))?;
/// assert_eq!(new, [settings_field(200, b"unknown"), settings_field(4, &[1])].concat());
/// # Ok::<(), sillgarland::Refused>(())
/// ```
pub fn rewrite_settings(file: &[u8], changes: &[u8]) -> Result<Vec<u8>, Refused> {
    let mut out = vec![0; file.len().saturating_add(changes.len())];
    // SAFETY: three slices of their own, each handed on by its pointer and its length.
    let answer = unsafe {
        sillgarland_sys::sill_rewrite_settings(
            file.as_ptr(),
            file.len(),
            changes.as_ptr(),
            changes.len(),
            out.as_mut_ptr(),
            out.len(),
        )
    };
    Refused::unless_accepted_in_bytes(answer.refusal, answer.place)?;
    out.truncate(answer.written as usize);
    Ok(out)
}

/// An archive with one more file behind those that it has; a new archive is no bytes. [`Refusal::NoSuchField`](crate::Refusal::NoSuchField) where the file has no
/// edition, or one that is saved already.
///
/// ```
/// use sillgarland::{edition, save_edition, settings_field};
/// let file = settings_field(1, b"3");
/// let archive = save_edition(&[], &file)?;
/// assert_eq!(edition(&archive, b"3")?, file);
/// # Ok::<(), sillgarland::Refused>(())
/// ```
pub fn save_edition(archive: &[u8], file: &[u8]) -> Result<Vec<u8>, Refused> {
    let mut out = vec![0; archive.len().saturating_add(file.len()).saturating_add(4)];
    // SAFETY: three slices of their own, each handed on by its pointer and its length.
    let answer = unsafe {
        sillgarland_sys::sill_save_edition(
            archive.as_ptr(),
            archive.len(),
            file.as_ptr(),
            file.len(),
            out.as_mut_ptr(),
            out.len(),
        )
    };
    Refused::unless_accepted_in_bytes(answer.refusal, answer.place)?;
    out.truncate(answer.written as usize);
    Ok(out)
}

/// The saved file of an edition, byte for byte, as a part of the archive. [`Refusal::NoSuchField`](crate::Refusal::NoSuchField) where none is saved.
pub fn edition<'a>(archive: &'a [u8], edition: &[u8]) -> Result<&'a [u8], Refused> {
    // SAFETY: two slices, handed on by their pointers and lengths.
    let answer =
        unsafe { sillgarland_sys::sill_edition(archive.as_ptr(), archive.len(), edition.as_ptr(), edition.len()) };
    Refused::unless_accepted_in_bytes(answer.refusal, answer.place)?;
    Ok(&archive[part(answer.start, answer.size)])
}

/// The fields of a file, in its order; or its first fault.
///
/// ```
/// use sillgarland::{settings_field, settings_fields};
/// let file = [settings_field(1, b"3"), settings_field(200, b"")].concat();
/// assert_eq!(settings_fields(&file)?, [(1, &b"3"[..]), (200, &b""[..])]);
/// # Ok::<(), sillgarland::Refused>(())
/// ```
pub fn settings_fields(file: &[u8]) -> Result<Vec<(u8, &[u8])>, Refused> {
    let mut fields = Vec::new();
    let mut at = 0;
    while let Some(&tag) = file.get(at) {
        let contents = setting(file, &[], tag)?.contents;
        fields.push((tag, contents));
        at += 3 + contents.len();
    }
    Ok(fields)
}

#[cfg(test)]
mod tests {
    use super::*;
    use crate::{Place, Refusal};

    fn refused(outcome: Result<impl std::fmt::Debug, Refused>) -> (Refusal, Place) {
        let refused = outcome.unwrap_err();
        (refused.refusal, refused.place)
    }

    #[test]
    fn the_first_fault_override_before_default() {
        let good = settings_field(1, b"3");
        let repeated = [&good[..], &[1, 9]].concat();
        let cut = [&good[..], &[2, 5, 0, 1]].concat();
        assert_eq!(refused(setting(&cut, &repeated, 1)), (Refusal::DataTooShort, Place::Byte(4)));
        assert_eq!(refused(setting(&repeated, &cut, 1)), (Refusal::RepeatedTag, Place::Byte(4)));
        assert_eq!(refused(setting(&good, &repeated, 1)), (Refusal::RepeatedTag, Place::Byte(4)));
        assert_eq!(refused(setting(&good, &good, 9)), (Refusal::NoSuchField, Place::Byte(0)));
    }

    #[test]
    fn a_rewriting_keeps_what_it_does_not_know() {
        let file = [settings_field(9, b"kept"), settings_field(4, b""), settings_field(8, b"")].concat();
        let changes = [settings_field(3, b"new"), settings_field(4, b"longer")].concat();
        let new = rewrite_settings(&file, &changes).unwrap();
        let fields = [(9, &b"kept"[..]), (4, b"longer"), (8, b""), (3, b"new")];
        assert_eq!(settings_fields(&new).unwrap(), fields);
        assert_eq!(rewrite_settings(&file, &[]).unwrap(), file);
        assert_eq!(rewrite_settings(&[], &file).unwrap(), file);
    }

    #[test]
    fn editions_are_kept() {
        let files = [b"1", b"2", b"3"].map(|edition| [settings_field(7, b"x"), settings_field(1, edition)].concat());
        let mut archive = Vec::new();
        for file in &files {
            archive = save_edition(&archive, file).unwrap();
        }
        for (file, name) in files.iter().zip([b"1", b"2", b"3"]) {
            assert_eq!(edition(&archive, name).unwrap(), file);
            assert_eq!(refused(save_edition(&archive, file)), (Refusal::NoSuchField, Place::Byte(0)));
        }
        assert_eq!(refused(edition(&archive, b"4")), (Refusal::NoSuchField, Place::Byte(0)));
        assert_eq!(refused(save_edition(&archive, b"")), (Refusal::NoSuchField, Place::Byte(0)));
        let cut = &archive[..archive.len() - 1];
        assert_eq!(refused(edition(cut, b"1")), (Refusal::DataTooShort, Place::Byte(24)));
    }
}
