//! What is promised of a rewriting and of a save, by the port's own lookups.
use super::model::{contents_of, fields, records};
use super::{Answer, Ask, check_writing, edition, look, room_of, same};
use sillgarland_sys::{Edition, refusals};

/// Every tag says what the changes say, else what the file said; and with the changes made once, making them again changes nothing.
pub fn check_rewritten(file: &[u8], changes: &[u8], bytes: &[u8]) -> Result<(), String> {
    let contents = |tag: u32, own: &[u8], fallback: &[u8]| {
        let found = look(own, fallback, tag);
        let from = if found.file == 0 { own } else { fallback };
        let part = from[found.start as usize..][..found.size as usize].to_vec();
        (found.refusal, found.place, part)
    };
    let tags = [file, changes].into_iter().flat_map(|file| fields(file).0).map(|field| u32::from(field.1));
    for tag in tags.chain([0, 1, 255]) {
        same(&format!("tag {tag} of a rewritten file"), contents(tag, bytes, &[]), contents(tag, changes, file))?;
    }
    let again = Ask::Rewrite { file: bytes.to_vec(), changes: changes.to_vec(), room: bytes.len() };
    check_writing(&again, bytes.len(), &Answer::Written(bytes.to_vec()))?;
    let unchanged = Ask::Rewrite { file: bytes.to_vec(), changes: Vec::new(), room: bytes.len() };
    check_writing(&unchanged, bytes.len(), &Answer::Written(bytes.to_vec()))
}

/// Each edition saved before gives what it gave, the new one the file; and it is not saved again.
pub fn check_saved(archive: &[u8], file: &[u8], grown: &[u8]) -> Result<(), String> {
    for (at, saved) in records(archive).unwrap_or_default() {
        let Some(wanted) = contents_of(&saved, 1) else { continue };
        let before = edition(archive, &wanted);
        same("an edition saved before", edition(grown, &wanted), before)?;
        same("its bytes", &grown[..archive.len()], archive)?;
        if before.start as usize == at {
            same("its file", &archive[at..][..before.size as usize], &saved)?;
        }
    }
    let own = contents_of(file, 1).unwrap_or_default();
    let new = Edition { refusal: 0, place: 0, start: archive.len() as u32 + 4, size: file.len() as u32 };
    same("the new edition", edition(grown, &own), new)?;
    same("its file", &grown[archive.len() + 4..], file)?;
    let again = Ask::Save { archive: grown.to_vec(), file: file.to_vec(), room: grown.len() + file.len() + 4 };
    check_writing(&again, room_of(&again), &Answer::Refused { number: refusals::NO_SUCH_FIELD, place: 0 })
}
