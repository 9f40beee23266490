//! A model of settings files and archives, from the sentences of document 02.
use super::{Answer, Ask};
use sillgarland_sys::refusals;

pub type Fault = (u32, usize);

/// The fields, each with its place, up to the first fault.
pub fn fields(file: &[u8]) -> (Vec<(usize, u8, &[u8])>, Option<Fault>) {
    let (mut found, mut at) = (Vec::<(usize, u8, &[u8])>::new(), 0);
    while let Some(&tag) = file.get(at) {
        if found.iter().any(|field| field.1 == tag) {
            return (found, Some((refusals::REPEATED_TAG, at)));
        }
        let size = match file[at + 1..] {
            [low, high, ..] => usize::from(low) + 256 * usize::from(high),
            _ => return (found, Some((refusals::DATA_TOO_SHORT, at))),
        };
        let Some(contents) = file[at + 3..].get(..size) else {
            return (found, Some((refusals::DATA_TOO_SHORT, at)));
        };
        found.push((at, tag, contents));
        at += 3 + size;
    }
    (found, None)
}

pub fn contents_of(file: &[u8], tag: u8) -> Option<Vec<u8>> {
    fields(file).0.iter().find(|field| field.1 == tag).map(|field| field.2.to_vec())
}

/// The saved files, each with its place in the archive, or the first fault.
pub fn records(archive: &[u8]) -> Result<Vec<(usize, Vec<u8>)>, Fault> {
    let (mut found, mut at) = (Vec::new(), 0);
    while at < archive.len() {
        let cut = (refusals::DATA_TOO_SHORT, at);
        let size = archive.get(at..at + 4).ok_or(cut)?;
        let size = u32::from_le_bytes(size.try_into().expect("four bytes")) as usize;
        let file = archive.get(at + 4..).and_then(|rest| rest.get(..size)).ok_or(cut)?;
        if let Some((number, place)) = fields(file).1 {
            return Err((number, at + 4 + place));
        }
        found.push((at + 4, file.to_vec()));
        at += 4 + size;
    }
    Ok(found)
}

fn refused((number, place): Fault) -> Answer {
    Answer::Refused { number, place: place as u32 }
}

pub fn by_the_model(ask: &Ask) -> Answer {
    match ask {
        Ask::Look { own, fallback, tag } => look_by_the_model(own, fallback, *tag).unwrap_or_else(refused),
        Ask::Rewrite { file, changes, room } => rewrite_by_the_model(file, changes, *room).unwrap_or_else(refused),
        Ask::Save { archive, file, room } => save_by_the_model(archive, file, *room).unwrap_or_else(refused),
        Ask::Edition { archive, edition } => edition_by_the_model(archive, edition).unwrap_or_else(refused),
    }
}

const NO_SUCH: Fault = (refusals::NO_SUCH_FIELD, 0);

fn whole(file: &[u8]) -> Result<Vec<(usize, u8, &[u8])>, Fault> {
    let (found, fault) = fields(file);
    fault.map_or(Ok(found), Err)
}

fn look_by_the_model(own: &[u8], fallback: &[u8], tag: u32) -> Result<Answer, Fault> {
    let files = [whole(own)?, whole(fallback)?];
    let found = files.iter().enumerate().find_map(|(file, fields)| {
        let (at, _, contents) = fields.iter().find(|field| u32::from(field.1) == tag)?;
        Some([file as u32, *at as u32 + 3, contents.len() as u32])
    });
    found.map(Answer::Found).ok_or(NO_SUCH)
}

fn in_room(bytes: Vec<u8>, room: usize) -> Result<Answer, Fault> {
    if bytes.len() > room { Err((refusals::NO_ROOM, room)) } else { Ok(Answer::Written(bytes)) }
}

fn rewrite_by_the_model(file: &[u8], changes: &[u8], room: usize) -> Result<Answer, Fault> {
    let (old, new) = (whole(file)?, whole(changes)?);
    let whole_field = |from: &[u8], (at, _, contents): &(usize, u8, &[u8])| from[*at..][..3 + contents.len()].to_vec();
    let kept = old.iter().map(|field| match new.iter().find(|change| change.1 == field.1) {
        Some(change) => whole_field(changes, change),
        None => whole_field(file, field),
    });
    let added = new.iter().filter(|change| old.iter().all(|field| field.1 != change.1));
    in_room(kept.chain(added.map(|change| whole_field(changes, change))).flatten().collect(), room)
}

fn save_by_the_model(archive: &[u8], file: &[u8], room: usize) -> Result<Answer, Fault> {
    let saved = records(archive)?;
    whole(file)?;
    let edition = contents_of(file, 1).ok_or(NO_SUCH)?;
    if saved.iter().any(|(_, file)| contents_of(file, 1).as_ref() == Some(&edition)) {
        return Err(NO_SUCH);
    }
    in_room([archive, &(file.len() as u32).to_le_bytes(), file].concat(), room)
}

fn edition_by_the_model(archive: &[u8], edition: &[u8]) -> Result<Answer, Fault> {
    let saved = records(archive)?;
    let found = saved.iter().find(|(_, file)| contents_of(file, 1).as_deref() == Some(edition));
    found.map(|(at, file)| Answer::Saved([*at as u32, file.len() as u32])).ok_or(NO_SUCH)
}
