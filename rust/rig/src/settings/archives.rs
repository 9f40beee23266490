//! Archives of thousands of editions: every one is found, and none is saved twice. What a question costs is in the bench.
use super::questions::field;
use super::{Ask, edition, room_of, same, write};
use crate::tally::Tally;
use sillgarland_sys::refusals;

const EDITIONS: usize = 4000;

/// Thousands of saves, one behind another; each edition gives its file.
pub fn hold() -> bool {
    let mut tally = Tally::new("settings, archives");
    let file = |n: usize| [field(1, &(n as u32).to_le_bytes()), field(9, &vec![n as u8; n % 300])].concat();
    let mut archive = Vec::new();
    for n in 0..EDITIONS {
        let ask = Ask::Save { room: archive.len() + file(n).len() + 4, archive, file: file(n) };
        let (told, out) = write(&ask, room_of(&ask));
        tally.count("saves into an archive that grows", same("refusal", told[0], refusals::ACCEPTED));
        archive = out.cells().to_vec();
    }
    for n in 0..EDITIONS {
        let found = edition(&archive, &(n as u32).to_le_bytes());
        let given = archive.get(found.start as usize..).and_then(|rest| rest.get(..found.size as usize));
        tally.count("editions of it rolled back to", same("its file", given, Some(&file(n)[..])));
    }
    let again = Ask::Save { room: 2 * archive.len(), archive: archive.clone(), file: file(EDITIONS / 2) };
    let (told, _) = write(&again, room_of(&again));
    tally.count("editions of it not saved again", same("answer", told, [refusals::NO_SUCH_FIELD, 0, 0]));
    tally.finish()
}
