//! The questions of settings files: every short one, random and damaged ones, and the largest.
use super::Ask;
use crate::random::Random;

/// Every file of up to this many bytes of these: two tags, a length of 0 to 2, and their like.
const FEW_BYTES: [u8; 4] = [0, 1, 2, 3];

fn short_files(most: usize) -> Vec<Vec<u8>> {
    let mut all = vec![Vec::new()];
    let mut last = all.clone();
    for _ in 0..most {
        last = last.iter().flat_map(|file: &Vec<u8>| FEW_BYTES.map(|byte| [&file[..], &[byte]].concat())).collect();
        all.extend(last.iter().cloned());
    }
    all
}

/// Every short file looked up for each tag, rewritten, saved; and as an archive, behind the length that it has and others.
pub fn short_asks() -> impl Iterator<Item = Ask> {
    let beside = [vec![], vec![1, 0, 0], vec![2, 1, 0, 9, 1, 1, 0, 7], vec![1, 0]];
    let archive = [1_u32, 4].map(|n| [&4_u32.to_le_bytes()[..], &[1, 1, 0, n as u8]].concat()).concat();
    short_files(7).into_iter().flat_map(move |file| {
        let mut asks = Vec::new();
        for other in &beside {
            for tag in 0..4 {
                asks.push(Ask::Look { own: file.clone(), fallback: other.clone(), tag });
                asks.push(Ask::Look { own: other.clone(), fallback: file.clone(), tag });
            }
            let room = file.len() + other.len();
            asks.push(Ask::Rewrite { file: file.clone(), changes: other.clone(), room });
            asks.push(Ask::Rewrite { file: other.clone(), changes: file.clone(), room });
        }
        for archive in [vec![], archive.clone()] {
            let room = archive.len() + file.len() + 4;
            asks.push(Ask::Save { archive, file: file.clone(), room });
        }
        for size in [file.len() as u32, file.len() as u32 + 1, 1] {
            let archive = [&size.to_le_bytes()[..], &file].concat();
            asks.push(Ask::Edition { archive: archive.clone(), edition: vec![] });
            asks.push(Ask::Edition { archive: [&archive[..], &archive].concat(), edition: vec![1] });
        }
        asks
    })
}

fn random_contents(random: &mut Random) -> Vec<u8> {
    let size = random.one_of(&[0, 0, 1, 1, 2, 3, 8, 60, 255, 256, 300, 65_535]);
    let size = if size > 300 && random.below(400) > 0 { 4 } else { size };
    (0..size).map(|_| random.byte()).collect()
}

pub fn field(tag: u8, contents: &[u8]) -> Vec<u8> {
    [&[tag][..], &(contents.len() as u16).to_le_bytes(), contents].concat()
}

/// Fields of few tags or of any, mostly each once; at times cut, lengthened or changed in one byte.
fn random_file(random: &mut Random) -> Vec<u8> {
    let tags = random.one_of(&[5, 5, 40, 256]);
    let (mut file, mut seen) = (Vec::new(), Vec::new());
    for _ in 0..random.below(9) {
        let tag = random.below(tags) as u8;
        if random.below(16) > 0 && seen.contains(&tag) {
            continue;
        }
        seen.push(tag);
        let contents = if tag == 1 { vec![random.below(6) as u8] } else { random_contents(random) };
        file.extend(field(tag, &contents));
    }
    damaged(random, file)
}

fn damaged(random: &mut Random, mut bytes: Vec<u8>) -> Vec<u8> {
    let at = random.below(bytes.len() + 1);
    match random.below(10) {
        0 => bytes.truncate(at),
        1 if at < bytes.len() => bytes[at] = random.byte(),
        2 => bytes.push(random.byte()),
        _ => {}
    }
    bytes
}

fn random_archive(random: &mut Random) -> Vec<u8> {
    let mut archive = Vec::new();
    for _ in 0..random.below(5) {
        let file = random_file(random);
        archive.extend((file.len() as u32).to_le_bytes());
        archive.extend(file);
    }
    damaged(random, archive)
}

pub fn random_ask(random: &mut Random) -> Ask {
    let less = |random: &mut Random, room: usize| (room + 1).saturating_sub(random.one_of(&[0, 1, 1, 1, 2, 9]));
    match random.below(4) {
        0 => {
            let tag = random.one_of(&[0, 1, 2, 3, 4, 5, 255, 256, 257, u32::MAX]);
            Ask::Look { own: random_file(random), fallback: random_file(random), tag }
        }
        1 => {
            let (file, changes) = (random_file(random), random_file(random));
            Ask::Rewrite { room: less(random, file.len() + changes.len()), file, changes }
        }
        2 => {
            let (archive, file) = (random_archive(random), random_file(random));
            Ask::Save { room: less(random, archive.len() + file.len() + 4), archive, file }
        }
        _ => Ask::Edition { archive: random_archive(random), edition: vec![random.below(6) as u8] },
    }
}

pub fn random_asks(seed: u64, count: usize) -> impl Iterator<Item = Ask> {
    let mut random = Random::new(seed);
    (0..count).map(move |_| random_ask(&mut random))
}

/// All 256 tags, each of the longest contents; one more field is a repeated tag, far behind.
pub fn extremes() -> Vec<Ask> {
    let full: Vec<u8> = (0..=255).flat_map(|tag| field(tag, &vec![tag; 65_535])).collect();
    let repeated = [&full[..], &[7, 0, 0]].concat();
    let change = field(200, b"new");
    vec![
        Ask::Look { own: vec![], fallback: full.clone(), tag: 255 },
        Ask::Look { own: full.clone(), fallback: full.clone(), tag: 0 },
        Ask::Look { own: vec![], fallback: repeated.clone(), tag: 1 },
        Ask::Rewrite { room: full.len(), file: full.clone(), changes: change.clone() },
        Ask::Rewrite { room: full.len() + 3, file: change, changes: full.clone() },
        Ask::Save { room: full.len() + 4, archive: vec![], file: full },
        Ask::Save { room: repeated.len() + 4, archive: vec![], file: repeated },
    ]
}
