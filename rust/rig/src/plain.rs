//! The plain reading: what is asked for in reading order, and how the reading ends, where nothing limits nesting, nodes, entries
//! or slots. Written from document 01 for the rig, apart from the port and from the Rust, so that demand 3 can be held by
//! running: which answer a reading gives for which room.
use crate::reading::NODE_WIDTH;
use sillgarland_sys::refusals::{self, MOST_BYTES, MOST_NESTING, MOST_RECORDS, NOTHING};

/// The four counts, in this order everywhere: levels of nesting, nodes, entries, slots.
pub const COUNTS: usize = 4;
pub type Rooms = [u32; COUNTS];
const LEVEL: usize = 0;
const NODE: usize = 1;
const ENTRY: usize = 2;
const SLOT: usize = 3;
pub const REFUSALS: Rooms = [refusals::TOO_DEEP, refusals::NO_NODE, refusals::NO_ENTRY, refusals::NO_SLOT];
/// "Each capacity counts as at most 1,048,576 and nesting as at most 2,000."
pub const MOST: Rooms = [MOST_NESTING, MOST_RECORDS, MOST_RECORDS, MOST_RECORDS];

#[derive(Clone, Copy, Debug, PartialEq, Eq)]
pub struct Refused {
    pub number: u32,
    pub place: usize,
}

/// So many of a count are needed in all, from this place on.
#[derive(Clone, Copy)]
struct Claim {
    count: usize,
    need: u32,
    place: usize,
}

pub enum End {
    Read {
        consumed: usize,
    },
    Refused(Refused),
    /// More was claimed than any room has: what would follow is never reached.
    Beyond,
}

pub struct Plain {
    claims: Vec<Claim>,
    pub end: End,
    /// The cells of the three stores, as an accepted reading leaves them.
    pub stores: [Vec<u32>; 3],
    pub met: Met,
}

/// What was met at which byte: the header of each node, those that reserved a slot, and each reference with its index.
#[derive(Default)]
pub struct Met {
    pub headers: Vec<usize>,
    pub reserved: Vec<usize>,
    pub references: Vec<(usize, u32)>,
}

impl Plain {
    pub fn of(input: &[u8]) -> Self {
        let mut reading = Reading { input, ..Default::default() };
        let end = match reading.whole() {
            Ok(()) => End::Read { consumed: reading.at },
            Err(Stop::Refused(refused)) => End::Refused(refused),
            Err(Stop::Beyond) => End::Beyond,
        };
        let stores = [reading.nodes.concat(), reading.entries.concat(), reading.slots];
        Self { claims: reading.claims, end, stores, met: reading.met }
    }

    /// The four counts, "counted to where it stops".
    pub fn counts(&self) -> Rooms {
        let mut most = [0; COUNTS];
        self.claims.iter().for_each(|claim| most[claim.count] = claim.need.min(MOST[claim.count]));
        most
    }

    /// What the reader gives with these rooms: the first room refusal in reading order, else the plain answer (none: read).
    pub fn with(&self, rooms: Rooms) -> Option<Refused> {
        let short = self.claims.iter().find(|claim| claim.need > rooms[claim.count].min(MOST[claim.count]));
        match (short, &self.end) {
            (Some(claim), _) => Some(Refused { number: REFUSALS[claim.count], place: claim.place }),
            (None, End::Refused(refused)) => Some(*refused),
            (None, _) => None,
        }
    }
}

enum Stop {
    Refused(Refused),
    Beyond,
}

type Step<T> = Result<T, Stop>;

fn refuse<T>(number: u32, place: usize) -> Step<T> {
    Err(Stop::Refused(Refused { number, place }))
}

/// A container's children so far: the first entry, and how many.
struct Chain {
    first: u32,
    count: u32,
}

#[derive(Default)]
struct Reading<'a> {
    input: &'a [u8],
    at: usize,
    nodes: Vec<[u32; NODE_WIDTH]>,
    entries: Vec<[u32; 2]>,
    slots: Vec<u32>,
    claims: Vec<Claim>,
    deepest: u32,
    met: Met,
}

/// What a code's part must be.
#[derive(Clone, Copy)]
enum Rule {
    Bytes,
    Tuple,
    Names,
    Text,
}

impl Reading<'_> {
    fn whole(&mut self) -> Step<()> {
        if self.input.len() > MOST_BYTES as usize {
            return refuse(refusals::INPUT_TOO_LONG, 0);
        }
        self.value(1).map(drop)
    }

    fn claim(&mut self, count: usize, need: u32, place: usize) -> Step<()> {
        self.claims.push(Claim { count, need, place });
        if need > MOST[count] { Err(Stop::Beyond) } else { Ok(()) }
    }

    /// A level that was reached before asks for nothing new.
    fn level(&mut self, depth: u32, place: usize) -> Step<()> {
        if depth <= self.deepest {
            return Ok(());
        }
        self.deepest = depth;
        self.claim(LEVEL, depth, place)
    }

    fn header(&mut self) -> Step<u8> {
        let Some(byte) = self.input.get(self.at) else { return refuse(refusals::EOF_OBJECT, self.input.len()) };
        self.at += 1;
        Ok(*byte)
    }

    fn field(&mut self, size: usize) -> Step<&[u8]> {
        let start = self.at;
        if self.input.len() - start < size {
            return refuse(refusals::DATA_TOO_SHORT, start);
        }
        self.at += size;
        Ok(&self.input[start..self.at])
    }

    fn number(&mut self) -> Step<u32> {
        Ok(u32::from_le_bytes(self.field(4)?.try_into().unwrap()))
    }

    fn length(&mut self) -> Step<usize> {
        let place = self.at;
        let number = self.number()? as i32;
        if number < 0 { refuse(refusals::BAD_SIZE, place) } else { Ok(number as usize) }
    }

    fn value(&mut self, depth: u32) -> Step<u32> {
        self.level(depth, self.at)?;
        let byte = self.header()?;
        self.behind(byte, depth)
    }

    /// What stands behind a header that was just read.
    fn behind(&mut self, byte: u8, depth: u32) -> Step<u32> {
        let (letter, header) = (byte & 0x7F, self.at - 1);
        if letter == b'r' {
            return self.reference();
        }
        let slot = self.slots.len();
        if byte != letter {
            self.claim(SLOT, slot as u32 + 1, header)?;
            self.slots.push(0);
            self.met.reserved.push(header);
        }
        match letter {
            b'0' => return refuse(refusals::NULL_OBJECT, header),
            b'f' | b'x' => return refuse(refusals::NOT_CARRIED, header),
            _ if !b"NFTS.iIgylsutaAzZ([<>):{c".contains(&letter) => return refuse(refusals::UNKNOWN_TYPE, header),
            _ => {}
        }
        let node = self.nodes.len();
        self.claim(NODE, node as u32 + 1, header)?;
        self.nodes.push([0; NODE_WIDTH]);
        self.met.headers.push(header);
        let (place, size, chain) = self.fields(letter, depth)?;
        let [place, size, end] = [place, size, self.at].map(|number| number as u32);
        self.nodes[node] = [u32::from(letter), place, size, chain.first, chain.count, end, 0];
        if byte != letter {
            self.slots[slot] = node as u32 + 1;
        }
        Ok(node as u32)
    }

    fn reference(&mut self) -> Step<u32> {
        let place = self.at;
        let index = self.number()?;
        self.met.references.push((place - 1, index));
        match self.slots.get(index as usize) {
            None | Some(0) => refuse(refusals::INVALID_REF, place),
            Some(filled) => Ok(filled - 1),
        }
    }

    /// Place, size and children.
    fn fields(&mut self, letter: u8, depth: u32) -> Step<(usize, usize, Chain)> {
        let place = self.at;
        let mut chain = Chain { first: NOTHING, count: 0 };
        match letter {
            b'i' => drop(self.field(4)?),
            b'I' | b'g' => drop(self.field(8)?),
            b'y' => {
                self.field(8)?;
                self.field(8)?;
            }
            b'l' => self.digits()?,
            b's' => {
                let size = self.length()?;
                self.field(size)?;
                return Ok((self.at - size, size, chain));
            }
            b'u' | b't' | b'a' | b'A' => {
                let size = self.length()?;
                return self.text(size, chain);
            }
            b'z' | b'Z' => {
                let size = usize::from(self.field(1)?[0]);
                return self.text(size, chain);
            }
            b'(' | b'[' | b'<' | b'>' => {
                let count = self.length()?;
                self.children(&mut chain, count, depth)?;
                return Ok((place, 4, chain));
            }
            b')' => {
                let count = usize::from(self.field(1)?[0]);
                self.children(&mut chain, count, depth)?;
                return Ok((place, 1, chain));
            }
            b':' => {
                self.children(&mut chain, 3, depth)?;
                return Ok((place, 0, chain));
            }
            b'{' => {
                self.pairs(&mut chain, depth)?;
                return Ok((place, 0, chain));
            }
            b'c' => {
                let line = self.code(&mut chain, depth)?;
                return Ok((place, line - place, chain));
            }
            _ => {}
        }
        Ok((place, self.at - place, chain))
    }

    /// "Each 15-bit digit is read, then refused (8) at 32,768 or above. After the last, a zero last digit is 8."
    fn digits(&mut self) -> Step<()> {
        let count = (self.number()? as i32).unsigned_abs();
        let mut last = 1;
        for _ in 0..count {
            let place = self.at;
            last = u16::from_le_bytes(self.field(2)?.try_into().unwrap());
            if last >= 0x8000 {
                return refuse(refusals::INVALID_BYTECODE, place);
            }
        }
        if last == 0 { refuse(refusals::INVALID_BYTECODE, self.at - 2) } else { Ok(()) }
    }

    fn text(&mut self, size: usize, chain: Chain) -> Step<(usize, usize, Chain)> {
        let place = self.at;
        if !is_text(self.field(size)?) {
            return refuse(refusals::INVALID_UTF8, place);
        }
        Ok((place, size, chain))
    }

    /// A child that is complete: "Each claims an entry (12) after it is complete."
    fn attach(&mut self, chain: &mut Chain, child: u32, header: usize, last: &mut u32) -> Step<()> {
        let entry = self.entries.len() as u32;
        self.claim(ENTRY, entry + 1, header)?;
        self.entries.push([child, NOTHING]);
        match self.entries.get_mut(*last as usize) {
            Some(before) if chain.count > 0 => before[1] = entry,
            _ => chain.first = entry,
        }
        *last = entry;
        chain.count += 1;
        Ok(())
    }

    fn children(&mut self, chain: &mut Chain, count: usize, depth: u32) -> Step<()> {
        let mut last = NOTHING;
        for _ in 0..count {
            let header = self.at;
            let child = self.value(depth + 1)?;
            self.attach(chain, child, header, &mut last)?;
        }
        Ok(())
    }

    /// "0x30 or 0xB0 ends it and reserves nothing. Otherwise that byte is the key's header, and only then is the allowance
    /// tested."
    fn pairs(&mut self, chain: &mut Chain, depth: u32) -> Step<()> {
        let mut last = NOTHING;
        loop {
            let header = self.at;
            let byte = self.header()?;
            if byte & 0x7F == b'0' {
                return Ok(());
            }
            self.level(depth + 1, header)?;
            let key = self.behind(byte, depth + 1)?;
            self.attach(chain, key, header, &mut last)?;
            let header = self.at;
            let value = self.value(depth + 1)?;
            self.attach(chain, value, header, &mut last)?;
        }
    }

    /// Answers where the first line stands.
    fn code(&mut self, chain: &mut Chain, depth: u32) -> Step<usize> {
        use Rule::{Bytes, Names, Text, Tuple};
        let (header, mut last, mut line) = (self.at - 1, NOTHING, 0);
        self.level(depth + 1, self.at)?;
        let mut numbers = [0; 5];
        for number in &mut numbers {
            *number = self.number()?;
        }
        let mut parts = [0; 10];
        for (i, rule) in [Bytes, Tuple, Names, Names, Bytes, Text, Text, Text, Bytes, Bytes].into_iter().enumerate() {
            if i == 8 {
                line = self.at;
                self.number()?;
            }
            let place = self.at;
            parts[i] = self.value(depth + 2)?;
            if !self.fits(parts[i], rule) {
                return refuse(refusals::BAD_TYPE, place);
            }
            self.attach(chain, parts[i], place, &mut last)?;
        }
        let [args, _, kwonly, _, flags] = numbers.map(u64::from);
        let sum = args + kwonly + (flags >> 2 & 1) + (flags >> 3 & 1);
        let node = |part: usize| self.nodes[parts[part] as usize];
        if node(3)[4] != node(4)[2] {
            return refuse(refusals::INVALID_BYTECODE, header);
        }
        if sum > u64::from(u32::MAX) {
            return refuse(refusals::NUMBER_RANGE, header);
        }
        if node(0)[2] % 2 != 0 {
            return refuse(refusals::INVALID_BYTECODE, header);
        }
        Ok(line)
    }

    fn fits(&self, part: u32, rule: Rule) -> bool {
        let [letter, _, _, first, count, ..] = self.nodes[part as usize];
        let is_one_of = |letters: &[u8]| letters.contains(&(letter as u8));
        match rule {
            Rule::Bytes => is_one_of(b"s"),
            Rule::Tuple => is_one_of(b"()"),
            Rule::Text => is_one_of(b"utaAzZ"),
            Rule::Names => {
                let next = |entry: &u32| self.entries.get(*entry as usize).map(|[_, next]| *next);
                let members = std::iter::successors(Some(first), next).take(count as usize);
                let mut names = members.map(|entry| self.entries[entry as usize][0]);
                is_one_of(b"()") && names.all(|name| self.fits(name, Rule::Text))
            }
        }
    }
}

/// UTF-8, but for surrogates, which may stand as three bytes.
pub fn is_text(mut bytes: &[u8]) -> bool {
    while let Err(error) = std::str::from_utf8(bytes) {
        bytes = match &bytes[error.valid_up_to()..] {
            [0xED, 0xA0..=0xBF, 0x80..=0xBF, rest @ ..] => rest,
            _ => return false,
        };
    }
    true
}
