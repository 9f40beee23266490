//! A model of document 01's 'Writing it back', made from its sentences and not from the port: what writing any stores
//! answers, and which bytes. Nothing here is quick; each sentence has its place.
use crate::reading::NODE_WIDTH;
use crate::record::kind_of;
use sillgarland_sys::refusals::{self, MOST_BYTES, MOST_NESTING, MOST_RECORDS};

/// Input and stores, of which so many nodes and entries count as used.
#[derive(Clone, Copy, Debug)]
pub struct Store<'a> {
    pub input: &'a [u8],
    pub nodes: &'a [u32],
    pub entries: &'a [u32],
    pub used: [u32; 2],
}

#[derive(Clone, Copy, Debug, PartialEq, Eq)]
pub struct Refused {
    pub number: u32,
    pub place: u32,
}

#[derive(Clone, Copy)]
pub struct Node {
    pub letter: u8,
    pub place: usize,
    pub size: usize,
    first: u32,
    pub count: u32,
}

/// A code that is fit to be written.
pub struct Code {
    /// Its five numbers.
    pub numbers: [u8; 20],
    pub first_line: i32,
    pub parts: [u32; 10],
}

/// The part of a code that is its local names, and that which is their kinds.
pub const LOCAL_NAMES: usize = 3;
pub const KINDS: usize = 4;

pub fn write(store: &Store, root: u32, nesting: u32, capacity: usize) -> Result<Vec<u8>, Refused> {
    if store.input.len() > MOST_BYTES as usize {
        return Err(Refused { number: refusals::INPUT_TOO_LONG, place: 0 });
    }
    let mut writer = Writer { store, out: Vec::new(), capacity };
    writer.value(root, nesting.min(MOST_NESTING))?;
    Ok(writer.out)
}

impl<'a> Store<'a> {
    fn within(used: u32, records: usize) -> u32 {
        used.min(u32::try_from(records).unwrap_or(u32::MAX)).min(MOST_RECORDS)
    }

    /// The numbers of a node, unless its number is beyond those used or the store.
    fn cells(&self, number: u32) -> Option<&'a [u32]> {
        let known = number < Self::within(self.used[0], self.nodes.len() / NODE_WIDTH);
        known.then(|| &self.nodes[NODE_WIDTH * number as usize..][..NODE_WIDTH])
    }

    fn entries_known(&self) -> u32 {
        Self::within(self.used[1], self.entries.len() / 2)
    }

    /// A node whose record is as it must be, with its chain.
    pub fn node(&self, number: u32) -> Option<Node> {
        let cells = self.cells(number)?;
        kind_of(self.input, cells)?;
        let [letter, place, size, first, count, ..] = *cells else { return None };
        let node = Node { letter: letter as u8, place: place as usize, size: size as usize, first, count };
        // A walk of more steps than there are entries goes round, and so does not end.
        let steps = count.min(self.entries_known() + 1) as usize;
        (self.children(&node).take(steps).count() == steps).then_some(node)
    }

    pub fn children(&self, node: &Node) -> impl Iterator<Item = u32> + use<'a> {
        let (entries, known) = (self.entries, self.entries_known());
        let links = move |entry: u32| (entry < known).then(|| &entries[2 * entry as usize..][..2]);
        let first = if node.count == 0 { None } else { links(node.first) };
        std::iter::successors(first, move |entry| links(entry[1])).map(|entry| entry[0]).take(node.count as usize)
    }

    pub fn contents(&self, node: &Node) -> &'a [u8] {
        &self.input[node.place..node.place + node.size]
    }

    fn is_string(node: &Node) -> bool {
        b"utaAzZ".contains(&node.letter)
    }

    fn is_tuple(node: &Node) -> bool {
        b"()".contains(&node.letter)
    }

    /// The parts of a code, if each is what it must be, and the ends agree.
    pub fn code(&self, node: &Node) -> Option<Code> {
        let parts: [u32; 10] = self.children(node).collect::<Vec<_>>().try_into().ok()?;
        let records: Vec<Node> = parts.iter().map(|part| self.node(*part)).collect::<Option<_>>()?;
        let fits = |(i, part): (usize, &Node)| match i {
            0 | 4 | 8 | 9 => part.letter == b's',
            1 => Self::is_tuple(part),
            2 | 3 => Self::is_tuple(part) && self.are_strings(part),
            _ => Self::is_string(part),
        };
        let ends = records[LOCAL_NAMES].count as usize == records[KINDS].size && records[0].size.is_multiple_of(2);
        let whole = records.iter().enumerate().all(fits) && ends;
        let numbers = self.input[node.place..node.place + 20].try_into().unwrap();
        let first_line = self.input[node.place + node.size..][..4].try_into().unwrap();
        whole.then_some(Code { numbers, first_line: i32::from_le_bytes(first_line).max(0), parts })
    }

    fn are_strings(&self, tuple: &Node) -> bool {
        let names = self.children(tuple).take(self.entries_known() as usize + 1);
        names.into_iter().all(|name| self.node(name).is_some_and(|name| Self::is_string(&name)))
    }

    pub fn string(&self, number: u32) -> &'a [u8] {
        self.node(number).map(|node| self.contents(&node)).unwrap_or_default()
    }

    pub fn stored_names(&self, code: &Code) -> Vec<u32> {
        self.node(code.parts[LOCAL_NAMES]).map(|names| self.children(&names).collect()).unwrap_or_default()
    }

    pub fn kinds(&self, code: &Code) -> &'a [u8] {
        self.node(code.parts[KINDS]).map(|kinds| self.contents(&kinds)).unwrap_or_default()
    }

    /// "all Local, then Cell whose name equals no Local name, then Free"
    pub fn written_names(&self, code: &Code) -> Vec<u32> {
        let (names, kinds) = (self.stored_names(code), self.kinds(code));
        let of = |bit: u8| {
            let named = names.iter().zip(kinds).filter(move |(_, kind)| *kind & bit != 0);
            named.map(|(name, _)| *name).collect::<Vec<u32>>()
        };
        let (locals, mut cells, frees) = (of(0x20), of(0x40), of(0x80));
        cells.retain(|cell| !locals.iter().any(|local| self.string(*local) == self.string(*cell)));
        [locals, cells, frees].concat()
    }

    /// "each kind is Local (with or without Cell), Cell alone or Free alone, other bits aside, in three groups in that
    /// order, and no Cell-alone name equals a Local one"
    pub fn keeps_name_order(&self, code: &Code) -> bool {
        let group = |kind: &u8| match kind & 0xE0 {
            0x20 | 0x60 => Some(0),
            0x40 => Some(1),
            0x80 => Some(2),
            _ => None,
        };
        let Some(groups) = self.kinds(code).iter().map(group).collect::<Option<Vec<u8>>>() else {
            return false;
        };
        let names: Vec<(u8, &[u8])> =
            groups.into_iter().zip(self.stored_names(code).into_iter().map(|name| self.string(name))).collect();
        let is_local = |name: &[u8]| names.iter().any(|(group, local)| *group == 0 && *local == name);
        names.is_sorted_by_key(|(group, _)| *group) && !names.iter().any(|(group, name)| *group == 1 && is_local(name))
    }
}

struct Writer<'a> {
    store: &'a Store<'a>,
    out: Vec<u8>,
    capacity: usize,
}

type Written = Result<(), Refused>;

fn bad_table(place: u32) -> Refused {
    Refused { number: refusals::BAD_TABLE, place }
}

impl Writer<'_> {
    fn put(&mut self, bytes: &[u8]) -> Written {
        if bytes.len() > self.capacity - self.out.len() {
            let place = u32::try_from(self.capacity).unwrap_or(u32::MAX);
            return Err(Refused { number: refusals::NO_ROOM, place });
        }
        self.out.extend_from_slice(bytes);
        Ok(())
    }

    fn put_with_length(&mut self, letter: u8, contents: &[u8]) -> Written {
        self.put_count(letter, contents.len())?;
        self.put(contents)
    }

    fn put_count(&mut self, letter: u8, count: usize) -> Written {
        self.put(&[letter])?;
        self.put(&(count as u32).to_le_bytes())
    }

    fn charge(&self, node: u32, allowance: u32) -> Written {
        if allowance == 0 { Err(Refused { number: refusals::TOO_DEEP, place: node }) } else { Ok(()) }
    }

    fn value(&mut self, number: u32, allowance: u32) -> Written {
        self.charge(number, allowance)?;
        if self.store.cells(number).is_some_and(|cells| cells[0] == u32::from(b'c')) {
            self.charge(number, allowance - 1)?;
        }
        let node = self.store.node(number).ok_or(bad_table(number))?;
        let contents = self.store.contents(&node);
        match node.letter {
            b'i' | b'I' | b'l' => self.whole(&node),
            b'g' | b'y' => {
                self.put(&[node.letter])?;
                self.put(contents)
            }
            b's' => self.put_with_length(b's', contents),
            b'u' | b't' | b'a' | b'A' | b'z' | b'Z' => self.put_with_length(b'u', contents),
            b'(' | b')' => self.counted(b'(', &node, allowance),
            b'[' | b'<' | b'>' => self.counted(node.letter, &node, allowance),
            b':' => {
                self.put(b":")?;
                self.children(&node, allowance)
            }
            b'{' => {
                self.put(b"{")?;
                self.children(&node, allowance)?;
                self.put(b"0")
            }
            b'c' => self.code(number, &node, allowance),
            _ => self.put(&[node.letter]),
        }
    }

    /// In signed 32 bits `i`, others `l` with the fewest digits.
    fn whole(&mut self, node: &Node) -> Written {
        let (negative, digits) = self.digits(node);
        let magnitude =
            digits.iter().rev().try_fold(0u64, |sum, digit| (sum < 1 << 40).then_some(sum << 15 | u64::from(*digit)));
        let value = magnitude.map(|magnitude| if negative { -(magnitude as i64) } else { magnitude as i64 });
        if let Some(small) = value.and_then(|value| i32::try_from(value).ok()) {
            self.put(b"i")?;
            return self.put(&small.to_le_bytes());
        }
        let count = digits.len() as i32;
        self.put(b"l")?;
        self.put(&(if negative { -count } else { count }).to_le_bytes())?;
        self.put(&digits.iter().flat_map(|digit| digit.to_le_bytes()).collect::<Vec<_>>())
    }

    /// Sign and digits of 15 bits, least first, the last not zero.
    fn digits(&self, node: &Node) -> (bool, Vec<u16>) {
        let contents = self.store.contents(node);
        let number = match contents.len() {
            4 if node.letter == b'i' => i64::from(i32::from_le_bytes(contents.try_into().unwrap())),
            8 if node.letter == b'I' => i64::from_le_bytes(contents.try_into().unwrap()),
            _ => {
                let digits = contents[4..].chunks(2).map(|two| u16::from_le_bytes([two[0], two[1]]));
                return (contents[3] & 0x80 != 0, digits.collect());
            }
        };
        let (mut rest, mut digits) = (number.unsigned_abs(), Vec::new());
        while rest > 0 {
            digits.push((rest & 0x7FFF) as u16);
            rest >>= 15;
        }
        (number < 0, digits)
    }

    fn counted(&mut self, letter: u8, node: &Node, allowance: u32) -> Written {
        self.put_count(letter, node.count as usize)?;
        self.children(node, allowance)
    }

    fn children(&mut self, node: &Node, allowance: u32) -> Written {
        let mut children = self.store.children(node);
        children.try_for_each(|child| self.value(child, allowance - 1))
    }

    fn code(&mut self, number: u32, node: &Node, allowance: u32) -> Written {
        let code = self.store.code(node).ok_or(bad_table(number))?;
        self.put(b"c")?;
        self.put(&code.numbers)?;
        for (i, part) in code.parts.into_iter().enumerate() {
            if i == 8 {
                self.put(&code.first_line.to_le_bytes())?;
            }
            self.charge(part, allowance - 2)?;
            self.part(i, part, &code, allowance - 2)?;
        }
        Ok(())
    }

    fn part(&mut self, i: usize, number: u32, code: &Code, allowance: u32) -> Written {
        let part = self.store.node(number).ok_or(bad_table(number))?;
        match i {
            0 | 4 | 8 | 9 => self.put_with_length(b's', self.store.contents(&part)),
            1 => self.counted(b'(', &part, allowance),
            2 => self.names(part.count as usize, self.store.children(&part), allowance),
            LOCAL_NAMES => {
                let names = self.store.written_names(code);
                self.names(names.len(), names.into_iter(), allowance)
            }
            _ => self.code_string(number),
        }
    }

    fn names(&mut self, count: usize, mut names: impl Iterator<Item = u32>, allowance: u32) -> Written {
        self.put_count(b'(', count)?;
        names.try_for_each(|name| {
            self.charge(name, allowance - 1)?;
            self.code_string(name)
        })
    }

    /// "`z` if ASCII and under 256 bytes, else `u`"
    fn code_string(&mut self, number: u32) -> Written {
        let contents = self.store.string(number);
        if !contents.is_ascii() || contents.len() > 255 {
            return self.put_with_length(b'u', contents);
        }
        self.put(&[b'z', contents.len() as u8])?;
        self.put(contents)
    }
}
