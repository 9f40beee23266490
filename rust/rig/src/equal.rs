//! Equal means equal (document 02, K14). A value, kept as a tree that knows no letters, is put in two forms that differ in
//! letters, flags and sharing alone: read and written, they are the same bytes. Changed in one place it is written as others.
use crate::random::Random;
use crate::shares;
use crate::text::hex;
use crate::write_again::written;

#[derive(Clone, Debug, PartialEq)]
enum Tree {
    Single(u8),
    Whole(i128),
    Float(u64),
    Complex([u64; 2]),
    Bytes(Vec<u8>),
    Text(Vec<u8>),
    /// Tuple, list, set, frozenset, slice and dict, by the letter that each has at its longest.
    Row(u8, Vec<Tree>),
    Code(Box<Code>),
}

#[derive(Clone, Debug, PartialEq)]
struct Code {
    numbers: [u32; 5],
    parts: Vec<Tree>,
    line: u32,
}

/// Of a code's parts; from `TABLES` on they stand behind the first line.
const CONSTANTS: usize = 1;
const NAMES: usize = 2;
const KINDS: usize = 4;
const TABLES: usize = 8;

// ---- values by chance

fn value(random: &mut Random, levels: usize) -> Tree {
    match random.below(if levels > 1 { 18 } else { 10 }) {
        0 | 1 => Tree::Single(random.one_of(b"NFTS.")),
        2..=4 => Tree::Whole(whole(random)),
        5 => Tree::Float(random.word()),
        6 => Tree::Complex([random.word(), random.word()]),
        7 => Tree::Bytes((0..random.below(6)).map(|_| random.byte()).collect()),
        8 | 9 => text(random),
        10 => Tree::Row(b':', (0..3).map(|_| value(random, levels - 1)).collect()),
        11 => {
            let members = 2 * random.below(3);
            Tree::Row(b'{', (0..members).map(|_| value(random, levels - 1)).collect())
        }
        12 if levels > 2 => code(random, levels),
        _ => {
            let letter = random.one_of(b"([<>");
            Tree::Row(letter, (0..random.below(5)).map(|_| value(random, levels - 1)).collect())
        }
    }
}

/// Many at the ends of 32 and 64 bits; else of any width.
fn whole(random: &mut Random) -> i128 {
    let end = random.one_of(&[0, 1 << 31, 1 << 32, 1 << 63, 1 << 64, 1 << 15, 1 << 30]);
    let magnitude = match random.below(2) {
        0 => end + random.below(3) as i128 - 1,
        _ => i128::from(random.word()) << random.below(63) >> random.below(126),
    };
    if random.below(2) == 0 { magnitude } else { -magnitude }
}

fn text(random: &mut Random) -> Tree {
    let pieces = ["a", "b", "sheet", "\u{e9}", "\u{20ac}", "\u{1f33f}", "a name longer than eight bytes"];
    Tree::Text((0..random.below(4)).flat_map(|_| random.one_of(&pieces).bytes()).collect())
}

/// Its local names are in order and no two the same; seldom long enough for the other letter.
fn code(random: &mut Random, levels: usize) -> Tree {
    let mut kinds: Vec<u8> = (0..random.below(5)).map(|_| random.one_of(&[0x20, 0x60, 0x40, 0x80])).collect();
    kinds.sort_by_key(|kind| [0x40, 0x80].iter().position(|known| known == kind));
    let locals = (0..kinds.len()).map(|at| Tree::Text(format!("v{at}").into_bytes())).collect();
    let names = (0..random.below(3)).map(|_| text(random)).collect();
    let bytes = |random: &mut Random, len: usize| Tree::Bytes((0..len).map(|_| random.byte()).collect());
    let len = 2 * random.below(3);
    let parts = vec![
        bytes(random, len),
        Tree::Row(b'(', (0..random.below(3)).map(|_| value(random, levels - 2)).collect()),
        Tree::Row(b'(', names),
        Tree::Row(b'(', locals),
        Tree::Bytes(kinds),
        text(random),
        Tree::Text(vec![b'n'; random.one_of(&[0, 1, 7, 255, 256])]),
        text(random),
        bytes(random, 3),
        bytes(random, 0),
    ];
    let numbers = std::array::from_fn(|_| random.below(1000) as u32);
    Tree::Code(Box::new(Code { numbers, parts, line: random.one_of(&[0, 1, 2, 77, 0x7FFF_FFFF]) }))
}

// ---- one of a value's forms

/// What is made, and what its slots hold once they are whole.
struct Form<'a> {
    random: &'a mut Random,
    out: Vec<u8>,
    slots: Vec<Option<Tree>>,
}

fn form(random: &mut Random, tree: &Tree) -> Vec<u8> {
    let mut form = Form { random, out: Vec::new(), slots: Vec::new() };
    form.put(tree);
    form.out
}

impl Form<'_> {
    fn put(&mut self, tree: &Tree) {
        let there = self.slots.iter().position(|slot| slot.as_ref() == Some(tree));
        match there {
            Some(index) if self.random.below(3) != 0 => {
                self.out.push(self.random.one_of(&[b'r', 0xF2]));
                self.word(index as u32);
            }
            _ => self.put_whole(tree),
        }
    }

    fn put_whole(&mut self, tree: &Tree) {
        let letter = self.letter(tree);
        let slot = (self.random.below(3) == 0).then_some(self.slots.len());
        self.out.push(letter | if slot.is_some() { 0x80 } else { 0 });
        self.slots.extend(slot.map(|_| None));
        match tree {
            Tree::Single(_) => {}
            Tree::Whole(number) => self.put_number(letter, *number),
            Tree::Float(bits) => self.out.extend(bits.to_le_bytes()),
            Tree::Complex(bits) => self.out.extend(bits.map(u64::to_le_bytes).concat()),
            Tree::Bytes(contents) | Tree::Text(contents) => {
                self.count(letter, contents.len());
                self.out.extend(contents);
            }
            Tree::Row(_, members) => {
                self.count(letter, members.len());
                members.iter().for_each(|member| self.put(member));
                self.out.extend((letter == b'{').then_some(b'0'));
            }
            Tree::Code(code) => self.put_code(code),
        }
        if let Some(slot) = slot {
            self.slots[slot] = Some(tree.clone());
        }
    }

    fn letter(&mut self, tree: &Tree) -> u8 {
        match tree {
            Tree::Single(letter) => *letter,
            Tree::Whole(number) if i32::try_from(*number).is_ok() => self.random.one_of(b"iIl"),
            Tree::Whole(number) if i64::try_from(*number).is_ok() => self.random.one_of(b"Il"),
            Tree::Whole(_) => b'l',
            Tree::Float(_) => b'g',
            Tree::Complex(_) => b'y',
            Tree::Bytes(_) => b's',
            Tree::Text(contents) if contents.len() < 256 => self.random.one_of(b"utaAzZ"),
            Tree::Text(_) => self.random.one_of(b"utaA"),
            Tree::Row(b'(', _) => self.random.one_of(b"()"),
            Tree::Row(letter, _) => *letter,
            Tree::Code(_) => b'c',
        }
    }

    fn count(&mut self, letter: u8, count: usize) {
        match letter {
            b'z' | b'Z' | b')' => self.out.push(count as u8),
            b':' | b'{' => {}
            _ => self.word(count as u32),
        }
    }

    fn put_number(&mut self, letter: u8, number: i128) {
        match letter {
            b'i' => self.word(number as u32),
            b'I' => self.out.extend((number as u64).to_le_bytes()),
            _ => {
                let magnitude = number.unsigned_abs();
                let digits = (128 - magnitude.leading_zeros()).div_ceil(15);
                self.word(if number < 0 { digits.wrapping_neg() } else { digits });
                self.out.extend((0..digits).flat_map(|at| ((magnitude >> (15 * at)) as u16 & 0x7FFF).to_le_bytes()));
            }
        }
    }

    fn put_code(&mut self, code: &Code) {
        code.numbers.iter().for_each(|number| self.word(*number));
        code.parts[..TABLES].iter().for_each(|part| self.put(part));
        let line = if code.line == 0 { self.random.one_of(&[0, 0xFFFF_FFFF, 0x8000_0000]) } else { code.line };
        self.word(line);
        code.parts[TABLES..].iter().for_each(|part| self.put(part));
    }

    fn word(&mut self, number: u32) {
        self.out.extend(number.to_le_bytes());
    }
}

// ---- one place changed

fn change(random: &mut Random, tree: &mut Tree) {
    match tree {
        Tree::Single(letter) => {
            let others: Vec<u8> = b"NFTS.".iter().copied().filter(|other| other != letter).collect();
            *letter = random.one_of(&others);
        }
        Tree::Whole(0) => *tree = Tree::Whole(1),
        Tree::Whole(number) if random.below(3) == 0 => *number = -*number,
        Tree::Whole(number) => *number ^= 1 << random.below(70),
        Tree::Float(bits) => *bits ^= 1 << random.below(64),
        Tree::Complex(bits) => bits[random.below(2)] ^= 1 << random.below(64),
        Tree::Bytes(contents) if !contents.is_empty() => contents[0] ^= 1 << random.below(8),
        Tree::Bytes(contents) | Tree::Text(contents) => contents.push(b'x'),
        Tree::Row(letter, members) if !members.is_empty() && (*letter == b':' || random.below(3) != 0) => {
            let at = random.below(members.len());
            change(random, &mut members[at]);
        }
        Tree::Row(letter, members) => change_row(random, letter, members),
        Tree::Code(code) => change_code(random, code),
    }
}

/// Another kind, another order, a member more or less; of a dict one pair.
fn change_row(random: &mut Random, letter: &mut u8, members: &mut Vec<Tree>) {
    let before = members.clone();
    let own = if *letter == b'{' { 2 } else { 1 };
    match random.below(4) {
        0 if own == 1 => {
            let others: Vec<u8> = b"([<>".iter().copied().filter(|other| other != letter).collect();
            *letter = random.one_of(&others);
            return;
        }
        1 => members.truncate(members.len().saturating_sub(own)),
        2 if members.len() > own => members.rotate_left(own),
        _ => {}
    }
    if *members == before {
        members.extend((0..own).map(|_| Tree::Single(b'N')));
    }
}

/// Every code that comes of it is one that is read, its local names in order.
fn change_code(random: &mut Random, code: &mut Code) {
    let part = random.below(code.parts.len());
    match &mut code.parts[part] {
        Tree::Row(_, members) if !members.is_empty() => {
            let at = random.below(members.len());
            change(random, &mut members[at]);
        }
        Tree::Row(_, members) if part == NAMES => members.push(Tree::Text(vec![b'x'])),
        Tree::Row(_, members) if part == CONSTANTS => members.push(Tree::Single(b'N')),
        Tree::Bytes(kinds) if part == KINDS && !kinds.is_empty() => kinds[0] ^= 0x10,
        Tree::Bytes(instructions) if part == 0 => instructions.extend([9, 0]),
        Tree::Bytes(contents) | Tree::Text(contents) if part > KINDS => contents.push(b'x'),
        _ if random.below(3) == 0 => code.line ^= 1,
        _ => code.numbers[random.below(5)] ^= 1 << random.below(9),
    }
}

// ---- the runs

fn hold_one(random: &mut Random) -> Result<&'static str, String> {
    let levels = random.one_of(&[1, 2, 3, 4, 5]);
    let tree = value(random, levels);
    let [one, other] = [form(random, &tree), form(random, &tree)];
    let bytes = written(&one).map_err(|fault| format!("{}: {fault}", hex(&one)))?;
    if bytes != written(&other).map_err(|fault| format!("{}: {fault}", hex(&other)))? {
        return Err(format!("the same value, not written alike: {} and {}", hex(&one), hex(&other)));
    }
    let mut changed = tree.clone();
    change(random, &mut changed);
    let third = form(random, &changed);
    if tree == changed || bytes == written(&third).map_err(|fault| format!("{}: {fault}", hex(&third)))? {
        return Err(format!("changed in one place, and written alike: {} and {}", hex(&one), hex(&third)));
    }
    Ok(if one == other { "one form; one place changed: other bytes" } else { TWO_FORMS })
}

const TWO_FORMS: &str = "two forms: the same bytes written; one place changed: other bytes";

pub fn hold(seed: u64, count: usize) -> bool {
    let tally = shares::tallied("equal", |share, tally| {
        for number in share.cases(0..count as u64) {
            match hold_one(&mut Random::new(seed << 32 | number)) {
                Ok(class) => tally.count(class, Ok(())),
                Err(difference) => {
                    tally.count("", Err(difference));
                    share.stop();
                }
            }
        }
    });
    tally.finish()
}
