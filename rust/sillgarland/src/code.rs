//! A code object: its five numbers, ten parts and first line, by name.
use crate::{Golden, Text, Value};

/// The five numbers of a code object, in stored order.
pub const NUMBERS: [&str; 5] = ["arguments", "positional-only", "keyword-only", "stack", "flags"];

/// The ten parts of a code object, in stored order; they are its [children](Value::children).
pub const PARTS: [&str; 10] = [
    "code",
    "constants",
    "names",
    "local names",
    "kinds",
    "file",
    "name",
    "qualified name",
    "line table",
    "exception table",
];

const LOCAL: u8 = 0x20;
const CELL: u8 = 0x40;
const FREE: u8 = 0x80;

/// A code object.
#[derive(Clone, Copy)]
pub struct Code<'a> {
    value: Value<'a>,
    parts: [u32; 10],
}

impl<'a> Code<'a> {
    /// Of a value whose letter is `c`: an accepted reading gave it ten children of the right types.
    pub(crate) fn new(value: Value<'a>) -> Self {
        let mut parts = [0; 10];
        for (part, child) in parts.iter_mut().zip(value.children()) {
            *part = child.node();
        }
        Self { value, parts }
    }

    /// The code object as a value.
    pub fn value(&self) -> Value<'a> {
        self.value
    }

    /// Arguments, positional-only, keyword-only, stack and flags, as [`NUMBERS`] names them.
    pub fn numbers(&self) -> [u32; 5] {
        std::array::from_fn(|at| self.number(4 * at))
    }

    /// The line of its `def`, as it is stored.
    pub fn first_line(&self) -> i32 {
        self.number(self.value.size()) as i32
    }

    /// The code bytes, two an instruction.
    pub fn code(&self) -> &'a [u8] {
        self.part(0).bytes()
    }

    /// How many instructions there are, cache units counted.
    pub fn instructions(&self) -> usize {
        self.code().len() / 2
    }

    /// The tuple of constants.
    pub fn constants(&self) -> Value<'a> {
        self.part(1)
    }

    /// The names that it uses: globals, attributes and modules.
    pub fn names(&self) -> impl ExactSizeIterator<Item = Text<'a>> {
        self.part(2).children().map(|name| Text(name.bytes()))
    }

    /// The names of its arguments, local variables, cells and free variables.
    pub fn local_names(&self) -> impl ExactSizeIterator<Item = Text<'a>> {
        self.part(3).children().map(|name| Text(name.bytes()))
    }

    /// A byte for each local name: Local 0x20, Cell 0x40, Free 0x80.
    pub fn kinds(&self) -> &'a [u8] {
        self.part(4).bytes()
    }

    /// The file that it was compiled from.
    pub fn file(&self) -> Text<'a> {
        Text(self.part(5).bytes())
    }

    /// Its name.
    pub fn name(&self) -> Text<'a> {
        Text(self.part(6).bytes())
    }

    /// Its name with those of the classes and functions around it.
    pub fn qualified_name(&self) -> Text<'a> {
        Text(self.part(7).bytes())
    }

    /// The bytes value that holds its line table; [`lines`](Self::lines) reads it.
    pub fn line_table(&self) -> Value<'a> {
        self.part(8)
    }

    /// The exception table's bytes; [`handlers`](Self::handlers) reads it.
    pub fn exception_table(&self) -> &'a [u8] {
        self.part(9).bytes()
    }

    pub(crate) fn exception_table_place(&self) -> usize {
        self.part(9).place()
    }

    /// The position of the first local name that breaks document 01's name order, if one does: Local names (cells or
    /// not) first, then names that are Cell alone and equal no Local name, then Free ones. Code out of this order may not
    /// read back once it is written.
    pub fn out_of_name_order(&self) -> Option<usize> {
        let is_cell_alone = |kind: &u8| name_group(*kind) == Some(1);
        let mut local = std::collections::HashSet::new(); // asked only of names that are Cell alone, which few code objects have
        if self.kinds().iter().any(is_cell_alone) {
            let kinds = self.local_names().zip(self.kinds());
            local.extend(kinds.filter(|(_, kind)| **kind & LOCAL != 0).map(|(name, _)| name));
        }
        let mut least = 0;
        self.local_names().zip(self.kinds()).position(|(name, kind)| {
            let group = name_group(*kind);
            let kept = group.is_some_and(|group| group >= least && (group != 1 || !local.contains(&name)));
            least = group.unwrap_or(least);
            !kept
        })
    }

    pub(crate) fn golden(&self) -> Golden<'a> {
        self.value.golden
    }

    fn part(&self, at: usize) -> Value<'a> {
        self.golden().value(self.parts[at])
    }

    /// The 32-bit number that stands so far from the argument count.
    fn number(&self, distance: usize) -> u32 {
        let bytes = self.golden().input[self.value.place() + distance..].first_chunk();
        u32::from_le_bytes(*bytes.expect("a code object's numbers are within the input"))
    }
}

/// Which group a kind belongs to: Local with or without Cell, Cell alone, Free alone; else none.
fn name_group(kind: u8) -> Option<u32> {
    match kind & (LOCAL | CELL | FREE) {
        LOCAL => Some(0),
        both if both == LOCAL | CELL => Some(0),
        CELL => Some(1),
        FREE => Some(2),
        _ => None,
    }
}

impl std::fmt::Debug for Code<'_> {
    fn fmt(&self, f: &mut std::fmt::Formatter) -> std::fmt::Result {
        write!(f, "code object {} at {}", self.qualified_name(), self.value.place())
    }
}

#[cfg(test)]
pub(crate) mod tests {
    use crate::Reader;

    pub fn put(letter: u8, bytes: &[u8]) -> Vec<u8> {
        let mut out = vec![letter];
        out.extend((bytes.len() as u32).to_le_bytes());
        out.extend(bytes);
        out
    }

    fn put_names(names: &[&str]) -> Vec<u8> {
        let mut out = vec![b'('];
        out.extend((names.len() as u32).to_le_bytes());
        out.extend(names.iter().flat_map(|name| put(b'u', name.as_bytes())));
        out
    }

    /// A code object of so many instructions, named `total`.
    pub fn put_code(instructions: usize, names: &[&str], kinds: &[u8], first_line: i32, table: &[u8]) -> Vec<u8> {
        let mut out = vec![b'c'];
        out.extend([1_u32, 0, 2, 3, 0x43].iter().flat_map(|number| number.to_le_bytes()));
        out.extend(put(b's', &[9, 0].repeat(instructions)));
        out.extend(b")\x01N");
        out.extend(put_names(&["print"]));
        out.extend(put_names(names));
        out.extend(put(b's', kinds));
        out.extend(put(b'u', b"rates.py"));
        out.extend(put(b'u', b"total"));
        out.extend(put(b'u', b"Sheet.total"));
        out.extend(first_line.to_le_bytes());
        out.extend(put(b's', table));
        out.extend(put(b's', b"ex"));
        out
    }

    #[test]
    fn parts_by_name() {
        let input = put_code(4, &["a", "b"], &[0x20, 0x80], 212, &[0xFB]);
        let mut reader = Reader::new();
        let golden = reader.read(&input).unwrap();
        assert_eq!(golden.consumed(), input.len());
        let code = golden.code_objects().next().unwrap();
        assert_eq!(code.numbers(), [1, 0, 2, 3, 0x43]);
        assert_eq!((code.first_line(), code.instructions()), (212, 4));
        assert_eq!(code.constants().children().len(), 1);
        assert_eq!(code.names().map(|name| name.to_string()).collect::<Vec<_>>(), ["print"]);
        assert_eq!(code.local_names().map(|name| name.to_string()).collect::<Vec<_>>(), ["a", "b"]);
        assert_eq!(code.kinds(), [0x20, 0x80]);
        assert_eq!(code.file().as_str(), Some("rates.py"));
        assert_eq!(code.name().as_str(), Some("total"));
        assert_eq!(code.qualified_name().as_str(), Some("Sheet.total"));
        assert_eq!(code.exception_table(), b"ex");
        assert_eq!(format!("{code:?}"), "code object Sheet.total at 1");
    }

    #[test]
    fn name_order() {
        let order = |names: &[&str], kinds: &[u8]| {
            let input = put_code(0, names, kinds, 1, &[]);
            let mut reader = Reader::new();
            let golden = reader.read(&input).unwrap();
            golden.code_objects().next().unwrap().out_of_name_order()
        };
        assert_eq!(order(&[], &[]), None);
        assert_eq!(order(&["a", "b", "c", "d"], &[0x60, 0x20, 0x40, 0x80]), None);
        assert_eq!(order(&["a", "b"], &[0x27, 0x41]), None);
        assert_eq!(order(&["a", "b"], &[0x40, 0x20]), Some(1));
        assert_eq!(order(&["a", "a"], &[0x20, 0x40]), Some(1));
        assert_eq!(order(&["a", "a"], &[0x20, 0x80]), None);
        assert_eq!(order(&["a"], &[0]), Some(0));
        assert_eq!(order(&["a", "b"], &[0x20, 0xC0]), Some(1));
    }
}
