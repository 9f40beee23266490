//! Whether two values are the same, in document 01's sense: "same numbers, float bits, bytes and strings, same kind and
//! sequence of children, code parts alike with first line 0 or less as 0. Interning, sharing and integer, string or tuple
//! letter do not count."
use crate::{Children, Code, Content, NUMBERS, PARTS, Value};
use std::collections::HashSet;
use std::fmt;
use std::iter::Zip;
use std::ops::ControlFlow;

/// The first place at which two values differ.
#[derive(Clone, Debug)]
pub struct Difference<'a, 'b> {
    /// The way from the two roots to the two values below.
    pub path: Path,
    /// In the first value.
    pub left: Value<'a>,
    /// In the second value.
    pub right: Value<'b>,
    /// In what these two differ.
    pub what: What,
}

/// In what two values differ.
#[derive(Clone, Copy, Debug, PartialEq, Eq)]
pub enum What {
    /// They are of different kinds, or leaves that hold different things.
    Content,
    /// They have different numbers of children.
    Count,
    /// They are code objects, and this number of theirs is not the same; `first line` is one of them.
    Number(&'static str),
}

/// The way from a root to a value in it. Shows as `.constants[2]` or `{key 0}`; the root itself is `the value itself`.
#[derive(Clone, Debug, Default, PartialEq, Eq)]
pub struct Path(pub Vec<Step>);

/// One step down.
#[derive(Clone, Copy, Debug, PartialEq, Eq)]
pub enum Step {
    /// To a member of a sequence or set, counted from 0, or to a slice's start, stop or step.
    Member(usize),
    /// To a dict's key, counted from 0.
    Key(usize),
    /// To the value of a dict's key.
    ValueOf(usize),
    /// To a code object's part, as [`PARTS`] numbers them.
    Part(usize),
}

impl Step {
    /// The step from a value to one of its children.
    pub fn to_child(parent: Value, at: usize) -> Self {
        match parent.letter() {
            'c' => Step::Part(at),
            '{' if at.is_multiple_of(2) => Step::Key(at / 2),
            '{' => Step::ValueOf(at / 2),
            _ => Step::Member(at),
        }
    }
}

impl fmt::Display for Step {
    fn fmt(&self, f: &mut fmt::Formatter) -> fmt::Result {
        match *self {
            Step::Member(at) => write!(f, "[{at}]"),
            Step::Key(at) => write!(f, "{{key {at}}}"),
            Step::ValueOf(at) => write!(f, "{{value of key {at}}}"),
            Step::Part(at) => write!(f, ".{}", PARTS[at].replace(' ', "_")),
        }
    }
}

impl fmt::Display for Path {
    fn fmt(&self, f: &mut fmt::Formatter) -> fmt::Result {
        if self.0.is_empty() {
            return write!(f, "the value itself");
        }
        self.0.iter().try_for_each(|step| write!(f, "{step}"))
    }
}

/// The first difference of two values, or none if they are the same value. However values are shared, this takes time in
/// proportion to the nodes and entries of both.
///
/// ```
/// use sillgarland::{Reader, first_difference};
///
/// let (mut left, mut right) = (Reader::new(), Reader::new());
/// let short = left.read(b")\x01i\x05\0\0\0")?.root();
/// let long = right.read(b"(\x01\0\0\0I\x05\0\0\0\0\0\0\0")?.root();
/// assert!(first_difference(short, long).is_none());
/// # Ok::<(), sillgarland::Refused>(())
/// ```
pub fn first_difference<'a, 'b>(left: Value<'a>, right: Value<'b>) -> Option<Difference<'a, 'b>> {
    let mut alike = Alike::new(left.golden.used_nodes(), right.golden.used_nodes());
    let mut first = None;
    compare(
        left,
        right,
        |one, other| alike.joined(one, other),
        |difference| {
            first = Some(difference);
            ControlFlow::Break(())
        },
    );
    first
}

/// Hands on every difference of two values, in the order of the first. Children of two values that differ in their number are
/// compared as far as both have them; a pair of shared values is compared once. Where values are shared in hostile ways, this
/// may take time in proportion to the product of the nodes of both.
///
/// ```
/// use sillgarland::{Reader, each_difference};
///
/// let (mut left, mut right) = (Reader::new(), Reader::new());
/// let (one, other) = (left.read(b")\x03TNF")?.root(), right.read(b")\x03NNN")?.root());
/// let mut paths = Vec::new();
/// each_difference(one, other, |difference| paths.push(difference.path.to_string()));
/// assert_eq!(paths, ["[0]", "[2]"]);
/// # Ok::<(), sillgarland::Refused>(())
/// ```
pub fn each_difference<'a, 'b>(left: Value<'a>, right: Value<'b>, mut act: impl FnMut(Difference<'a, 'b>)) {
    let mut met = HashSet::new();
    compare(
        left,
        right,
        |one, other| met.insert((one, other)),
        |difference| {
            act(difference);
            ControlFlow::Continue(())
        },
    );
}

/// Compares two values and, where a pair is new, their children; what differs is handed on.
fn compare<'a, 'b>(
    left: Value<'a>,
    right: Value<'b>,
    mut is_new: impl FnMut(u32, u32) -> bool,
    mut act: impl FnMut(Difference<'a, 'b>) -> ControlFlow<()>,
) {
    let mut open = Vec::new();
    let mut pair = Some((left, right));
    while let Some((left, right)) = pair {
        if is_new(left.node(), right.node()) {
            for what in differences_at(left, right) {
                if act(Difference { path: path_to(&open), left, right, what }).is_break() {
                    return;
                }
            }
            if same_kind(left, right) {
                open.push(Open { left, children: left.children().zip(right.children()), begun: 0 });
            }
        }
        pair = next_pair(&mut open);
    }
}

/// Two values whose children are being compared: all children before `begun`, and the last of them down to `open`'s next.
struct Open<'a, 'b> {
    left: Value<'a>,
    children: Zip<Children<'a>, Children<'b>>,
    begun: usize,
}

fn path_to(open: &[Open]) -> Path {
    Path(open.iter().map(|pair| Step::to_child(pair.left, pair.begun - 1)).collect())
}

fn next_pair<'a, 'b>(open: &mut Vec<Open<'a, 'b>>) -> Option<(Value<'a>, Value<'b>)> {
    loop {
        let innermost = open.last_mut()?;
        if let Some(pair) = innermost.children.next() {
            innermost.begun += 1;
            return Some(pair);
        }
        open.pop();
    }
}

/// Whether their children mean the same: those of a set are no members of a list.
fn same_kind(left: Value, right: Value) -> bool {
    let kind = |value: Value| if value.letter() == ')' { '(' } else { value.letter() };
    left.children().len() == 0 || kind(left) == kind(right)
}

/// In what two values differ themselves, their children aside: one thing, or several numbers of two code objects. Children are compared
/// one by one unless it is [`What::Content`].
pub fn differences_at(left: Value, right: Value) -> impl Iterator<Item = What> {
    let codes = left.as_code().zip(right.as_code());
    let numbers = codes.map(|(left, right)| numbers_that_differ(&left, &right)).into_iter().flatten();
    numbers.map(What::Number).chain(if codes.is_some() { None } else { difference_at(left, right) })
}

fn difference_at(left: Value, right: Value) -> Option<What> {
    use Content::*;
    match (left.content(), right.content()) {
        (Tuple(l), Tuple(r)) | (List(l), List(r)) | (Set(l), Set(r)) => difference_in_count(l, r),
        (FrozenSet(l), FrozenSet(r)) | (Slice(l), Slice(r)) | (Dict(l), Dict(r)) => difference_in_count(l, r),
        (l, r) if l == r => Option::None,
        _ => Some(What::Content),
    }
}

fn difference_in_count(left: Children, right: Children) -> Option<What> {
    (left.len() != right.len()).then_some(What::Count)
}

fn numbers_that_differ(left: &Code, right: &Code) -> impl Iterator<Item = &'static str> + use<> {
    let pairs = NUMBERS.into_iter().zip(left.numbers().into_iter().zip(right.numbers()));
    let first_lines = (left.first_line().max(0) as u32, right.first_line().max(0) as u32);
    pairs.chain([("first line", first_lines)]).filter(|(_, (l, r))| l != r).map(|(name, _)| name)
}

/// Which nodes of the two readings have been met as the same value: classes that are joined. A pair that is already in one
/// class need not be compared again, and there are fewer joins than nodes.
struct Alike {
    parents: Vec<u32>,
    right_begins: u32,
}

impl Alike {
    fn new(left: u32, right: u32) -> Self {
        Self { parents: (0..left + right).collect(), right_begins: left }
    }

    /// Joins the classes of a node of the left reading and one of the right; says whether they were apart.
    fn joined(&mut self, left: u32, right: u32) -> bool {
        let (left, right) = (self.class(left), self.class(self.right_begins + right));
        self.parents[right as usize] = left;
        left != right
    }

    fn class(&mut self, mut node: u32) -> u32 {
        while self.parents[node as usize] != node {
            let above = self.parents[self.parents[node as usize] as usize];
            self.parents[node as usize] = above;
            node = above;
        }
        node
    }
}

#[cfg(test)]
mod tests {
    use super::*;
    use crate::Reader;
    use crate::code::tests::put_code;

    fn difference(left: &[u8], right: &[u8]) -> Option<(String, What)> {
        let (mut one, mut other) = (Reader::new(), Reader::new());
        let found = first_difference(one.read(left).unwrap().root(), other.read(right).unwrap().root());
        found.map(|difference| (difference.path.to_string(), difference.what))
    }

    fn at(path: &str, what: What) -> Option<(String, What)> {
        Some((path.to_string(), what))
    }

    #[test]
    fn letters_and_sharing_do_not_count() {
        assert_eq!(difference(b")\x02\xE9\x05\0\0\0r\0\0\0\0", b"(\x02\0\0\0i\x05\0\0\0l\x01\0\0\0\x05\0"), None);
        assert_eq!(difference(b"z\x01a", b"u\x01\0\0\0a"), None);
        assert_eq!(difference(b"u\x01\0\0\0a", b"s\x01\0\0\0a"), at("the value itself", What::Content));
        assert_eq!(difference(b"T", b"i\x01\0\0\0"), at("the value itself", What::Content));
    }

    #[test]
    fn floats_by_their_bits() {
        let float = |bits: u64| [b"g".as_slice(), &bits.to_le_bytes()].concat();
        let complex = |bits: u64| [b"y".as_slice(), &[0; 8], &bits.to_le_bytes()].concat();
        assert_eq!(difference(&float(0), &float(1 << 63)), at("the value itself", What::Content));
        assert_eq!(difference(&float(0x7FF8 << 48), &float(0x7FF8 << 48)), None);
        assert_eq!(difference(&complex(0), &complex(1 << 63)), at("the value itself", What::Content));
        assert_eq!(difference(&complex(5), &complex(5)), None);
    }

    #[test]
    fn the_path_leads_to_the_first_difference() {
        assert_eq!(difference(b")\x02N)\x02NT", b")\x02N)\x02NF"), at("[1][1]", What::Content));
        assert_eq!(difference(b")\x01)\x01N", b")\x01)\x02NN"), at("[0]", What::Count));
        assert_eq!(difference(b"{NT0", b"{NF0"), at("{value of key 0}", What::Content));
        assert_eq!(difference(b"{NNTT0", b"{NNFT0"), at("{key 1}", What::Content));
        assert_eq!(difference(b"[\0\0\0\0", b"(\0\0\0\0"), at("the value itself", What::Content));
    }

    #[test]
    fn code_objects_by_numbers_and_parts() {
        let code = |first_line, table| put_code(1, &["a"], &[0x20], first_line, table);
        assert_eq!(difference(&code(0, b"\xF8"), &code(-7, b"\xF8")), None);
        assert_eq!(
            difference(&code(0, b"\xF8"), &code(1, b"\xF8")),
            at("the value itself", What::Number("first line"))
        );
        assert_eq!(difference(&code(1, b"\xF8"), &code(1, b"\xF9")), at(".line_table", What::Content));
        let mut other = code(1, b"\xF8");
        other[17] ^= 1;
        assert_eq!(difference(&code(1, b"\xF8"), &other), at("the value itself", What::Number("flags")));
    }

    #[test]
    fn every_difference_in_order() {
        let all = |left: &[u8], right: &[u8]| {
            let (mut one, mut other, mut met) = (Reader::new(), Reader::new(), Vec::new());
            let roots = (one.read(left).unwrap().root(), other.read(right).unwrap().root());
            each_difference(roots.0, roots.1, |difference| met.push((difference.path.to_string(), difference.what)));
            met
        };
        let told = |path: &str, what| (path.to_string(), what);
        assert_eq!(all(b"N", b"N"), []);
        assert_eq!(all(b")\x02TT", b")\x03FTN"), [told("the value itself", What::Count), told("[0]", What::Content)]);
        assert_eq!(all(b"[\x01\0\0\0N", b")\x01T"), [told("the value itself", What::Content)]);
        let code = |stack: u8, line, table| {
            let mut code = put_code(1, &["a"], &[0x20], line, table);
            code[13] = stack;
            code
        };
        let numbers = [What::Number("stack"), What::Number("first line")].map(|what| told("the value itself", what));
        let table = told(".line_table", What::Content);
        assert_eq!(all(&code(3, 1, b"\xF8"), &code(4, 2, b"\xF9")), [&numbers[..], &[table]].concat());
    }

    /// Tuples of two, each of them the same tuple twice: two to the thirtieth leaves in a few hundred bytes.
    #[test]
    fn sharing_costs_no_time() {
        let doubled = |leaf: u8| {
            let mut input = b")\x02".to_vec();
            input.extend(b"\xA9\x02".repeat(29));
            input.extend([b')' | 0x80, 1, leaf]);
            for slot in (0..30_u32).rev() {
                input.push(b'r');
                input.extend(slot.to_le_bytes());
            }
            input
        };
        assert_eq!(difference(&doubled(b'T'), &doubled(b'T')), None);
        assert_eq!(difference(&doubled(b'T'), &doubled(b'F')), at(&"[0]".repeat(31), What::Content));
    }
}
