//! Which nodes of two values are the same value. Each node gets a number, and two nodes have the same number exactly if they are the
//! same value in document 01's sense. However values are shared, this takes time in proportion to the bytes, nodes and entries of both.
use sillgarland::{Code, Content, Golden, Value, Wide};
use std::cmp::Reverse;
use std::collections::HashMap;

pub struct Classes {
    sides: [Vec<u32>; 2],
}

/// What a value holds itself, its children aside.
#[derive(PartialEq, Eq, Hash)]
enum Own<'a> {
    /// A singleton or a container, by the letter that stands for its kind.
    Kind(char),
    Truth(bool),
    Whole(i64),
    Wide(Wide<'a>),
    Float(u64),
    Complex(u64, u64),
    Bytes(&'a [u8]),
    Text(&'a [u8]),
    Code([u32; 5], i32),
}

impl Classes {
    pub fn of(goldens: [Golden; 2]) -> Self {
        let mut known = HashMap::new();
        let sides = [0, 1].map(|side: usize| {
            let mut values: Vec<Value> = goldens[side].values().collect();
            let mut classes = vec![0; values.len()];
            // Children end before what they stand in, or with it, and references name what has ended.
            values.sort_by_key(|value| (value.span().end, Reverse(value.node())));
            for value in values {
                let children: Vec<u32> = value.children().map(|child| classes[child.node() as usize]).collect();
                let next = known.len() as u32;
                classes[value.node() as usize] = *known.entry((own(value), children)).or_insert(next);
            }
            classes
        });
        Self { sides }
    }

    pub fn are_same(&self, [left, right]: [Value; 2]) -> bool {
        self.sides[0][left.node() as usize] == self.sides[1][right.node() as usize]
    }
}

fn own(value: Value) -> Own {
    match value.content() {
        Content::Truth(truth) => Own::Truth(truth),
        Content::Whole(number) => Own::Whole(number),
        Content::Wide(number) => Own::Wide(number),
        Content::Float(number) => Own::Float(number.to_bits()),
        Content::Complex(real, imaginary) => Own::Complex(real.to_bits(), imaginary.to_bits()),
        Content::Bytes(bytes) => Own::Bytes(bytes),
        Content::Text(text) => Own::Text(text.bytes()),
        Content::Code(code) => own_of_code(&code),
        Content::Tuple(_) => Own::Kind('('),
        _ => Own::Kind(value.letter()),
    }
}

/// "code parts alike with first line 0 or less as 0".
fn own_of_code(code: &Code) -> Own<'static> {
    Own::Code(code.numbers(), code.first_line().max(0))
}

#[cfg(test)]
mod tests {
    use super::*;
    use crate::samples;
    use sillgarland::{Reader, first_difference};

    /// Of all pairs of nodes, those with one number are those without a difference.
    fn hold(left: &[u8], right: &[u8]) {
        let mut readers = [Reader::new(), Reader::new()];
        let [one, other] = &mut readers;
        let goldens = [one.read(left).unwrap(), other.read(right).unwrap()];
        let classes = Classes::of(goldens);
        for left in goldens[0].values() {
            for right in goldens[1].values() {
                let same = first_difference(left, right).is_none();
                assert_eq!(classes.are_same([left, right]), same, "{left:?} and {right:?}");
            }
        }
    }

    #[test]
    fn classes_of_samples() {
        let firsts: Vec<Vec<u8>> = samples::all().into_iter().filter_map(|(_, input)| first_value(input)).collect();
        for left in &firsts {
            for right in firsts.iter().filter(|right| left.len() + right.len() < 800) {
                hold(left, right);
            }
        }
    }

    fn first_value(mut input: Vec<u8>) -> Option<Vec<u8>> {
        let consumed = Reader::new().read(&input).ok()?.consumed();
        input.truncate(consumed);
        Some(input)
    }

    #[test]
    fn letters_and_sharing_do_not_count() {
        hold(b")\x02i\x05\0\0\0z\x01a", b"(\x02\0\0\0I\x05\0\0\0\0\0\0\0u\x01\0\0\0a");
        hold(b")\x02\xA9\x01Tr\0\0\0\0", b")\x02)\x01T)\x01T");
        hold(b"[\x01\0\0\0N", b")\x01N");
        hold(b"<\x01\0\0\0N", b">\x01\0\0\0N");
        hold(b"[\x01\0\0\0g\0\0\0\0\0\0\0\x80", b")\x01g\0\0\0\0\0\0\0\0");
    }

    /// Forty tuples, each of the one before twice: 2^40 ways to the first.
    #[test]
    fn sharing_costs_nothing() {
        let shared = (0..40_u8).fold(b"(\x29\0\0\0\xA9\0".to_vec(), |input, slot| {
            [&input[..], &[0xA9, 2, b'r', slot, 0, 0, 0, b'r', slot, 0, 0, 0]].concat()
        });
        let mut readers = [Reader::new(), Reader::new()];
        let [one, other] = &mut readers;
        let goldens = [one.read(&shared).unwrap(), other.read(&shared).unwrap()];
        let classes = Classes::of(goldens);
        assert!(classes.are_same(goldens.map(Golden::root)));
    }
}
