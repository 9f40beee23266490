//! Equality in Rust: values, code objects and contents are equal exactly where they are the same by [`first_difference`], which also
//! says where they differ. Letters and sharing do not count, and floats are compared by their bits.
use crate::{Children, Code, Content, Golden, Value, first_difference};

/// The same contents, in time in proportion to the nodes and entries of both.
impl<'b> PartialEq<Value<'b>> for Value<'_> {
    fn eq(&self, other: &Value<'b>) -> bool {
        first_difference(*self, *other).is_none()
    }
}

impl Eq for Value<'_> {}

/// The same value, wherever it stands and whatever follows it.
impl<'b> PartialEq<Golden<'b>> for Golden<'_> {
    fn eq(&self, other: &Golden<'b>) -> bool {
        self.root() == other.root()
    }
}

impl Eq for Golden<'_> {}

/// The same numbers and parts, with a first line of 0 or less as 0.
impl<'b> PartialEq<Code<'b>> for Code<'_> {
    fn eq(&self, other: &Code<'b>) -> bool {
        self.value() == other.value()
    }
}

impl Eq for Code<'_> {}

/// As many that are left, and the same in each place. Each pair is compared by itself: where children share most of what is in them,
/// comparing the values that they are of is faster.
impl<'b> PartialEq<Children<'b>> for Children<'_> {
    fn eq(&self, other: &Children<'b>) -> bool {
        self.len() == other.len() && self.zip(*other).all(|(left, right)| left == right)
    }
}

impl Eq for Children<'_> {}

/// The same kind, and the same in it.
impl<'b> PartialEq<Content<'b>> for Content<'_> {
    fn eq(&self, other: &Content<'b>) -> bool {
        use Content::*;
        match (*self, *other) {
            (None, None) | (Stop, Stop) | (Ellipsis, Ellipsis) => true,
            (Truth(l), Truth(r)) => l == r,
            (Whole(l), Whole(r)) => l == r,
            (Wide(l), Wide(r)) => l == r,
            (Float(l), Float(r)) => l.to_bits() == r.to_bits(),
            (Complex(l, m), Complex(r, s)) => [l.to_bits(), m.to_bits()] == [r.to_bits(), s.to_bits()],
            (Bytes(l), Bytes(r)) => l == r,
            (Text(l), Text(r)) => l == r,
            (Tuple(l), Tuple(r)) | (List(l), List(r)) | (Set(l), Set(r)) => l == r,
            (FrozenSet(l), FrozenSet(r)) | (Slice(l), Slice(r)) | (Dict(l), Dict(r)) => l == r,
            (Code(l), Code(r)) => l == r,
            _ => false,
        }
    }
}

impl Eq for Content<'_> {}

#[cfg(test)]
mod tests {
    use crate::Reader;
    use crate::code::tests::put_code;

    #[test]
    fn equal_exactly_where_there_is_no_difference() {
        let (one, other) = (put_code(1, &["a"], &[0x20], 1, &[0xF8]), put_code(1, &["a"], &[0x20], 2, &[0xF8]));
        let float = |bits: u64| [b"g".as_slice(), &bits.to_le_bytes()].concat();
        let complex = |bits: u64| [b"y".as_slice(), &[0; 8], &bits.to_le_bytes()].concat();
        let wide = |digit: u8| [b"l\x06\0\0\0".as_slice(), &[0; 10], &[digit, 0]].concat();
        let short: [&[u8]; 13] = [
            b"N",
            b"S",
            b".",
            b"T",
            b"F",
            b"i\x01\0\0\0",
            b"s\x01\0\0\0a",
            b"z\x01a",
            b")\x01T",
            b"[\x01\0\0\0T",
            b")\x02TT",
            b"{TF0",
            b"<\x01\0\0\0T",
        ];
        let mut all: Vec<Vec<u8>> = short.map(<[u8]>::to_vec).to_vec();
        all.extend([one, other, float(0), float(1 << 63), complex(0), complex(1 << 63), wide(1), wide(2)]);
        all.push([b")\x01", all[13].as_slice()].concat());
        for (left, right) in all.iter().flat_map(|left| all.iter().map(move |right| (left, right))) {
            let (mut one, mut other) = (Reader::new(), Reader::new());
            let (l, r) = (one.read(left).unwrap(), other.read(right).unwrap());
            let equal = left == right;
            assert_eq!((l == r, l.root().content() == r.root().content()), (equal, equal), "{left:?} {right:?}");
        }
    }

    /// Tuples of two, each of them the same tuple twice: two to the thirtieth leaves in a few hundred bytes.
    #[test]
    fn sharing_costs_no_time() {
        let mut input = [b")\x02".as_slice(), &b"\xA9\x02".repeat(29), &[b')' | 0x80, 1, b'T']].concat();
        (0..30_u8).rev().for_each(|slot| input.extend([b'r', slot, 0, 0, 0]));
        let (mut one, mut other) = (Reader::new(), Reader::new());
        let (left, right) = (one.read(&input).unwrap(), other.read(&input).unwrap());
        assert!(left == right && left.root().content() == right.root().content());
    }
}
