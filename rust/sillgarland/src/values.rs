//! Values back to back: each read into stores of its own, so that they may be kept side by side.
use crate::golden::Record;
use crate::{Golden, OwnedValue, Reader, Refused};

/// The values that stand back to back in an input, as a golden file has a code object and the result expected of it.
///
/// ```
/// let mut values = sillgarland::values(b")\x01NTu\x09");
/// let [tuple, truth] = [values.next().unwrap()?, values.next().unwrap()?];
/// assert_eq!((tuple.start(), tuple.golden().root().letter()), (0, ')'));
/// assert_eq!((truth.start(), truth.golden().root().letter()), (3, 'T'));
/// let refused = values.next().unwrap().unwrap_err();
/// assert_eq!(refused.place, sillgarland::Place::Byte(5)); // of the input, not of its third value
/// assert!(values.next().is_none());
/// # Ok::<(), sillgarland::Refused>(())
/// ```
///
/// The first refusal is the last item. An empty input has no value, and that is a refusal too.
pub fn values(input: &[u8]) -> Values<'_> {
    Values { input, at: Some(0), reader: Reader::new() }
}

/// An iterator over values back to back; see [`values`].
#[derive(Debug)]
pub struct Values<'a> {
    input: &'a [u8],
    at: Option<usize>,
    reader: Reader,
}

/// A value at a byte of the input, one of several that stand back to back, with the records that it was read into.
#[derive(Clone, Debug)]
pub struct ValueAt<'a> {
    start: usize,
    input: &'a [u8],
    nodes: Box<[Record]>,
    entries: Box<[[u32; 2]]>,
    consumed: usize,
}

impl ValueAt<'_> {
    /// The byte of the whole input at which it begins. Places within it count from here.
    pub fn start(&self) -> usize {
        self.start
    }

    /// The byte behind its last.
    pub fn end(&self) -> usize {
        self.start + self.consumed
    }

    /// The value as it was read.
    pub fn golden(&self) -> Golden<'_> {
        let Self { input, nodes, entries, consumed, .. } = self;
        Golden { input, nodes, entries, consumed: *consumed, in_session: false }
    }

    /// The value with its bytes, to be kept without the input.
    pub fn to_owned_value(&self) -> OwnedValue {
        self.golden().root().to_owned_value()
    }
}

impl<'a> Iterator for Values<'a> {
    type Item = Result<ValueAt<'a>, Refused>;

    fn next(&mut self) -> Option<Self::Item> {
        let start = self.at.take()?;
        let input = &self.input[start..];
        let read = self.reader.read(input).map(|golden| ValueAt {
            start,
            input,
            nodes: golden.nodes.into(),
            entries: golden.entries.into(),
            consumed: golden.consumed,
        });
        if let Ok(value) = &read {
            self.at = Some(value.end()).filter(|end| *end < self.input.len());
        }
        Some(read.map_err(|refused| refused.after(start)))
    }
}

impl std::iter::FusedIterator for Values<'_> {}

#[cfg(test)]
mod tests {
    use super::*;
    use crate::{Place, Refusal};

    #[test]
    fn all_values_may_be_kept() {
        let kept: Result<Vec<ValueAt>, Refused> = values(b"N)\x02TFi\x05\0\0\0").collect();
        let kept = kept.unwrap();
        let spans: Vec<(usize, usize, char)> =
            kept.iter().map(|value| (value.start(), value.end(), value.golden().root().letter())).collect();
        assert_eq!(spans, [(0, 1, 'N'), (1, 5, ')'), (5, 10, 'i')]);
    }

    #[test]
    fn nothing_follows_a_refusal() {
        let mut nothing = values(b"");
        let refused = nothing.next().unwrap().unwrap_err();
        assert_eq!((refused.refusal, refused.place), (Refusal::EofObject, Place::Byte(0)));
        assert!(nothing.next().is_none());
        assert_eq!(values(b"NN\n").filter(Result::is_err).count(), 1);
        assert_eq!(values(b"NN\n").count(), 3);
    }
}
