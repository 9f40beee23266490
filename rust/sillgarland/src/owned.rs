//! A value that owns its bytes and its stores, to be kept, sent and compared without the input or the reader.
use crate::golden::Record;
use crate::{Golden, Value};
use std::fmt;

/// A value with everything that it needs. It is equal to another where their contents are; sharing and letters do not count.
///
/// ```
/// use sillgarland::{OwnedValue, Reader};
///
/// fn expected() -> Result<OwnedValue, sillgarland::Refused> {
///     Ok(Reader::new().read(b")\x01i\x05\0\0\0")?.root().to_owned_value()) // input and reader end here
/// }
///
/// let mut reader = Reader::new();
/// let found = reader.read(b"(\x01\0\0\0I\x05\0\0\0\0\0\0\0")?.root();
/// assert_eq!(expected()?, found);
/// # Ok::<(), sillgarland::Refused>(())
/// ```
#[derive(Clone)]
pub struct OwnedValue {
    input: Box<[u8]>,
    nodes: Box<[Record]>,
    entries: Box<[[u32; 2]]>,
    root: u32,
}

impl Value<'_> {
    /// A copy of this value that owns all that it needs: the bytes and records of the reading that it is from.
    pub fn to_owned_value(self) -> OwnedValue {
        let Golden { input, nodes, entries, consumed, in_session } = self.golden;
        if in_session {
            return self.read_anew(|value| value.to_owned_value());
        }
        OwnedValue { input: input[..consumed].into(), nodes: nodes.into(), entries: entries.into(), root: self.node() }
    }
}

impl OwnedValue {
    /// The value, to be walked and asked.
    pub fn value(&self) -> Value<'_> {
        let (input, consumed) = (&*self.input, self.input.len());
        Golden { input, nodes: &self.nodes, entries: &self.entries, consumed, in_session: false }.value(self.root)
    }
}

impl PartialEq for OwnedValue {
    fn eq(&self, other: &Self) -> bool {
        self.value() == other.value()
    }
}

impl Eq for OwnedValue {}

impl PartialEq<Value<'_>> for OwnedValue {
    fn eq(&self, other: &Value) -> bool {
        self.value() == *other
    }
}

impl PartialEq<OwnedValue> for Value<'_> {
    fn eq(&self, other: &OwnedValue) -> bool {
        *self == other.value()
    }
}

impl fmt::Debug for OwnedValue {
    fn fmt(&self, f: &mut fmt::Formatter) -> fmt::Result {
        write!(f, "owned {:?}", self.value())
    }
}

#[cfg(test)]
mod tests {
    use super::*;
    use crate::Reader;

    fn owned(input: &[u8]) -> OwnedValue {
        Reader::new().read(input).unwrap().root().to_owned_value()
    }

    #[test]
    fn a_value_outlives_what_it_was_read_from() {
        let kept = std::thread::spawn(|| owned(b")\x02\xE9\x05\0\0\0r\0\0\0\0N")).join().unwrap();
        assert_eq!(kept, owned(b"(\x02\0\0\0i\x05\0\0\0i\x05\0\0\0"));
        assert_ne!(kept, owned(b"(\x02\0\0\0i\x05\0\0\0i\x06\0\0\0"));
        assert_eq!(kept.clone().value().children().len(), 2);
    }

    #[test]
    fn a_part_of_a_value() {
        let part = Reader::new().read(b")\x02T)\x01N").unwrap().root().children().last().unwrap().to_owned_value();
        assert_eq!((part.value().letter(), part.clone()), (')', owned(b")\x01N")));
    }
}
