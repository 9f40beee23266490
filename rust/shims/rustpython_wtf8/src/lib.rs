//! Stands in for rustpython_wtf8: text that is UTF-8, but for surrogate code points, which may stand in it as three
//! bytes each (`ED A0..BF 80..BF`), alone or in any order.
#![no_std]

extern crate alloc;

use alloc::{borrow::Cow, borrow::ToOwned, string::String, vec::Vec};
use core::{borrow::Borrow, fmt, ops::Deref, str};

#[derive(PartialEq, Eq, Hash)]
#[repr(transparent)]
pub struct Wtf8([u8]);

impl Wtf8 {
    #[must_use]
    pub fn new(text: &str) -> &Self {
        Self::of_bytes(text.as_bytes())
    }

    /// The bytes as text, unless they break the rule above.
    #[must_use]
    pub fn from_bytes(bytes: &[u8]) -> Option<&Self> {
        let mut rest = bytes;
        while let Err(error) = str::from_utf8(rest) {
            rest = after_surrogate(&rest[error.valid_up_to()..])?;
        }
        Some(Self::of_bytes(bytes))
    }

    #[must_use]
    pub fn as_bytes(&self) -> &[u8] {
        &self.0
    }

    #[must_use]
    pub fn is_empty(&self) -> bool {
        self.0.is_empty()
    }

    #[must_use]
    pub fn to_string_lossy(&self) -> Cow<'_, str> {
        String::from_utf8_lossy(&self.0)
    }

    fn of_bytes(bytes: &[u8]) -> &Self {
        // SAFETY: Wtf8 is transparent over [u8].
        unsafe { &*(core::ptr::from_ref(bytes) as *const Self) }
    }
}

fn after_surrogate(bytes: &[u8]) -> Option<&[u8]> {
    match bytes {
        [0xED, 0xA0..=0xBF, 0x80..=0xBF, rest @ ..] => Some(rest),
        _ => None,
    }
}

impl fmt::Debug for Wtf8 {
    fn fmt(&self, f: &mut fmt::Formatter<'_>) -> fmt::Result {
        fmt::Debug::fmt(&self.to_string_lossy(), f)
    }
}

impl ToOwned for Wtf8 {
    type Owned = Wtf8Buf;

    fn to_owned(&self) -> Wtf8Buf {
        Wtf8Buf(self.0.to_vec())
    }
}

#[derive(Clone, PartialEq, Eq, Hash)]
pub struct Wtf8Buf(Vec<u8>);

impl Deref for Wtf8Buf {
    type Target = Wtf8;

    fn deref(&self) -> &Wtf8 {
        Wtf8::of_bytes(&self.0)
    }
}

impl Borrow<Wtf8> for Wtf8Buf {
    fn borrow(&self) -> &Wtf8 {
        self
    }
}

impl fmt::Debug for Wtf8Buf {
    fn fmt(&self, f: &mut fmt::Formatter<'_>) -> fmt::Result {
        fmt::Debug::fmt(&**self, f)
    }
}

#[cfg(test)]
mod tests {
    use super::Wtf8;
    use alloc::vec::Vec;

    fn is_text(bytes: &[u8]) -> bool {
        Wtf8::from_bytes(bytes).is_some()
    }

    /// A code point in UTF-8's pattern, also where it is a surrogate.
    fn encoded(point: u32) -> Vec<u8> {
        let low = |shift: u32| 0x80 | (point >> shift & 0x3F) as u8;
        match point {
            0..=0x7F => Vec::from([point as u8]),
            0x80..=0x7FF => Vec::from([0xC0 | (point >> 6) as u8, low(0)]),
            0x800..=0xFFFF => Vec::from([0xE0 | (point >> 12) as u8, low(6), low(0)]),
            _ => Vec::from([0xF0 | (point >> 18) as u8, low(12), low(6), low(0)]),
        }
    }

    #[test]
    fn every_code_point_is_text() {
        assert!((0..=0x10_FFFF).all(|point| is_text(&encoded(point))));
    }

    /// Of the strings with a lead byte for their length, as many are text as there are code points of that length.
    #[test]
    fn nothing_else_is_text() {
        let bytes = || 0..=0xFFu8;
        let two = (0x80..=0xFF).flat_map(|a| bytes().map(move |b| [a, b])).filter(|string| is_text(string));
        assert_eq!(two.count(), 0x800 - 0x80);
        let three = (0xE0..=0xEF).flat_map(|a| bytes().flat_map(move |b| bytes().map(move |c| [a, b, c])));
        assert_eq!(three.filter(|string| is_text(string)).count(), 0x1_0000 - 0x800);
        let later = || 0x80..=0xBFu8;
        let four = (0xF0..=0xFF)
            .flat_map(|a| later().flat_map(move |b| later().flat_map(move |c| later().map(move |d| [a, b, c, d]))));
        assert_eq!(four.filter(|string| is_text(string)).count(), 0x11_0000 - 0x1_0000);
    }

    #[test]
    fn surrogates_stand_in_any_order_and_cut_text_is_none() {
        assert!(is_text(b"\xED\xA0\x80\xED\xB0\x80 \xED\xBF\xBF"));
        assert!(!is_text(b"\xED\xA0"));
        assert!(!is_text(b"a\x80"));
    }
}
