//! Stands in for malachite_bigint: a whole number as a sign and its bytes, least first, the last one not zero. Made from
//! machine numbers, shifted left, added and negated: what reading a long needs; and taken apart again, to write one.
#![no_std]

extern crate alloc;

use alloc::vec::Vec;
use core::{fmt, ops};
use num_traits::Zero;

#[derive(Clone, Copy, Debug, PartialEq, Eq, Hash)]
pub enum Sign {
    Minus,
    NoSign,
    Plus,
}

#[derive(Clone, Debug, PartialEq, Eq, Hash)]
pub struct BigInt {
    sign: Sign,
    bytes: Vec<u8>,
}

impl BigInt {
    fn new(negative: bool, mut bytes: Vec<u8>) -> Self {
        while bytes.last() == Some(&0) {
            bytes.pop();
        }
        let sign = match (bytes.is_empty(), negative) {
            (true, _) => Sign::NoSign,
            (false, true) => Sign::Minus,
            (false, false) => Sign::Plus,
        };
        Self { sign, bytes }
    }

    /// Sign and magnitude; zero is the one byte 0, as in the original.
    #[must_use]
    pub fn to_bytes_le(&self) -> (Sign, Vec<u8>) {
        match self.sign {
            Sign::NoSign => (Sign::NoSign, alloc::vec![0]),
            sign => (sign, self.bytes.clone()),
        }
    }
}

impl Zero for BigInt {
    fn is_zero(&self) -> bool {
        self.sign == Sign::NoSign
    }
}

impl From<i64> for BigInt {
    fn from(value: i64) -> Self {
        Self::new(value < 0, value.unsigned_abs().to_le_bytes().to_vec())
    }
}

impl From<i32> for BigInt {
    fn from(value: i32) -> Self {
        Self::from(i64::from(value))
    }
}

impl From<u32> for BigInt {
    fn from(value: u32) -> Self {
        Self::from(i64::from(value))
    }
}

impl TryFrom<&BigInt> for i32 {
    type Error = ();

    fn try_from(value: &BigInt) -> Result<i32, ()> {
        if value.bytes.len() > 4 {
            return Err(());
        }
        let mut four = [0; 4];
        four[..value.bytes.len()].copy_from_slice(&value.bytes);
        let magnitude = i64::from(u32::from_le_bytes(four));
        let signed = if value.sign == Sign::Minus { -magnitude } else { magnitude };
        i32::try_from(signed).map_err(|_| ())
    }
}

impl ops::Neg for BigInt {
    type Output = Self;

    fn neg(self) -> Self {
        Self::new(self.sign == Sign::Plus, self.bytes)
    }
}

impl ops::Shl<u32> for BigInt {
    type Output = Self;

    fn shl(self, places: u32) -> Self {
        let mut bytes = alloc::vec![0; (places / 8) as usize];
        let mut carried = 0;
        for byte in self.bytes {
            let wide = (u16::from(byte) << (places % 8)) | carried;
            bytes.push(wide as u8);
            carried = wide >> 8;
        }
        bytes.push(carried as u8);
        Self::new(self.sign == Sign::Minus, bytes)
    }
}

impl ops::AddAssign for BigInt {
    /// Adds a number that is not of the other sign: the carried Rust adds digits of one sign only.
    fn add_assign(&mut self, other: Self) {
        assert!(self.sign == other.sign || self.is_zero() || other.is_zero());
        let negative = self.sign == Sign::Minus || other.sign == Sign::Minus;
        let mut bytes = core::mem::take(&mut self.bytes);
        if bytes.len() < other.bytes.len() {
            bytes.resize(other.bytes.len(), 0);
        }
        let mut carried = 0;
        for (i, byte) in bytes.iter_mut().enumerate() {
            let sum = u16::from(*byte) + u16::from(other.bytes.get(i).copied().unwrap_or(0)) + carried;
            *byte = sum as u8;
            carried = sum >> 8;
        }
        bytes.push(carried as u8);
        *self = Self::new(negative, bytes);
    }
}

/// In hexadecimal, which the original does not: no comparison looks at it.
impl fmt::Display for BigInt {
    fn fmt(&self, f: &mut fmt::Formatter<'_>) -> fmt::Result {
        f.write_str(if self.sign == Sign::Minus { "-0x" } else { "0x" })?;
        self.to_bytes_le().1.iter().rev().try_for_each(|byte| write!(f, "{byte:02x}"))
    }
}

#[cfg(test)]
mod tests {
    use super::{BigInt, Sign};

    /// Digits of 15 bits, put together as a long is read, have the bytes of the machine's own sum.
    #[test]
    fn digits_add_up() {
        let mut seed = 1u64;
        for len in 0..8 {
            let (mut sum, mut expected) = (BigInt::from(0), 0u128);
            for i in 0..len {
                seed = seed.wrapping_mul(6_364_136_223_846_793_005).wrapping_add(1_442_695_040_888_963_407);
                let digit = (seed >> 49) as u32;
                sum += BigInt::from(digit) << (15 * i);
                expected += u128::from(digit) << (15 * i);
            }
            let (sign, mut bytes) = (-sum).to_bytes_le();
            assert_eq!(sign, if expected == 0 { Sign::NoSign } else { Sign::Minus });
            bytes.resize(16, 0);
            assert_eq!(bytes, expected.to_le_bytes());
        }
    }

    #[test]
    fn fits_32_bits_exactly_where_it_does() {
        for value in [0, 1, -1, 255, 256, i64::from(i32::MAX), i64::from(i32::MIN), 1 << 31, -(1 << 31) - 1, i64::MIN] {
            assert_eq!(i32::try_from(&BigInt::from(value)).ok(), i32::try_from(value).ok());
        }
    }
}
