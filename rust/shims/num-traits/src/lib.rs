//! Stands in for num-traits: whether a number is zero.
#![no_std]

pub trait Zero {
    fn is_zero(&self) -> bool;
}
