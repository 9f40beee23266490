//! Stores as the port is lent them: full of marks before the call, guarded on both sides, and held afterwards to
//! "what was written, then zeros".
use crate::memory::Memory;
use sillgarland_sys::Location;
use std::fmt::Debug;

pub trait Cell: Copy + PartialEq + Debug {
    const MARK: Self;
    const ZERO: Self;
}

impl Cell for u8 {
    const MARK: Self = 0xA5;
    const ZERO: Self = 0;
}

impl Cell for u32 {
    const MARK: Self = 0xA5A5_A5A5;
    const ZERO: Self = 0;
}

impl Cell for u64 {
    const MARK: Self = 0xA5A5_A5A5_A5A5_A5A5;
    const ZERO: Self = 0;
}

impl Cell for Location {
    const MARK: Self = Location { line: 7, column: 7, end_line: 7, end_column: 7 };
    const ZERO: Self = Location { line: 0, column: 0, end_line: 0, end_column: 0 };
}

pub struct Lent<T> {
    memory: Memory<T>,
}

impl<T: Cell> Lent<T> {
    pub fn new(len: usize) -> Self {
        Self { memory: Memory::new(len, T::MARK) }
    }

    /// A store that holds these cells, as it is lent for reading.
    pub fn of(cells: &[T]) -> Self {
        Self { memory: Memory::of(cells, T::MARK) }
    }

    pub fn len(&self) -> usize {
        self.memory.len()
    }

    pub fn pointer(&mut self) -> *mut T {
        self.memory.pointer()
    }

    pub fn cells(&self) -> &[T] {
        self.memory.cells()
    }

    /// The store holds what was written and then zeros, and the cells beside it are untouched.
    pub fn holds(&self, name: &str, written: &[T]) -> Result<(), String> {
        let store = self.cells();
        if !store.starts_with(written) {
            return Err(format!("{name} holds {store:?} and not {written:?}"));
        }
        if store[written.len()..].iter().any(|cell| *cell != T::ZERO) {
            return Err(format!("{name} is not zero past what was written: {store:?}"));
        }
        if !self.memory.is_untouched_beside(T::MARK) {
            return Err(format!("cells beside {name} were written"));
        }
        Ok(())
    }
}

/// Bytes as the port is lent them for reading: the middle part of a larger input, whose other bytes all say "more".
pub struct Part {
    memory: Memory<u8>,
}

impl Part {
    pub fn new(bytes: &[u8]) -> Self {
        Self { memory: Memory::of(bytes, 0xFF) }
    }

    pub fn bytes(&self) -> &[u8] {
        self.memory.cells()
    }
}
