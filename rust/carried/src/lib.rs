//! rustpython-compiler-core, compiled unchanged from the folder that build.rs found. Nothing of it lies in this
//! repository; where the folder is absent this crate is empty, and PRESENT is false.
#![no_std]
#![recursion_limit = "256"]

#[cfg(carried)]
extern crate alloc;

/// Whether the carried Rust was found and is compiled in.
pub const PRESENT: bool = cfg!(carried);

#[cfg(carried)]
include!(concat!(env!("OUT_DIR"), "/root.rs"));
