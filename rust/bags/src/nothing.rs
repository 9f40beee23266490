//! The bag that keeps nothing: what remains is the Rust's own work of reading. The parts of a code, which the Rust asks
//! back from the bag, are all empty.
use carried::bytecode::{BasicBag, CodeObject, ConstantData};
use carried::marshal::{MarshalBag, MarshalError};
use malachite_bigint::BigInt;
use num_complex::Complex64;
use rustpython_wtf8::Wtf8;

type Result = std::result::Result<(), MarshalError>;

#[derive(Clone, Copy)]
pub struct NothingBag;

impl MarshalBag for NothingBag {
    type Value = ();
    type ConstantBag = BasicBag;

    fn make_bool(&self, _: bool) {}

    fn make_none(&self) {}

    fn make_ellipsis(&self) {}

    fn make_float(&self, _: f64) {}

    fn make_complex(&self, _: Complex64) {}

    fn make_str(&self, _: &Wtf8) {}

    fn make_bytes(&self, _: &[u8]) {}

    fn make_int(&self, _: BigInt) {}

    fn make_tuple(&self, elements: impl Iterator<Item = ()>) {
        elements.for_each(drop);
    }

    fn make_code(&self, _: CodeObject<ConstantData>) -> Result {
        Ok(())
    }

    fn make_stop_iter(&self) -> Result {
        Ok(())
    }

    fn make_list(&self, it: impl Iterator<Item = ()>) -> Result {
        it.for_each(drop);
        Ok(())
    }

    fn make_set(&self, it: impl Iterator<Item = ()>) -> Result {
        it.for_each(drop);
        Ok(())
    }

    fn make_frozenset(&self, it: impl Iterator<Item = ()>) -> Result {
        it.for_each(drop);
        Ok(())
    }

    fn make_dict(&self, it: impl Iterator<Item = ((), ())>) -> Result {
        it.for_each(drop);
        Ok(())
    }

    fn make_slice(&self, (): (), (): (), (): ()) -> Result {
        Ok(())
    }

    fn constant_bag(self) -> BasicBag {
        BasicBag
    }

    fn code_constant_from_value(&self, (): &()) -> std::result::Result<ConstantData, MarshalError> {
        Ok(ConstantData::None)
    }

    fn bytes_from_value(&self, (): &()) -> Option<Vec<u8>> {
        Some(Vec::new())
    }

    fn str_from_value(&self, (): &()) -> Option<String> {
        Some(String::new())
    }

    fn tuple_elements_from_value(&self, (): &()) -> Option<Vec<()>> {
        Some(Vec::new())
    }
}
