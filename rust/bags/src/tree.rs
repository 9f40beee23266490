//! The bag that builds a tree. Given notes, it reads code bytes of any opcodes (and notes those the crate refuses) and
//! leaves the line table alone; without notes it does what the Rust does by default.
use crate::Notes;
use carried::bytecode::{BasicBag, CodeObject, CodeUnit, CodeUnits, ConstantData};
use carried::marshal::{MarshalBag, MarshalError};
use malachite_bigint::BigInt;
use num_complex::Complex64;
use rustpython_wtf8::Wtf8;
use std::rc::Rc;

type Result<T> = std::result::Result<T, MarshalError>;

pub enum Tree {
    None,
    Bool(bool),
    Ellipsis,
    Stop,
    Int(BigInt),
    Float(u64),
    Complex(u64, u64),
    Str(Box<[u8]>),
    Bytes(Box<[u8]>),
    Group(Group, Vec<Rc<Tree>>),
    Code(Box<Code>),
}

#[derive(Clone, Copy, PartialEq, Eq, Debug)]
pub enum Group {
    Tuple,
    List,
    Set,
    Frozenset,
    Dict,
    Slice,
}

pub struct Code {
    pub object: CodeObject<ConstantData>,
    pub constants: Vec<Rc<Tree>>,
    pub bytes: Vec<u8>,
}

#[derive(Clone, Copy, Default)]
pub struct TreeBag<'a> {
    notes: Option<&'a Notes>,
}

impl<'a> TreeBag<'a> {
    pub fn noting(notes: &'a Notes) -> Self {
        Self { notes: Some(notes) }
    }

    fn at_part(&self) {
        if let Some(notes) = self.notes {
            notes.at_part.set(true);
        }
    }
}

fn group(group: Group, children: impl Iterator<Item = Rc<Tree>>) -> Rc<Tree> {
    Rc::new(Tree::Group(group, children.collect()))
}

impl MarshalBag for TreeBag<'_> {
    type Value = Rc<Tree>;
    type ConstantBag = BasicBag;

    fn make_bool(&self, value: bool) -> Rc<Tree> {
        Rc::new(Tree::Bool(value))
    }

    fn make_none(&self) -> Rc<Tree> {
        Rc::new(Tree::None)
    }

    fn make_ellipsis(&self) -> Rc<Tree> {
        Rc::new(Tree::Ellipsis)
    }

    fn make_float(&self, value: f64) -> Rc<Tree> {
        Rc::new(Tree::Float(value.to_bits()))
    }

    fn make_complex(&self, value: Complex64) -> Rc<Tree> {
        Rc::new(Tree::Complex(value.re.to_bits(), value.im.to_bits()))
    }

    fn make_str(&self, value: &Wtf8) -> Rc<Tree> {
        Rc::new(Tree::Str(value.as_bytes().into()))
    }

    fn make_bytes(&self, value: &[u8]) -> Rc<Tree> {
        Rc::new(Tree::Bytes(value.into()))
    }

    fn make_int(&self, value: BigInt) -> Rc<Tree> {
        Rc::new(Tree::Int(value))
    }

    fn make_tuple(&self, elements: impl Iterator<Item = Rc<Tree>>) -> Rc<Tree> {
        group(Group::Tuple, elements)
    }

    fn make_code(&self, object: CodeObject<ConstantData>) -> Result<Rc<Tree>> {
        self.make_code_with_constants_and_bytes(object, Vec::new(), Vec::new())
    }

    fn make_code_with_constants_and_bytes(
        &self,
        object: CodeObject<ConstantData>,
        constants: Vec<Rc<Tree>>,
        bytes: Vec<u8>,
    ) -> Result<Rc<Tree>> {
        if let Some(notes) = self.notes {
            notes.at_part.set(false);
            notes.finished.set(notes.finished.get() + 1);
            // Which line of 0 or less the code had is not kept: the two ends stand for all of them.
            let first_lines = object.first_line_number.map_or([0, i32::MIN], |line| [line.get() as i32; 2]);
            for first_line in first_lines {
                notes.note_line_table(&object.linetable, first_line, bytes.len() / 2);
            }
        }
        Ok(Rc::new(Tree::Code(Box::new(Code { object, constants, bytes }))))
    }

    /// With notes: no instructions at all, so that nothing hangs on them; an odd number of bytes is refused as by default.
    fn code_units_from_bytes(&self, bytes: &[u8]) -> Result<CodeUnits> {
        let Some(notes) = self.notes else {
            return CodeUnits::try_from(bytes);
        };
        if !bytes.len().is_multiple_of(2) {
            return Err(MarshalError::InvalidBytecode);
        }
        notes.note_code_bytes(bytes);
        Ok(CodeUnits::from(Vec::<CodeUnit>::new()))
    }

    fn make_stop_iter(&self) -> Result<Rc<Tree>> {
        Ok(Rc::new(Tree::Stop))
    }

    fn make_list(&self, it: impl Iterator<Item = Rc<Tree>>) -> Result<Rc<Tree>> {
        Ok(group(Group::List, it))
    }

    fn make_set(&self, it: impl Iterator<Item = Rc<Tree>>) -> Result<Rc<Tree>> {
        Ok(group(Group::Set, it))
    }

    fn make_frozenset(&self, it: impl Iterator<Item = Rc<Tree>>) -> Result<Rc<Tree>> {
        Ok(group(Group::Frozenset, it))
    }

    fn make_dict(&self, it: impl Iterator<Item = (Rc<Tree>, Rc<Tree>)>) -> Result<Rc<Tree>> {
        Ok(group(Group::Dict, it.flat_map(|(key, value)| [key, value])))
    }

    fn make_slice(&self, start: Rc<Tree>, stop: Rc<Tree>, step: Rc<Tree>) -> Result<Rc<Tree>> {
        Ok(group(Group::Slice, [start, stop, step].into_iter()))
    }

    fn constant_bag(self) -> BasicBag {
        BasicBag
    }

    /// The constants travel beside the code object, as they were read.
    fn code_constant_from_value(&self, _value: &Rc<Tree>) -> Result<ConstantData> {
        Ok(ConstantData::None)
    }

    fn bytes_from_value(&self, value: &Rc<Tree>) -> Option<Vec<u8>> {
        self.at_part();
        match &**value {
            Tree::Bytes(bytes) => Some(bytes.to_vec()),
            _ => None,
        }
    }

    fn str_from_value(&self, value: &Rc<Tree>) -> Option<String> {
        self.at_part();
        let Tree::Str(bytes) = &**value else {
            return None;
        };
        if let Some(notes) = self.notes.filter(|_| std::str::from_utf8(bytes).is_err()) {
            notes.surrogates.set(true);
        }
        Some(String::from_utf8_lossy(bytes).into_owned())
    }

    fn tuple_elements_from_value(&self, value: &Rc<Tree>) -> Option<Vec<Rc<Tree>>> {
        self.at_part();
        match &**value {
            Tree::Group(Group::Tuple, elements) => Some(elements.clone()),
            _ => None,
        }
    }
}
