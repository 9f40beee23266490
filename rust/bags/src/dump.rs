//! A tree written by the carried Rust: `serialize_value`, and `serialize_code_with` for a code whose constants the crate's
//! own constants cannot hold (lists, sets, dicts, stop).
use crate::{Code, Group, Tree};
use carried::bytecode::{CodeObject, CodeUnits, ConstantData};
use carried::marshal::{Dumpable, DumpableValue, Write, serialize_code_with, serialize_value};
use malachite_bigint::BigInt;
use num_complex::Complex64;
use rustpython_wtf8::Wtf8;
use std::cell::RefCell;
use std::convert::Infallible;
use std::rc::Rc;

/// What the Rust writes, and what of it the Rust would not have kept as it was read.
pub struct Written {
    pub bytes: Vec<u8>,
    pub code_bytes: CodeBytes,
}

/// How the crate takes the code bytes of a value: as they are; accepted, but rewritten where it writes them; refused by
/// some. Where not as they are, others of the same number were written, and those read were put in their place.
#[derive(Clone, Copy, Debug, PartialEq, Eq, PartialOrd, Ord)]
pub enum CodeBytes {
    Kept,
    Rewritten,
    Refused,
}

pub fn written(tree: &Tree) -> Written {
    let mut out = Out::default();
    let Ok(Ok(())) = Dump { tree, out: &out.clone() }.with_dump(|value| serialize_value(&mut out, value));
    let Shared { bytes, code_bytes } = out.0.take();
    Written { bytes, code_bytes }
}

/// The bytes that every writer of a tree adds to.
#[derive(Clone, Default)]
struct Out(Rc<RefCell<Shared>>);

struct Shared {
    bytes: Vec<u8>,
    code_bytes: CodeBytes,
}

impl Default for Shared {
    fn default() -> Self {
        Self { bytes: Vec::new(), code_bytes: CodeBytes::Kept }
    }
}

impl Out {
    fn len(&self) -> usize {
        self.0.borrow().bytes.len()
    }

    fn truncate(&self, len: usize) {
        self.0.borrow_mut().bytes.truncate(len);
    }

    fn put(&self, at: usize, bytes: &[u8]) {
        self.0.borrow_mut().bytes[at..at + bytes.len()].copy_from_slice(bytes);
    }

    fn note(&self, code_bytes: CodeBytes) {
        let mut shared = self.0.borrow_mut();
        shared.code_bytes = shared.code_bytes.max(code_bytes);
    }
}

impl Write for Out {
    fn write_slice(&mut self, slice: &[u8]) {
        self.0.borrow_mut().bytes.extend_from_slice(slice);
    }
}

#[derive(Clone, Copy)]
struct Dump<'a> {
    tree: &'a Tree,
    out: &'a Out,
}

impl Dumpable for Dump<'_> {
    type Error = Infallible;
    type Constant = ConstantData;

    fn with_dump<R>(&self, f: impl FnOnce(DumpableValue<'_, Self>) -> R) -> Result<R, Infallible> {
        Ok(match self.tree {
            Tree::None => f(DumpableValue::None),
            Tree::Bool(value) => f(DumpableValue::Boolean(*value)),
            Tree::Ellipsis => f(DumpableValue::Ellipsis),
            Tree::Stop => f(DumpableValue::StopIter),
            Tree::Int(value) => f(DumpableValue::Integer(value)),
            Tree::Float(bits) => f(DumpableValue::Float(f64::from_bits(*bits))),
            Tree::Complex(re, im) => f(DumpableValue::Complex(complex(*re, *im))),
            Tree::Str(bytes) => f(DumpableValue::Str(text(bytes))),
            Tree::Bytes(bytes) => f(DumpableValue::Bytes(bytes)),
            Tree::Group(group, children) => self.group(*group, children, f),
            Tree::Code(code) => self.code(code, f),
        })
    }
}

impl<'a> Dump<'a> {
    fn group<R>(&self, group: Group, children: &'a [Rc<Tree>], f: impl FnOnce(DumpableValue<'_, Self>) -> R) -> R {
        let dumps: Vec<_> = children.iter().map(|tree| Dump { tree, ..*self }).collect();
        match group {
            Group::Tuple => f(DumpableValue::Tuple(&dumps)),
            Group::List => f(DumpableValue::List(&dumps)),
            Group::Set => f(DumpableValue::Set(&dumps)),
            Group::Frozenset => f(DumpableValue::Frozenset(&dumps)),
            Group::Slice => f(DumpableValue::Slice(&dumps[0], &dumps[1], &dumps[2])),
            Group::Dict => {
                let pairs: Vec<_> = dumps.chunks(2).map(|pair| (pair[0], pair[1])).collect();
                f(DumpableValue::Dict(&pairs))
            }
        }
    }

    fn code<R>(&self, code: &'a Code, f: impl FnOnce(DumpableValue<'_, Self>) -> R) -> R {
        if let Some(object) = object(code) {
            return f(DumpableValue::Code(&object));
        }
        // Among the others it is written from here, and then something must be answered: a none, which is taken back.
        self.code_with(code);
        let end = self.out.len();
        let answer = f(DumpableValue::None);
        self.out.truncate(end);
        answer
    }

    fn code_with(&self, code: &'a Code) {
        let mut out = self.out.clone();
        out.write_u8(b'c');
        let instructions = self.out.len() + NUMBERS_AND_HEADER;
        let (kept, units) = units(&code.bytes);
        let object = CodeObject { instructions: units, ..code.object.clone() };
        let mut constants = code.constants.iter();
        let Ok(()) = serialize_code_with(&mut out, &object, |out, _| {
            let tree = constants.next().expect("as many constants as were read");
            Dump { tree, out: self.out }.with_dump(|value| serialize_value(out, value))?
        });
        self.out.put(instructions, &code.bytes);
        self.out.note(kept);
    }
}

/// A code's five numbers, and letter and length of its code bytes.
const NUMBERS_AND_HEADER: usize = 5 * 4 + 1 + 4;

/// The units that these bytes stand for, if the crate keeps them; else as many plain ones.
fn units(bytes: &[u8]) -> (CodeBytes, CodeUnits) {
    const PLAIN: u8 = 30;
    let kept = match CodeUnits::try_from(bytes) {
        Ok(units) if units.original_bytes() == bytes => return (CodeBytes::Kept, units),
        Ok(_) => CodeBytes::Rewritten,
        Err(_) => CodeBytes::Refused,
    };
    let plain = [PLAIN, 0].repeat(bytes.len() / 2);
    (kept, CodeUnits::try_from(&plain[..]).expect("an opcode that the crate takes"))
}

/// The code with instructions and constants in the crate's own form, where that can hold them as they were read.
fn object(code: &Code) -> Option<CodeObject<ConstantData>> {
    let (CodeBytes::Kept, instructions) = units(&code.bytes) else {
        return None;
    };
    let constants = code.constants.iter().map(|tree| constant(tree)).collect::<Option<Vec<_>>>()?;
    Some(CodeObject { instructions, constants: constants.into_iter().collect(), ..code.object.clone() })
}

fn constant(tree: &Tree) -> Option<ConstantData> {
    let all = |children: &[Rc<Tree>]| children.iter().map(|child| constant(child)).collect::<Option<Vec<_>>>();
    Some(match tree {
        Tree::None => ConstantData::None,
        Tree::Bool(value) => ConstantData::Boolean { value: *value },
        Tree::Ellipsis => ConstantData::Ellipsis,
        Tree::Int(value) => ConstantData::Integer { value: BigInt::clone(value) },
        Tree::Float(bits) => ConstantData::Float { value: f64::from_bits(*bits) },
        Tree::Complex(re, im) => ConstantData::Complex { value: complex(*re, *im) },
        Tree::Str(bytes) => ConstantData::Str { value: text(bytes).to_owned() },
        Tree::Bytes(bytes) => ConstantData::Bytes { value: bytes.to_vec() },
        Tree::Code(code) => ConstantData::Code { code: Box::new(object(code)?) },
        Tree::Group(Group::Tuple, children) => ConstantData::Tuple { elements: all(children)? },
        Tree::Group(Group::Frozenset, children) => ConstantData::Frozenset { elements: all(children)? },
        Tree::Group(Group::Slice, children) => {
            ConstantData::Slice { elements: Box::new(all(children)?.try_into().ok()?) }
        }
        Tree::Stop | Tree::Group(Group::List | Group::Set | Group::Dict, _) => return None,
    })
}

fn complex(re: u64, im: u64) -> Complex64 {
    Complex64 { re: f64::from_bits(re), im: f64::from_bits(im) }
}

fn text(bytes: &[u8]) -> &Wtf8 {
    Wtf8::from_bytes(bytes).expect("text that was read")
}
