//! The Rust's tree as text.
use crate::value::Text;
use bags::{Code, Group, Tree};
use malachite_bigint::Sign;
use std::rc::Rc;

pub fn text_of(tree: &Tree, limit: usize) -> String {
    let mut text = Text::new(limit);
    show(&mut text, tree);
    text.text
}

fn show(text: &mut Text, tree: &Tree) {
    if text.is_full() {
        return;
    }
    match tree {
        Tree::None => text.word("N"),
        Tree::Bool(value) => text.truth(*value),
        Tree::Ellipsis => text.word("."),
        Tree::Stop => text.word("S"),
        Tree::Int(value) => {
            let (sign, magnitude) = value.to_bytes_le();
            text.whole(sign == Sign::Minus, &magnitude);
        }
        Tree::Float(bits) => text.float(*bits),
        Tree::Complex(re, im) => text.complex(*re, *im),
        Tree::Str(bytes) => text.bytes('u', bytes),
        Tree::Bytes(bytes) => text.bytes('s', bytes),
        Tree::Group(group, children) => show_all(text, word(*group), children),
        Tree::Code(code) => show_code(text, code),
    }
}

fn show_all(text: &mut Text, word: &str, children: &[Rc<Tree>]) {
    text.group(word, children, |text, child| show(text, child));
}

fn word(group: Group) -> &'static str {
    match group {
        Group::Tuple => "t(",
        Group::List => "l(",
        Group::Set => "e(",
        Group::Frozenset => "f(",
        Group::Dict => "d(",
        Group::Slice => ":(",
    }
}

fn show_code(text: &mut Text, Code { object, constants, bytes }: &Code) {
    let (args, posonly, kwonly) = (object.arg_count, object.posonlyarg_count, object.kwonlyarg_count);
    text.word(&format!("c({args},{posonly},{kwonly},{},{:x},", object.max_stackdepth, object.flags.bits()));
    shown_unless_full(text, bytes);
    text.word(",");
    // A tuple of constants past the limit is not begun, as no value is.
    if !text.is_full() {
        show_all(text, "t(", constants);
    }
    for names in [&object.names, &object.varnames, &object.cellvars, &object.freevars] {
        text.names(names.iter());
    }
    text.word(",");
    shown_unless_full(text, &object.localspluskinds);
    for name in [&object.source_path, &object.obj_name, &object.qualname] {
        text.word(",");
        text.bytes('u', name.as_bytes());
    }
    text.word(&format!(",{},", object.first_line_number.map_or(0, |line| line.get())));
    shown_unless_full(text, &object.linetable);
    text.word(",");
    shown_unless_full(text, &object.exceptiontable);
    text.word(")");
}

fn shown_unless_full(text: &mut Text, bytes: &[u8]) {
    if !text.is_full() {
        text.bytes('s', bytes);
    }
}
