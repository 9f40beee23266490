//! The pages of the commands that write.
use super::pages::{EXT, GLOB, PYC};
use super::{HELP, Known, Page};

pub const BYTES: Page = Page {
    name: "bytes",
    operands: "FILE PLACE",
    takes: 2..=2,
    summary: "give the bytes of one value, as a value of their own",
    text: "\
PLACE is a byte of FILE, counted from 0, and the value is the innermost that has it; sill show tells the bytes of each. They are
given from its header to its last byte. References in them count the shared values from FILE's value on: where each names one
within these bytes, its index is lowered by the shared values before them, and they read as the same value. Where one names a
value outside, there are no such bytes: the first such reference is told, nothing is written, and the exit status is 1. With
--as-is the bytes are given as they stand, whatever they name.

What is told goes to standard output, or beside the bytes to standard error. FILE and OUT may be - as for sill write.",
    options: &[
        Known { short: Some('o'), long: "output", word: Some("OUT"), text: "where to write; standard output, where it is not given" },
        Known { short: None, long: "as-is", word: None, text: "the bytes as they stand, references too" },
        PYC,
        HELP,
    ],
};

pub const WRITE: Page = Page {
    name: "write",
    operands: "FILE",
    takes: 1..=1,
    summary: "write the values of a file in their canonical form",
    text: "\
Integers in the fewest bytes, strings as u (in code objects z where ASCII and short), tuples as (, and neither references nor
flags. What was written is read back and compared with FILE before OUT is put in place; where it is not the same value (local
names out of order, or more than 16 MiB once sharing is written out), there is no OUT, and the reason is told. OUT is written
under another name beside its place and then renamed, so it is there as a whole or not at all; an older OUT is replaced, but
never FILE itself. FILE may be - for standard input, and OUT - for standard output: then what is told goes to standard error.
A golden in fields is written in fields: a value that is then above 65,535 bytes is told, and there is no OUT.",
    options: &[Known { short: Some('o'), long: "output", word: Some("OUT"), text: "where to write; must be given" }, HELP],
};

pub const REPAIR: Page = Page {
    name: "repair",
    operands: "FILE",
    takes: 1..=1,
    summary: "make whole line tables of those that are cut or damaged",
    text: "\
Of each line table that is not whole, the complete entries are kept up to the first that stops, is cut or is refused; the
entry that runs past the instructions is shortened; the other bytes are dropped, and the instructions that are left get
entries that say they have no place. The table stands where it stood, with its length field; every other byte of FILE stays,
but for the length of its field where FILE is a golden in fields: a value that is then above 65,535 bytes is told, and there
is no OUT. For each code object a line says what was kept, dropped, shortened and covered, the first instruction without a
line and the last row placed.

A table that is shared is left as it is, and told, where another code object's repair would give other bytes, or where it is
shared with something that is no line table; then the exit status is 1, and OUT has the others mended. Before OUT is put in
place it is read back: all values are the same but for the repaired tables, and every table is whole but those told. FILE and
OUT may be - as for sill write.

A repaired file is not a sound one: what was lost stays lost, and sill check keeps saying how many rows are not sure.",
    options: &[
        Known { short: Some('o'), long: "output", word: Some("OUT"), text: "where to write; must be given but for --dry-run" },
        Known { short: None, long: "dry-run", word: None, text: "say what would be done, and write nothing" },
        Known { short: None, long: "json", word: None, text: "as JSON, for machines" },
        HELP,
    ],
};

pub const CONVERT: Page = Page {
    name: "convert",
    operands: "PATH..",
    takes: 1..=usize::MAX,
    summary: "move goldens into fields, or back into the old form",
    text: "\
The old form of a golden is a code object and the result expected of it, back to back, with nothing after. The new form has
three tagged fields, exactly these in that order: edition (tag 1, the one byte 1), code (tag 2) and result (tag 3); a tag has
one byte and a length two. The first byte tells the forms apart. Both values are read before anything is written, and what one
way accepts, the other gives back byte for byte. Refused, with the place in the file: fields other than these, a value that
does not read, a first value that is no code object, bytes behind a value, and a value above 65,535 bytes, which no field
holds.

One file goes to the file OUT; either may be - as for sill write. More than one, or a folder with the files in it and below,
go to the folder OUT, each to its own name, or to its path below the folder: then the last line has the totals. OUT is put in
place as a whole or not at all, file by file, and never over the file that is read. A file that has the form already is held
to be a golden, and written as it is.",
    options: &[
        Known { short: None, long: "to", word: Some("fields|plain"), text: "the form: fields if nothing is said" },
        Known { short: Some('o'), long: "output", word: Some("OUT"), text: "where to write; must be given" },
        EXT,
        GLOB,
        HELP,
    ],
};

pub const MANUAL: Page = Page {
    name: "manual",
    operands: "",
    takes: 0..=0,
    summary: "print all pages of help as Markdown, or as a man page",
    text: "\
Markdown is docs/sill.md. The man page is read by man -l, or put in a folder man1 as sill.1. Both are made from the text that
--help shows.",
    options: &[Known { short: None, long: "man", word: None, text: "as a man page" }, HELP],
};

pub const COMPLETIONS: Page = Page {
    name: "completions",
    operands: "SHELL",
    takes: 1..=1,
    summary: "print what lets a shell complete commands and options",
    text: "\
SHELL is bash, zsh or fish. What is printed is made from the same lists as --help:

  bash   sill completions bash > ~/.local/share/bash-completion/completions/sill
  zsh    sill completions zsh > _sill, in a folder of fpath
  fish   sill completions fish > ~/.config/fish/completions/sill.fish",
    options: &[HELP],
};
