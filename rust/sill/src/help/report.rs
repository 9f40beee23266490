//! The page of the command that makes pages.
use super::pages::{EXT, GLOB, PYC, STRICT};
use super::settings::{DEFAULTS, SETTINGS_OF};
use super::{HELP, Known, Page};

pub const REPORT: Page = Page {
    name: "report",
    operands: "PATH..",
    takes: 1..=usize::MAX,
    summary: "make one page for a browser of what sill check finds",
    text: "\
PATH is a file, a folder as for sill check, or - for standard input. OUT is one file that needs nothing else: a browser opens it
from a disk or a mail, and it fetches nothing. It holds what sill check --json tells of these files, and shows more of what is
damaged:

  totals          by verdict, as a bar: a click shows the files of one verdict alone;
  files           that are not accepted: verdict, refusal, folder, name and what was found, to filter and to sort by each;
  refusals        number, name and meaning, the way to the value, and the bytes about the place, with the byte in brackets;
  code objects    their bytes, a strip of the instructions by where their rows come from, the rows, the handlers, and what
                  sill repair would keep and drop;
  accepted files  as counts, with their list folded.

Rows come from seven places: sure (a complete entry has line and columns), line alone, below line 1, no place, cut entry, left
over (sill lines --help says what these are), and behind the refusal, where an entry before it is refused.

What is drawn is bounded, so that the page of a bad night can still be sent on: of a file the first 12 damaged code objects; of
each 240 rows, those about the place where the table breaks off and those at both ends, and 40 handlers; of the whole page 1.7
million bytes of drawings, the first code object of each file before others. What is left out is counted where it is missing.

All that comes from files stands in the page as data and is shown as text, with escapes for what cannot be seen; the page's
policy lets no other script, style, image or address in. OUT is put in place as by sill write, and may be no file that is read.
The page says when it was made: now, or the seconds since 1970 that SOURCE_DATE_EPOCH has.",
    options: &[
        Known { short: Some('o'), long: "output", word: Some("OUT"), text: "where to write; must be given" },
        STRICT,
        EXT,
        GLOB,
        PYC,
        SETTINGS_OF,
        DEFAULTS,
        HELP,
    ],
};
