//! The pages of the commands that read.
use super::settings::{DEFAULTS, SETTINGS_OF};
use super::{HELP, Known, Page};

const JSON: Known = Known { short: None, long: "json", word: None, text: "as JSON, for machines" };

pub const EXT: Known = Known {
    short: None,
    long: "ext",
    word: Some("EXT"),
    text: "of folders, only names that end in .EXT (may be repeated)",
};

pub const GLOB: Known = Known {
    short: None,
    long: "glob",
    word: Some("PATTERN"),
    text: "of folders, only what matches: * ? [a-z], and ** across folders (may be repeated)",
};

pub const PYC: Known = Known {
    short: None,
    long: "pyc",
    word: None,
    text: "skip the first 16 bytes of a file that begins as a .pyc does",
};

pub const STRICT: Known =
    Known { short: None, long: "strict", word: None, text: "a code object that ends without a line is a fault" };

const COLOR: Known = Known {
    short: None,
    long: "color",
    word: Some("auto|always|never"),
    text: "colours: on a terminal where NO_COLOR is not set, always, or never",
};

pub const CHECK: Page = Page {
    name: "check",
    operands: "PATH..",
    takes: 1..=usize::MAX,
    summary: "say of each golden file whether it is sound and its line tables are whole",
    text: "\
PATH is a file, - for standard input, or a folder: then every file in it and below is checked, but for names that begin with a
dot; links to folders are not followed. One line a file, in order:

  accepted   with how many values, code objects and instructions it holds, and how many of these have no sure row: a repair
             leaves such, and compilers do too;
  refused    with number, name and place, and what is expected there. Places count bytes from the file's start. Bytes after
             the last whole value are a refusal, with the place where they begin. Of a line table or an exception table that
             is refused, also the code object, and of a line table the last row that was placed before the refused entry.
             A file that looks like something else (a .pyc with its header, zip, gzip, ELF, text) gets a hint;
  NOT WHOLE  with the first code object whose line table is cut or damaged, how many of its instructions have their line from
             the table, how many there are, and the first (from 0) whose line is not, with the line that it would show; or,
             where all have one, what is wrong with the table's end.

Of each sort of damage a line has the first code object, and how many more there are; --all has a line for each. Below a file
stands a line for each code object that has instructions without a sure row: how many, why (sill lines --help names the
reasons), and the last row placed.

With --strict a file is NO PLACE where a code object's last instructions have no line, with the last row that it has: so ends a
table that was cut and filled up. Sound code may end so too: some 2 in 100 code objects of CPython's own library do (1,909 of
78,010, counted with CPython 3.11.7).

With --shape a file is refused too that is not exactly a code object and the result expected of it: where there is no result,
where something follows it, or where the first value is no code object. Without it any values back to back are accepted, so
that a lost or a doubled result passes. A golden in fields is held to this in any case: its fields, then its values, then that
the first is a code object, and that nothing is behind a value in its field.

A line also says where local names are out of order (Local, then Cell, then Free): such code may not read back once written.
That alone is no fault of a file. The last line has the totals, troubles among them: a path that could not be read is one, and
told on standard error. The exit status is 0 only if every file is accepted.

--list prints paths alone, of the files with that verdict (no-place asks for --strict too), as the system gave them: a line
each, or with -0 each ended by a NUL. No totals follow.

--format json (or --json) has one object a line, each as soon as its file and those before it are done: path (and path_bytes in
hexadecimal, where it is no UTF-8), verdict, counts, and every finding: its kind, number, name, byte and meaning of a refusal,
code_object, code_byte (its place), file, first_line, instructions, last_row, what belongs to its kind, and the sentence that
people read (text). What has no such thing has null. The last object has the totals by verdict. A path that could not be read
has its error. The kinds, and the fields of their own:

  value            a value is refused: whole_values_end and bytes_left (null where there is no whole value), hint
  line-table       a line table is refused: placed, how many instructions the entries before it place
  exception-table  an exception table is refused
  not-whole        a line table is not whole: placed, and end: too-early (with first_left_over and shown_line), cut-entry,
                   too-far or bytes-left (with bytes_left)
  no-place         with --strict: without_line_at_the_end
  shape            with --shape: the values are not exactly a code object and its result
  not-sure         no fault: not_sure, and of these left_over, no_place, cut_entry, below_line_1
  name-order       no fault: local_name, its number, and local, its name

junit has a testcase a file and the totals as properties; sarif a result for each fault and the totals in the run's properties;
github a workflow command for each fault and a notice with the totals. These leave out what is no fault, but for local names out
of order: junit has every finding in a testcase's text, sarif and github have them as warnings.

With --settings a value nested deeper than the settings allow is refused, and of code objects only those are looked at, and
counted, whose qualified names begin with the prefix.

Files are read in parallel. Each reader holds one file at a time, its stores and the locations of one code object. A value may
have 16 MiB, and a file as many values as there are, up to 1 GiB.",
    options: &[
        Known { short: Some('q'), long: "quiet", word: None, text: "leave out accepted files" },
        STRICT,
        Known {
            short: None,
            long: "shape",
            word: None,
            text: "a file that is not exactly a code object and its result is refused",
        },
        Known { short: Some('a'), long: "all", word: None, text: "a line for every damaged code object" },
        Known {
            short: Some('l'),
            long: "list",
            word: Some("refused|not-whole|no-place|accepted|trouble"),
            text: "print only the paths of these files (may be repeated)",
        },
        Known { short: Some('0'), long: "null", word: None, text: "with --list, end each path with a NUL" },
        Known {
            short: None,
            long: "format",
            word: Some("text|json|junit|sarif|github"),
            text: "text for people, or a form for machines",
        },
        Known { short: None, long: "json", word: None, text: "the same as --format json" },
        EXT,
        GLOB,
        PYC,
        COLOR,
        SETTINGS_OF,
        DEFAULTS,
        HELP,
    ],
};

pub const SHOW: Page = Page {
    name: "show",
    operands: "FILE",
    takes: 1..=1,
    summary: "show the values of a file as a tree",
    text: "\
A line for each value: its place (the byte at which its contents begin), its bytes from its header to its last, which sill
bytes gives alone, its type letter, and what it holds, indented below the value it belongs to; of a code object also its
numbers and its handlers. Long texts and bytes are cut in the tree, never in JSON. A value that is shared is shown where it
first stands; later lines name that place. FILE may be - for standard input.

JSON is one list: an object for each value of the file, with its first and last byte (from, to), its size and its nodes, and
one with the refusal where reading ended early. Nodes are one flat list, a line each, in the order in which they stand in the
file; each has its number (node), letter, place, size, first and last byte (from, to) and type, and value, or the numbers of
its children: a dict's keys and values in turn, a code object's ten parts. A shared value is one node. A float has its bits
beside it, a text with surrogates its bytes; bytes are hexadecimal, and a whole number outside 64 bits is a string. A code
object has its handlers, the entries of its exception table: start, length and target in instructions, depth, and whether the
last instruction is pushed (lasti). Where that table is damaged, handlers is null and handlers_refused says why. Its lines say
whether the line table is whole, how many instructions there are, how many of them are from entries, have a line, have a line
and both columns, and have a sure row, the last row placed, and how many at the end have no line; or lines is null, and
lines_refused says why. With --depth, a node whose children are left out is cut.",
    options: &[
        Known { short: Some('d'), long: "depth", word: Some("N"), text: "show no more than N levels below each value" },
        JSON,
        PYC,
        HELP,
    ],
};

pub const LINES: Page = Page {
    name: "lines",
    operands: "PATH..",
    takes: 1..=usize::MAX,
    summary: "show where each instruction of each code object comes from, and its handlers",
    text: "\
PATH is a file, a folder as for sill check, or - for standard input. For each code object its name, file and first line, and
whether its line table is whole. Then a line for each instruction: its number (from 0), its two bytes, and line:column to
line:column (from 1). Where no complete entry of the line table gives the row, '-' stands instead, then '!' with the reason,
and the location that document 01 shows all the same:

  left over             no entry placed it: what is shown is the code object's first line;
  no place              its entry says so: what is shown is the line so far;
  line -3 shown as 1    its line (or end line) is stored as 0 or less: a module's first instruction has line 0;
  cut entry             a byte of its entry is missing, and counts as 0.

Then a line for each handler, an entry of the exception table: its first instruction, the instructions that it guards, the stack
depth, whether the last instruction is pushed, and the rows of the guarded instructions, as far as they are sure. Where PATH
leads to more than one file, a line with its path and a colon stands before what is shown of each.

JSON has one object a line, each as soon as its code object is read: path, code_object, byte, file, first_line, whole, the
counts, last_row, instructions (each with line, column, end_line and end_column; where the row is not sure, why and shown
instead) and handlers; or lines_refused, handlers_refused. Where a file is refused, an object with path and refused.",
    options: &[
        Known { short: None, long: "not-whole", word: None, text: "only code objects whose line table is not whole or refused" },
        JSON,
        EXT,
        GLOB,
        PYC,
        COLOR,
        HELP,
    ],
};

pub const ROW: Page = Page {
    name: "row",
    operands: "FILE ROW",
    takes: 2..=2,
    summary: "say which instructions of which code objects start a row",
    text: "\
For each code object of the file: the instructions (from 0) where a run of instructions of that row begins, and how many there
are in the run. An instruction starts a row where its line is not that of the one before. They are found by an index of row
starts, not by looking through all locations. FILE may be - for standard input.

Instructions whose row is not sure are told apart and never listed as starts: those that no entry of the line table placed,
those whose entry is cut or says that it has no place, and those whose line is not above 0 as stored.

Exit status 1 also where no instruction starts the row.",
    options: &[PYC, HELP],
};

pub const DIFF: Page = Page {
    name: "diff",
    operands: "A B",
    takes: 2..=2,
    summary: "say whether two files, or the files of two folders, hold the same values",
    text: "\
The same means: the same numbers, float bits, bytes and strings, the same kinds and sequences of children, and code objects
alike in all parts. How values are shared and which of several letters an integer, string or tuple has does not count. Members
of sets and dicts are compared in the order in which they are stored.

Values are compared by the bytes that they are written as: it is proved that bytes that differ are of different values, and that
equal bytes are of the same value if its code objects keep the name order. Where the bytes do not tell, since a value is longer
than 16 MiB once sharing is written out, or is out of name order, it is compared part by part, and a line says so: that
comparison is tested and not proved.

Of values that differ the first difference is shown: the path that leads to it (a dict's values by their keys: [\"rows\"][2]),
and the place, bytes and value on both sides. --all shows every difference. Where two line tables differ, so do rows:
instruction 33: no row / 211, with the first eight instructions whose row or place is another, or with --all every one.

A or B may be - for standard input, or FILE#2 for the second value of FILE alone, unless there is a file of that very name. Two
folders are compared file by file, by their paths below the folder: only differences are shown, then files that only one
has, then the totals. Of a folder and a file, the file of that name in the folder is taken.

--html prints a page for a browser, of two files: each pair of values that differ as one tree with both sides, what is the same
folded, each part with the bytes that it takes in its file, and line tables as rows beside rows. It tells the differences that
--all tells, as far as 3,000 lines go, and says where there are more.

With --settings, of two files, only code objects whose qualified names begin with the prefix are compared, in their order, or
whole values where the prefix is empty; by value or by the bytes that they are written as, as the mode says. Where no name
begins so, nothing is compared, and the exit status is 1.",
    options: &[
        Known { short: Some('a'), long: "all", word: None, text: "every difference, not only the first" },
        Known { short: None, long: "html", word: None, text: "a page for a browser, on standard output" },
        EXT,
        GLOB,
        PYC,
        SETTINGS_OF,
        DEFAULTS,
        HELP,
    ],
};

pub const TOTALS: Page = Page {
    name: "totals",
    operands: "PATH..",
    takes: 1..=usize::MAX,
    summary: "count how many files are accepted, how many refused, and by which refusal",
    text: "\
PATH is a file, a folder as for sill check, or - for paths that standard input lists, one a line. An input is a file: accepted
where all its values are read to its end, else counted under its first refusal. Line tables are not looked at; sill check does
that. A file that cannot be opened is in no count; it is told on standard error, and the exit status is 2.

The output is 29 lines, zero lines included: inputs, accepted, refused, then refusal N COUNT for N from 1 to 26. Accepted plus
refused is inputs. Counts of parts add up: however files are split among machines, --add of their outputs is byte for byte the
output of one. The exit status does not depend on how many files are refused.",
    options: &[
        Known { short: None, long: "add", word: None, text: "each PATH is the output of sill totals; print their sum" },
        EXT,
        GLOB,
        HELP,
    ],
};
