//! The port's exports, declared as include/sillgarland.h declares them; `tools/check-abi` holds the two, and the `.rt`
//! source, to one another.
//!
//! A slice is a pointer and a count of elements; null with count 0 is fine; lent stores do not overlap. Refusal 0 means
//! accepted, and place is then 0; on a refusal every other field is 0 and every store lent for writing is all zero, but for
//! what the header says of a line table by piece and of a value that is kept. Truth is 0 or 1.
#![no_std]

/// What a writer answers: how many bytes it wrote.
#[repr(C)]
#[derive(Clone, Copy, Debug, PartialEq, Eq)]
pub struct Written {
    pub refusal: u32,
    pub place: u32,
    pub written: u32,
}

/// What a varint reader answers. None found or refused: found and value are 0 and next is where reading was to begin.
#[repr(C)]
#[derive(Clone, Copy, Debug, PartialEq, Eq)]
pub struct Found {
    pub refusal: u32,
    pub found: u32,
    pub value: u32,
    pub pad: u32,
    pub place: u64,
    pub next: u64,
}

/// How many counters totals have: inputs, accepted, refused, then each refusal 1 to 26.
pub const COUNTERS: usize = 29;

/// What counting answers or adding totals answers.
#[repr(C)]
#[derive(Clone, Copy, Debug, PartialEq, Eq)]
pub struct Totalled {
    pub refusal: u32,
    pub place: u32,
}

/// What reading an exception table answers: how many entries there are, five numbers each.
#[repr(C)]
#[derive(Clone, Copy, Debug, PartialEq, Eq)]
pub struct Exceptions {
    pub refusal: u32,
    pub place: u32,
    pub count: u32,
}

/// What reading a line table answers: how many instructions came from entries, and whether the table was whole.
#[repr(C)]
#[derive(Clone, Copy, Debug, PartialEq, Eq)]
pub struct Located {
    pub refusal: u32,
    pub place: u32,
    pub from_entries: u32,
    pub whole: u32,
}

/// Where one instruction comes from; lines and columns count from 1.
#[repr(C)]
#[derive(Clone, Copy, Debug, PartialEq, Eq)]
pub struct Location {
    pub line: u32,
    pub column: u32,
    pub end_line: u32,
    pub end_column: u32,
}

/// How many instructions are from an entry, have a line, have both columns too, and have a row that is sure.
#[repr(C)]
#[derive(Clone, Copy, Debug, PartialEq, Eq)]
pub struct Sourced {
    pub refusal: u32,
    pub place: u32,
    pub from_entries: u32,
    pub with_line: u32,
    pub with_columns: u32,
    pub sure: u32,
}

/// What building an index of row starts answers: how many starts there are.
#[repr(C)]
#[derive(Clone, Copy, Debug, PartialEq, Eq)]
pub struct Indexed {
    pub refusal: u32,
    pub place: u32,
    pub starts: u32,
}

/// What a question of an index of row starts answers.
#[repr(C)]
#[derive(Clone, Copy, Debug, PartialEq, Eq)]
pub struct Start {
    pub refusal: u32,
    pub place: u32,
    pub value: u64,
}

/// What a repair of a line table wrote, and its list.
#[repr(C)]
#[derive(Clone, Copy, Debug, PartialEq, Eq)]
pub struct Salvaged {
    pub refusal: u32,
    pub place: u32,
    pub written: u32,
    pub kept: u32,
    pub dropped: u32,
    pub shortened: u32,
    pub covered: u32,
}

/// Where the contents of a tag stand: in which of two files, from where, how many bytes.
#[repr(C)]
#[derive(Clone, Copy, Debug, PartialEq, Eq)]
pub struct Setting {
    pub refusal: u32,
    pub place: u32,
    pub file: u32,
    pub start: u32,
    pub size: u32,
}

/// How many bytes a rewritten settings file has.
#[repr(C)]
#[derive(Clone, Copy, Debug, PartialEq, Eq)]
pub struct Rewritten {
    pub refusal: u32,
    pub place: u32,
    pub written: u32,
}

/// How many bytes an archive has after a save.
#[repr(C)]
#[derive(Clone, Copy, Debug, PartialEq, Eq)]
pub struct Saved {
    pub refusal: u32,
    pub place: u32,
    pub written: u32,
}

/// Where the file of an edition stands in an archive.
#[repr(C)]
#[derive(Clone, Copy, Debug, PartialEq, Eq)]
pub struct Edition {
    pub refusal: u32,
    pub place: u32,
    pub start: u32,
    pub size: u32,
}

/// How many bytes a golden has in its other form.
#[repr(C)]
#[derive(Clone, Copy, Debug, PartialEq, Eq)]
pub struct Moved {
    pub refusal: u32,
    pub place: u32,
    pub written: u32,
}

/// What splitting local names answers: how many of each kind, and whether the cell-to-argument list is present.
#[repr(C)]
#[derive(Clone, Copy, Debug, PartialEq, Eq)]
pub struct Split {
    pub refusal: u32,
    pub place: u32,
    pub locals: u32,
    pub cells: u32,
    pub frees: u32,
    pub present: u32,
}

/// What reading a value answers: how many bytes it takes, and how many records of each store are used.
#[repr(C)]
#[derive(Clone, Copy, Debug, PartialEq, Eq)]
pub struct Read {
    pub refusal: u32,
    pub place: u32,
    pub consumed: u32,
    pub nodes: u32,
    pub entries: u32,
    pub slots: u32,
}

/// What a node holds. Kind: 0 not a leaf, 1 none, 2 truth, 3 ellipsis, 4 stop, 5 whole number (its bits in first),
/// 6 one float (its bits in first), 7 two floats (their bits), 8 wide.
#[repr(C)]
#[derive(Clone, Copy, Debug, PartialEq, Eq)]
pub struct Leaf {
    pub refusal: u32,
    pub place: u32,
    pub kind: u32,
    pub pad: u32,
    pub first: u64,
    pub second: u64,
}

/// Where a node's bytes begin and end, whether every reference in them names a slot reserved in them, and how many slots were
/// reserved before them.
#[repr(C)]
#[derive(Clone, Copy, Debug, PartialEq, Eq)]
pub struct Span {
    pub refusal: u32,
    pub place: u32,
    pub start: u32,
    pub end: u32,
    pub closed: u32,
    pub slots_before: u32,
}

/// What moving a value to the front of the stores answers: how many nodes and entries are kept, and how many more fit behind them.
#[repr(C)]
#[derive(Clone, Copy, Debug, PartialEq, Eq)]
pub struct Kept {
    pub refusal: u32,
    pub place: u32,
    pub nodes: u32,
    pub entries: u32,
    pub free_nodes: u32,
    pub free_entries: u32,
}

/// What joining two line tables answers: how many bytes were written, for how many instructions, and the line they leave.
#[repr(C)]
#[derive(Clone, Copy, Debug, PartialEq, Eq)]
pub struct Joined {
    pub refusal: u32,
    pub place: u32,
    pub written: u32,
    pub count: u32,
    pub line: i32,
}

/// What is told of one line table: whether it is whole, and the running line where its reading ends.
#[repr(C)]
#[derive(Clone, Copy, Debug, PartialEq, Eq)]
pub struct Line {
    pub refusal: u32,
    pub place: u32,
    pub whole: u32,
    pub line: i32,
}

unsafe extern "C" {
    pub fn sill_write_varint(out: *mut u8, out_len: usize, value: u32) -> Written;
    pub fn sill_write_signed_varint(out: *mut u8, out_len: usize, value: i32) -> Written;
    pub fn sill_write_varint_be(out: *mut u8, out_len: usize, value: u32) -> Written;
    pub fn sill_write_varint_with_start(out: *mut u8, out_len: usize, value: u32) -> Written;
    pub fn sill_read_varint(data: *const u8, data_len: usize, at: usize) -> Found;
    pub fn sill_read_varint_with_start(data: *const u8, data_len: usize, at: usize) -> Found;
    pub fn sill_read_exceptions(
        table: *const u8,
        table_len: usize,
        entries: *mut u32,
        entries_len: usize,
    ) -> Exceptions;
    pub fn sill_write_exceptions(entries: *const u32, entries_len: usize, out: *mut u8, out_len: usize) -> Written;
    pub fn sill_totals(
        before: *const u64,
        before_len: usize,
        answers: *const u32,
        answers_len: usize,
        after: *mut u64,
        after_len: usize,
    ) -> Totalled;
    pub fn sill_add_totals(
        a: *const u64,
        a_len: usize,
        b: *const u64,
        b_len: usize,
        sum: *mut u64,
        sum_len: usize,
    ) -> Totalled;
    pub fn sill_print_totals(totals: *const u64, totals_len: usize, out: *mut u8, out_len: usize) -> Written;
    pub fn sill_setting(own: *const u8, own_len: usize, fallback: *const u8, fallback_len: usize, tag: u32) -> Setting;
    pub fn sill_rewrite_settings(
        file: *const u8,
        file_len: usize,
        changes: *const u8,
        changes_len: usize,
        out: *mut u8,
        out_len: usize,
    ) -> Rewritten;
    pub fn sill_save_edition(
        archive: *const u8,
        archive_len: usize,
        file: *const u8,
        file_len: usize,
        out: *mut u8,
        out_len: usize,
    ) -> Saved;
    pub fn sill_edition(archive: *const u8, archive_len: usize, edition: *const u8, edition_len: usize) -> Edition;
    pub fn sill_golden_to_fields(
        plain: *const u8,
        plain_len: usize,
        nodes: *mut u32,
        nodes_len: usize,
        entries: *mut u32,
        entries_len: usize,
        slots: *mut u32,
        slots_len: usize,
        nesting: u32,
        out: *mut u8,
        out_len: usize,
    ) -> Moved;
    pub fn sill_golden_from_fields(
        fields: *const u8,
        fields_len: usize,
        nodes: *mut u32,
        nodes_len: usize,
        entries: *mut u32,
        entries_len: usize,
        slots: *mut u32,
        slots_len: usize,
        nesting: u32,
        out: *mut u8,
        out_len: usize,
    ) -> Moved;
    pub fn sill_locate(
        table: *const u8,
        table_len: usize,
        first_line: i32,
        count: u32,
        records: *mut u32,
        records_len: usize,
    ) -> Located;
    pub fn sill_locations(
        table: *const u8,
        table_len: usize,
        first_line: i32,
        count: u32,
        flat: *mut u32,
        flat_len: usize,
        out: *mut Location,
        out_len: usize,
    ) -> Located;
    pub fn sill_locate_begin(
        first_line: i32,
        count: u32,
        state: *mut u32,
        state_len: usize,
        records: *mut u32,
        records_len: usize,
    ) -> Located;
    pub fn sill_locate_piece(
        bytes: *const u8,
        bytes_len: usize,
        state: *mut u32,
        state_len: usize,
        records: *mut u32,
        records_len: usize,
    ) -> Located;
    pub fn sill_locate_end(state: *mut u32, state_len: usize, records: *mut u32, records_len: usize) -> Located;
    pub fn sill_sources(
        table: *const u8,
        table_len: usize,
        first_line: i32,
        count: u32,
        sources: *mut u8,
        sources_len: usize,
    ) -> Sourced;
    pub fn sill_index_starts(
        records: *const u32,
        records_len: usize,
        count: u32,
        index: *mut u64,
        index_len: usize,
    ) -> Indexed;
    pub fn sill_starts_before(index: *const u64, index_len: usize, count: u32, n: u32) -> Start;
    pub fn sill_start_at(index: *const u64, index_len: usize, count: u32, k: u32) -> Start;
    pub fn sill_salvage(
        table: *const u8,
        table_len: usize,
        first_line: i32,
        count: u32,
        out: *mut u8,
        out_len: usize,
    ) -> Salvaged;
    pub fn sill_join(
        a: *const u8,
        a_len: usize,
        first_a: i32,
        count_a: u32,
        b: *const u8,
        b_len: usize,
        first_b: i32,
        count_b: u32,
        out: *mut u8,
        out_len: usize,
    ) -> Joined;
    pub fn sill_line_after(table: *const u8, table_len: usize, first_line: i32, count: u32) -> Line;
    pub fn sill_split(
        kinds: *const u8,
        kinds_len: usize,
        names: u32,
        args: u32,
        kwonly: u32,
        flags: u32,
        locals: *mut u32,
        locals_len: usize,
        cells: *mut u32,
        cells_len: usize,
        frees: *mut u32,
        frees_len: usize,
        map: *mut u32,
        map_len: usize,
        cell_args: *mut u32,
        cell_args_len: usize,
    ) -> Split;
    pub fn sill_read(
        input: *const u8,
        input_len: usize,
        nodes: *mut u32,
        nodes_len: usize,
        entries: *mut u32,
        entries_len: usize,
        slots: *mut u32,
        slots_len: usize,
        nesting: u32,
    ) -> Read;
    pub fn sill_leaf(
        input: *const u8,
        input_len: usize,
        nodes: *const u32,
        nodes_len: usize,
        used: u32,
        node: u32,
    ) -> Leaf;
    pub fn sill_span(
        input: *const u8,
        input_len: usize,
        nodes: *const u32,
        nodes_len: usize,
        entries: *const u32,
        entries_len: usize,
        used_nodes: u32,
        used_entries: u32,
        node: u32,
    ) -> Span;
    pub fn sill_keep(
        nodes: *mut u32,
        nodes_len: usize,
        entries: *mut u32,
        entries_len: usize,
        slots: *mut u32,
        slots_len: usize,
        used_nodes: u32,
        used_entries: u32,
        node: u32,
        stack: *mut u32,
        stack_len: usize,
    ) -> Kept;
    pub safe fn sill_keep_need(used_nodes: u32, used_entries: u32) -> u64;
    pub fn sill_read_more(
        input: *const u8,
        input_len: usize,
        nodes: *mut u32,
        nodes_len: usize,
        entries: *mut u32,
        entries_len: usize,
        slots: *mut u32,
        slots_len: usize,
        nesting: u32,
        kept_nodes: u32,
        kept_entries: u32,
        input_number: u32,
    ) -> Read;
    pub fn sill_locate_node(
        input: *const u8,
        input_len: usize,
        nodes: *const u32,
        nodes_len: usize,
        used: u32,
        node: u32,
        first_line: i32,
        count: u32,
        records: *mut u32,
        records_len: usize,
    ) -> Located;
    pub fn sill_write(
        input: *const u8,
        input_len: usize,
        nodes: *const u32,
        nodes_len: usize,
        entries: *const u32,
        entries_len: usize,
        used_nodes: u32,
        used_entries: u32,
        root: u32,
        nesting: u32,
        out: *mut u8,
        out_len: usize,
    ) -> Written;
}

/// Hands the refusals of documents 01 and 02 to a macro, each as `CONSTANT Name = number,`. Every table of refusals is made from this list.
#[macro_export]
macro_rules! each_refusal {
    ($table:ident) => {
        $table! {
            EOF_OBJECT EofObject = 1,
            DATA_TOO_SHORT DataTooShort = 2,
            UNKNOWN_TYPE UnknownType = 3,
            NULL_OBJECT NullObject = 4,
            INVALID_REF InvalidRef = 5,
            BAD_SIZE BadSize = 6,
            BAD_TYPE BadType = 7,
            INVALID_BYTECODE InvalidBytecode = 8,
            INVALID_UTF8 InvalidUtf8 = 9,
            TOO_DEEP TooDeep = 10,
            NO_NODE NoNode = 11,
            NO_ENTRY NoEntry = 12,
            NO_SLOT NoSlot = 13,
            INPUT_TOO_LONG InputTooLong = 14,
            NOT_CARRIED NotCarried = 15,
            BAD_TABLE BadTable = 16,
            NO_ROOM NoRoom = 17,
            NUMBER_RANGE NumberRange = 18,
            NO_MARKER NoMarker = 19,
            NO_SUCH_START NoSuchStart = 20,
            ALREADY_ENDED AlreadyEnded = 21,
            REPEATED_TAG RepeatedTag = 22,
            NO_SUCH_FIELD NoSuchField = 23,
            NOT_JOINED NotJoined = 24,
            TRAILING_BYTES TrailingBytes = 25,
            VALUE_TOO_LONG ValueTooLong = 26,
        }
    };
}

/// The refusal numbers and limits of documents 01 and 02, under the names of the crate `refusals`.
pub mod refusals {
    pub const ACCEPTED: u32 = 0;

    macro_rules! constants {
        ($($constant:ident $name:ident = $number:literal,)*) => {
            $(pub const $constant: u32 = $number;)*
            /// Each refusal's constant, its name and its number, in the order of the numbers.
            pub const TABLE: &[(&str, &str, u32)] = &[$((stringify!($constant), stringify!($name), $number),)*];
        };
    }
    each_refusal!(constants);

    /// The last number of the table.
    pub const LAST_NUMBER: u32 = TABLE.len() as u32;

    pub const MOST_BYTES: u32 = 16_777_216;
    pub const MOST_RECORDS: u32 = 1_048_576;
    pub const MOST_NESTING: u32 = 2_000;
    pub const NOTHING: u32 = 4_294_967_295;
}
