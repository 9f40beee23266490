/* sillgarland.h: reads, writes, locates and repairs marshalled Python values, as proved functions in a static or a shared
 * library.
 *
 * Link libsillgarland.a or libsillgarland.so: `make install` puts them in place, and `pkg-config --cflags --libs sillgarland`
 * (or sillgarland-static) says how. The functions that they may need from elsewhere are memset and memcpy.
 *
 * What holds for every function here:
 * - It answers for any bytes and any numbers. It never fails, allocates, prints or keeps anything: it is reentrant, and may
 *   run in any number of threads at once on stores of their own.
 * - A slice is a pointer and a length that counts elements. A null pointer with length 0 is an empty slice. A pointer with
 *   a length above 0 points to that many elements, aligned for their type (1 byte for uint8_t, 4 for uint32_t
 *   and sill_location_t, 8 for uint64_t).
 * - A store lent for writing (a pointer without const) overlaps no other argument. The function may read and write all of it.
 * - refusal is 0 where the call was accepted; then place is 0, and what was written is followed by zeros to the store's end.
 *   Otherwise refusal is one of the numbers below, and place says where, as told beside the field; every other field is 0,
 *   and so is every element of every store lent for writing, but for the state of a line table by piece, which
 *   keeps the refusal, and for what sill_keep and sill_read_more leave of a value that is kept.
 * - A truth is 0 or 1. A field named pad is 0.
 * - The functions below need less than 1 KiB of stack, those of settings files less than 4 KiB; of sill_read, sill_read_more,
 *   sill_write and the moves of golden files see there.
 */
#ifndef SILLGARLAND_H
#define SILLGARLAND_H

#include <stddef.h>
#include <stdint.h>

#ifdef __cplusplus
extern "C" {
#endif

/* ---- The version of this header, which is that of the libraries installed with it. */

#define SILL_VERSION "0.1.0"
#define SILL_VERSION_MAJOR 0
#define SILL_VERSION_MINOR 1
#define SILL_VERSION_PATCH 0

/* ---- Limits: how long an input, a line table or an exception table may be, how many nodes, entries or slots count in one
 * reading, and how deep values nest. SILL_NOTHING stands for "no entry", "no position" and -1 in stores of numbers. */

#define SILL_MOST_BYTES 16777216
#define SILL_MOST_RECORDS 1048576
#define SILL_MOST_NESTING 2000
#define SILL_NOTHING 4294967295

/* ---- Refusals, by number; docs/REFUSALS.md says of each when it is met and what its place is. */

#define SILL_ACCEPTED 0
#define SILL_EOF_OBJECT 1
#define SILL_DATA_TOO_SHORT 2
#define SILL_UNKNOWN_TYPE 3
#define SILL_NULL_OBJECT 4
#define SILL_INVALID_REF 5
#define SILL_BAD_SIZE 6
#define SILL_BAD_TYPE 7
#define SILL_INVALID_BYTECODE 8
#define SILL_INVALID_UTF8 9
#define SILL_TOO_DEEP 10
#define SILL_NO_NODE 11
#define SILL_NO_ENTRY 12
#define SILL_NO_SLOT 13
#define SILL_INPUT_TOO_LONG 14
#define SILL_NOT_CARRIED 15
#define SILL_BAD_TABLE 16
#define SILL_NO_ROOM 17
#define SILL_NUMBER_RANGE 18
#define SILL_NO_MARKER 19
#define SILL_NO_SUCH_START 20
#define SILL_ALREADY_ENDED 21
#define SILL_REPEATED_TAG 22
#define SILL_NO_SUCH_FIELD 23
#define SILL_NOT_JOINED 24
#define SILL_TRAILING_BYTES 25
#define SILL_VALUE_TOO_LONG 26
#define SILL_LAST_REFUSAL 26

/* Their names: SILL_EACH_REFUSAL(X) is X(number, name) for each, in order of the numbers. So a table of names is
 *     #define NAMED(number, name) name,
 *     static const char *const names[] = {"accepted", SILL_EACH_REFUSAL(NAMED)};
 */
#define SILL_EACH_REFUSAL(X) \
    X(SILL_EOF_OBJECT, "EofObject") \
    X(SILL_DATA_TOO_SHORT, "DataTooShort") \
    X(SILL_UNKNOWN_TYPE, "UnknownType") \
    X(SILL_NULL_OBJECT, "NullObject") \
    X(SILL_INVALID_REF, "InvalidRef") \
    X(SILL_BAD_SIZE, "BadSize") \
    X(SILL_BAD_TYPE, "BadType") \
    X(SILL_INVALID_BYTECODE, "InvalidBytecode") \
    X(SILL_INVALID_UTF8, "InvalidUtf8") \
    X(SILL_TOO_DEEP, "TooDeep") \
    X(SILL_NO_NODE, "NoNode") \
    X(SILL_NO_ENTRY, "NoEntry") \
    X(SILL_NO_SLOT, "NoSlot") \
    X(SILL_INPUT_TOO_LONG, "InputTooLong") \
    X(SILL_NOT_CARRIED, "NotCarried") \
    X(SILL_BAD_TABLE, "BadTable") \
    X(SILL_NO_ROOM, "NoRoom") \
    X(SILL_NUMBER_RANGE, "NumberRange") \
    X(SILL_NO_MARKER, "NoMarker") \
    X(SILL_NO_SUCH_START, "NoSuchStart") \
    X(SILL_ALREADY_ENDED, "AlreadyEnded") \
    X(SILL_REPEATED_TAG, "RepeatedTag") \
    X(SILL_NO_SUCH_FIELD, "NoSuchField") \
    X(SILL_NOT_JOINED, "NotJoined") \
    X(SILL_TRAILING_BYTES, "TrailingBytes") \
    X(SILL_VALUE_TOO_LONG, "ValueTooLong")

/* ---- Varints: six bits a byte, 0x40 meaning more. */

typedef struct {
    uint32_t refusal; /* 17: no room, place is the output's capacity; 18: the smallest 32-bit integer, at 0; see
                         sill_write_exceptions and sill_write */
    uint32_t place;
    uint32_t written; /* how many bytes */
} sill_written_t;

typedef struct {
    uint32_t refusal; /* 2: the bytes ended before the number did; 18: it is 2^32 or more */
    uint32_t found;   /* 0: refused, nothing left, or the start marker is missing; then next is the position asked for */
    uint32_t value;
    uint32_t pad;
    uint64_t place; /* of a refusal: where the number starts, which is the position asked for */
    uint64_t next;  /* the position after the number */
} sill_found_t;

/* A number little-endian, as in line tables, in the shortest form. Needs up to 6 bytes of out. */
sill_written_t sill_write_varint(uint8_t *out, size_t out_len, uint32_t value);
sill_written_t sill_write_signed_varint(uint8_t *out, size_t out_len, int32_t value);

/* A number big-endian, as in exception tables, in the shortest form; with_start puts 0x80 on the first byte. Needs up to 6
 * bytes of out. */
sill_written_t sill_write_varint_be(uint8_t *out, size_t out_len, uint32_t value);
sill_written_t sill_write_varint_with_start(uint8_t *out, size_t out_len, uint32_t value);

/* The number that starts at a position, big-endian. Needs nothing of the bytes nor of the position, which may lie beyond the
 * end; with_start asks for 0x80 on the first byte. */
sill_found_t sill_read_varint(const uint8_t *data, size_t data_len, size_t at);
sill_found_t sill_read_varint_with_start(const uint8_t *data, size_t data_len, size_t at);

/* ---- Exception tables: which instructions a handler guards. Five numbers an entry: the first instruction, how many there
 * are, the handler's first instruction, the stack depth, and 1 where the last instruction is pushed, else 0. */

typedef struct {
    uint32_t refusal; /* 14: the table is too long, at 0; 19: an entry's first byte has no marker, place is that byte; 2: no
                         byte is left for a later number, place is table_len, or a number is cut by the end, place is its
                         start; 18: a number is 2^32 or more, place is its start; 17: the entry, itself read whole, has no
                         room, place is the capacity in entries */
    uint32_t place;
    uint32_t count; /* how many entries */
} sill_exceptions_t;

/* All entries of a table, in order. The capacity is entries_len / 5: five numbers for every four bytes of the table are
 * always enough. 0x80 on a later number is not looked at. */
sill_exceptions_t sill_read_exceptions(const uint8_t *table, size_t table_len, uint32_t *entries, size_t entries_len);

/* All whole groups of five numbers, in order and in the shortest form; a remainder is not looked at. Entry by entry: 18 at 0
 * where the depth is 2^31 or more or the last number is above 1; then 17 at out_len, which counts as at most
 * 4,294,967,295. Needs up to 24 bytes an entry. What is written reads as the same entries. */
sill_written_t sill_write_exceptions(const uint32_t *entries, size_t entries_len, uint8_t *out, size_t out_len);

/* ---- Nightly totals. They are SILL_COUNTERS numbers: inputs, accepted, refused, then the count of each refusal 1 to 26. A counter
   that a slice is too short for reads as 0, and what lies behind the last is not looked at. Totals go in and out apart: a refused
   call loses nothing of what went in. */

#define SILL_COUNTERS 29

typedef struct {
    uint32_t refusal; /* 17: fewer than SILL_COUNTERS numbers are lent for the totals, place is how many; 18: an answer is above 26,
                         or a total would pass 64 bits, at 0 */
    uint32_t place;
} sill_totalled_t;

/* before with every answer counted: 0 is accepted, any other the refusal of that number. Needs SILL_COUNTERS numbers of after. */
sill_totalled_t sill_totals(const uint64_t *before, size_t before_len, const uint32_t *answers, size_t answers_len,
                            uint64_t *after, size_t after_len);

/* Both totals together, counter by counter. Needs SILL_COUNTERS numbers of sum. */
sill_totalled_t sill_add_totals(const uint64_t *a, size_t a_len, const uint64_t *b, size_t b_len, uint64_t *sum,
                                size_t sum_len);

/* The lines "inputs 3", "accepted 2", "refused 1", then "refusal N COUNT" for N from 1 to 26, zero lines included, each ended by a
   newline. 17: no room, place is out_len. Needs up to 910 bytes of out. */
sill_written_t sill_print_totals(const uint64_t *totals, size_t totals_len, uint8_t *out, size_t out_len);

/* ---- Settings files. A file is fields one behind another: a tag of one byte, a length of two bytes, little-endian, and so many bytes
   of contents. A tag occurs once, and field 1 is the edition. The first fault of a file, in its order: 22 where a field has the tag of
   one before it, then 2 where its header or its contents pass the end, both at the field's first byte. */

typedef struct {
    uint32_t refusal; /* a fault of own, then of fallback, each at its place in its own file; then 23 at 0: neither has the tag */
    uint32_t place;
    uint32_t file;  /* 0: the contents stand in own; 1: in fallback */
    uint32_t start; /* where they start in that file */
    uint32_t size;  /* how many bytes they are */
} sill_setting_t;

typedef struct {
    uint32_t refusal; /* a fault of file, then of changes, each at its place in its own file; then 17: no room, place is out_len, which
                         counts as at most 4,294,967,295 */
    uint32_t place;
    uint32_t written; /* how many bytes */
} sill_rewritten_t;

typedef struct {
    uint32_t refusal; /* 14: the archive is above 4,294,967,295 bytes, at 0; then its first fault, record by record: 2 at a record whose
                         length or file passes the end, or the fault of a saved file, placed from the archive's start; then the
                         file's own fault; then 23 at 0: the file has no edition, or one that is saved already; then 17 as above */
    uint32_t place;
    uint32_t written; /* how many bytes the new archive has */
} sill_saved_t;

typedef struct {
    uint32_t refusal; /* 14 and the archive's faults as in sill_save_edition; then 23 at 0: no file of this edition is saved */
    uint32_t place;
    uint32_t start; /* where the file's bytes start in the archive */
    uint32_t size;  /* how many they are */
} sill_edition_t;

/* Where the contents of a tag stand: in own, the customer's file, if it has the tag, else in fallback, the default. Both files are
 * tested whole first. A tag above 255 is in none. */
sill_setting_t sill_setting(const uint8_t *own, size_t own_len, const uint8_t *fallback, size_t fallback_len, uint32_t tag);

/* The file with changes, which are a file of fields too. A field whose tag the changes have gets its contents there, where it stands;
 * every other field is kept byte for byte; what the file lacks follows in the order of the changes. */
sill_rewritten_t sill_rewrite_settings(const uint8_t *file, size_t file_len, const uint8_t *changes, size_t changes_len,
                                       uint8_t *out, size_t out_len);

/* The archive with one more file behind it. An archive is saved files one behind another, each behind its length in four bytes,
 * little-endian; the empty one has none. Every edition saved before gives afterwards what it gave. */
sill_saved_t sill_save_edition(const uint8_t *archive, size_t archive_len, const uint8_t *file, size_t file_len, uint8_t *out,
                               size_t out_len);

/* The first saved file whose field 1 is these bytes, as it was saved. */
sill_edition_t sill_edition(const uint8_t *archive, size_t archive_len, const uint8_t *edition, size_t edition_len);

/* ---- Line tables: where each instruction of a code object comes from. */

typedef struct {
    uint32_t refusal; /* 14: the table is too long, at 0; 17: fewer records than instructions, place is the capacity in
                         records; 18: a line outside signed 32 bits, a number of 2^32 or more or one of more than six
                         bytes, place is the start of its entry, from the table's start */
    uint32_t place;
    uint32_t from_entries; /* how many instructions the entries placed; the others show the first line (1 where that is
                              not positive) and column 1 */
    uint32_t whole; /* every byte was used, none was missing, no stop was met, and the lengths add up to count */
} sill_located_t;

typedef struct {
    uint32_t line; /* lines and columns count from 1 */
    uint32_t column;
    uint32_t end_line;
    uint32_t end_column;
} sill_location_t;

/* Four numbers an instruction, in the order of sill_location_t. Needs 4 * count numbers: the capacity is records_len / 4. */
sill_located_t sill_locate(const uint8_t *table, size_t table_len, int32_t first_line, uint32_t count,
                           uint32_t *records, size_t records_len);

/* One struct an instruction in out, and the same as numbers in flat. Needs 4 * count numbers of flat and count structs of
 * out: the capacity is the smaller of flat_len / 4 and out_len. */
sill_located_t sill_locations(const uint8_t *table, size_t table_len, int32_t first_line, uint32_t count,
                              uint32_t *flat, size_t flat_len, sill_location_t *out, size_t out_len);

/* A line table that comes by piece, cut anywhere: the start, any pieces, and the end give what sill_locate gives of the joined
 * table. The state is SILL_STATE_NUMBERS numbers or more, all of a caller's that no other reading uses; what it holds is the
 * port's own, and behind these numbers nothing is touched. The start zeroes the records; a piece writes those that its complete
 * entries place and leaves the others as lent; the end reads missing bytes as 0 and writes the records that are left. So each call
 * is lent the state and the records that the call before left. Until the end from_entries counts what complete entries placed, and
 * whole is 0.
 * A refusal zeroes all records. The state keeps 14 (pieces above 16 MiB together, at 0, before the piece's bytes are used), 17 (fewer
 * records than count at any call, place is records_len / 4) and 18 (place as sill_locate's, in the call whose bytes first show it),
 * and every later call repeats it: this store a refusal does not clear. A state of fewer numbers is 17 before all, place is
 * state_len, and is cleared. 21 at 0: the reading has ended, or the numbers are no state that a call leaves (all zeros are none). */
enum { SILL_STATE_NUMBERS = 40 };
sill_located_t sill_locate_begin(int32_t first_line, uint32_t count, uint32_t *state, size_t state_len, uint32_t *records,
                                 size_t records_len);
sill_located_t sill_locate_piece(const uint8_t *bytes, size_t bytes_len, uint32_t *state, size_t state_len,
                                 uint32_t *records, size_t records_len);
sill_located_t sill_locate_end(uint32_t *state, size_t state_len, uint32_t *records, size_t records_len);

typedef struct {
    uint32_t refusal; /* as sill_located_t's; 17's place is sources_len */
    uint32_t place;
    uint32_t from_entries; /* how many instructions have bit 1 */
    uint32_t with_line;    /* bit 2 */
    uint32_t with_columns; /* bits 2, 4 and 8 together */
    uint32_t sure;         /* bits 2 and 16 without 32 */
} sill_sourced_t;

/* Where each instruction's place comes from, for the places that sill_locate shows. A byte an instruction, 0 where it is left
 * over, else the sum of: 1 from an entry; 2 the entry has a line (any code but 15); 4 it has a column and 8 an end column;
 * 16 it has a line, and line and end line are above 0 as stored; 32 a byte of the entry is missing. Needs count bytes: the
 * capacity is sources_len. With 1 and 2 and without 16 a line or end line of 1 was not stored so. */
sill_sourced_t sill_sources(const uint8_t *table, size_t table_len, int32_t first_line, uint32_t count, uint8_t *sources,
                            size_t sources_len);

typedef struct {
    uint32_t refusal; /* 17: fewer records than count, place is records_len / 4; then an index of too few words, place is
                         index_len */
    uint32_t place;
    uint32_t starts; /* how many instructions start a row */
} sill_indexed_t;

typedef struct {
    uint32_t refusal; /* 17: the index has too few words for the count, place is index_len; then 20, at 0: n is beyond the
                         count, or there is no k-th start */
    uint32_t place;
    uint64_t value;
} sill_start_t;

/* Which instructions start a row: one bit an instruction, set where its line differs from the one before (the first is
 * always set), and a running total every 512 bits. Records are four numbers an instruction, as sill_locate leaves them. The
 * index is 9 * (count / 512 + 1) words: a total and eight words of bits for each 512 instructions, the count's own block
 * included. Changing a record means building the index anew. */
sill_indexed_t sill_index_starts(const uint32_t *records, size_t records_len, uint32_t count, uint64_t *index,
                                 size_t index_len);

/* How many starts lie before instruction n, which may be the count; and which instruction is the k-th start, k from 1. Of an
 * index that sill_index_starts built for this count the answer is the one that counting the records gives. For any other
 * words there is an answer too, made of them: sums keep 64 bits, and an instruction is below the count. */
sill_start_t sill_starts_before(const uint64_t *index, size_t index_len, uint32_t count, uint32_t n);
sill_start_t sill_start_at(const uint64_t *index, size_t index_len, uint32_t count, uint32_t k);

typedef struct {
    uint32_t refusal; /* 14: the table, or the repaired one, is too long, at 0; 17: no room, place is out_len, which counts as
                         at most 4,294,967,295 */
    uint32_t place;
    uint32_t written;   /* how many bytes the repaired table has */
    uint32_t kept;      /* entries of the table that the repaired one has, a shortened one included */
    uint32_t dropped;   /* bytes behind the last kept entry */
    uint32_t shortened; /* whether the last kept entry stands for fewer instructions than it did */
    uint32_t covered;   /* instructions that got an entry without a place, since none was left for them */
} sill_salvaged_t;

/* Makes a whole table for count instructions: complete entries are kept up to the first stop, cut or refused one, the entry
 * that runs past the count is shortened, and entries without a place cover what is left. Needs up to table_len and a byte for
 * each eight instructions, rounded up, of out. A whole table comes back as it is.
 * Instructions under kept entries have the locations that sill_locate gives them in the original. */
sill_salvaged_t sill_salvage(const uint8_t *table, size_t table_len, int32_t first_line, uint32_t count, uint8_t *out,
                             size_t out_len);

typedef struct {
    uint32_t refusal; /* 14: both tables together are too long, at 0; 24: a table is not whole (one that refuses is not), or the
                         first does not leave the second's first line, at 0; 17: no room, place is out_len, which counts
                         as at most 4,294,967,295 */
    uint32_t place;
    uint32_t written; /* how many bytes: those of a, then those of b */
    uint32_t count;   /* count_a + count_b, for which the joined table is whole */
    int32_t line;     /* the running line that it leaves */
} sill_joined_t;

typedef struct {
    uint32_t refusal; /* 14 and 18 as in sill_locate */
    uint32_t place;
    uint32_t whole; /* as in sill_locate */
    int32_t line;   /* the running line where the reading ends, not as it is shown: it may be 0 or less */
} sill_line_t;

/* Puts table b behind table a, where a is whole for count_a instructions from first_a, b is whole for count_b from first_b, and a
 * leaves the line first_b. Needs a_len + b_len bytes of out. The locations are a's and then b's. The empty table over no
 * instructions leaves its first line. */
sill_joined_t sill_join(const uint8_t *a, size_t a_len, int32_t first_a, uint32_t count_a, const uint8_t *b, size_t b_len,
                        int32_t first_b, uint32_t count_b, uint8_t *out, size_t out_len);

/* The running line that a table leaves, as sill_locate would read it, without records. */
sill_line_t sill_line_after(const uint8_t *table, size_t table_len, int32_t first_line, uint32_t count);

/* ---- Local names by their kinds: Local 0x20, Cell 0x40, Free 0x80. */

typedef struct {
    uint32_t refusal; /* 14: too many kinds; 8: names and kinds differ in number; 18: the arguments, as counted below, are 2^32 or
                         more; all three at 0;
                         17: an output is shorter than the names, place is its length */
    uint32_t place;
    uint32_t locals; /* how many positions of each kind */
    uint32_t cells;
    uint32_t frees;
    uint32_t present; /* whether the cell-to-argument list is there; where not, its store is all zero */
} sill_split_t;

/* kinds is a code object's byte for each of its local names, args, kwonly and flags its numbers of these names. locals, cells
 * and frees get the positions of the names of each kind, in order; map a number for each name: its rank among the cells, or
 * the number of cells and its rank among the frees (Free wins over Cell), or SILL_NOTHING; cell_args a number for each cell:
 * the position of the argument that it is, or SILL_NOTHING; it is absent where all are. An argument is at a position below
 * args + kwonly, and one more each for the flags 4 and 8. Each output needs as many numbers as there are names. */
sill_split_t sill_split(const uint8_t *kinds, size_t kinds_len, uint32_t names, uint32_t args, uint32_t kwonly,
                        uint32_t flags, uint32_t *locals, size_t locals_len, uint32_t *cells, size_t cells_len,
                        uint32_t *frees, size_t frees_len, uint32_t *map, size_t map_len, uint32_t *cell_args,
                        size_t cell_args_len);

/* ---- Values: reading one from the start of the input, writing one, and what its leaves are. */

typedef struct {
    uint32_t refusal; /* 14: the input is too long, at 0. Else the first of these in reading order, place is a byte of the input:
                         1 it ends where a value is due, its length; 2 it ends inside a field, the field's start; 3 an
                         unknown letter, 4 a null that ends no dict, 15 a float in decimal digits, each at the header; 5 a
                         reference to no complete value, 6 a negative length, each at that field; 7 a code object's part of
                         another type than is due, at the part's header; 8 a digit of a long of 2^15 or more or a last one
                         that is 0, at the digit; or a code object with other than a kind a local name or an odd number of
                         code bytes, at its header; 9 text that is not UTF-8, surrogates allowed, at its first byte; 10
                         nested too deep, at the header or body; 11, 12, 13: the nodes, entries or slots are full, at the
                         header that asks for one more; 18: a code object's argument counts add up to 2^32 or more, at its
                         header */
    uint32_t place;
    uint32_t consumed; /* how many bytes the value took; what follows them is not looked at */
    uint32_t nodes;    /* how many of each record were used */
    uint32_t entries;
    uint32_t slots;
} sill_read_t;

typedef struct {
    uint32_t refusal; /* 14 at 0; 16: the node's record is not sound, place is the node number */
    uint32_t place;
    uint32_t kind; /* 0 not a leaf, 1 none, 2 truth, 3 ellipsis, 4 stop, 5 whole, 6 float, 7 two floats, 8 wide */
    uint32_t pad;
    uint64_t first;  /* truth: 0 or 1; whole: two's complement; floats: the stored bits; else 0 */
    uint64_t second; /* two floats: the second's bits; else 0 */
} sill_leaf_t;

typedef struct {
    uint32_t refusal; /* 14 at 0; 16: place is the node number where its record is not sound, its header would stand before the
                         input, or its end before its contents' end or beyond the input; or the number of a container whose chain
                         fails on the way, or with which more entries would have been walked than are used */
    uint32_t place;
    uint32_t start;        /* the byte of its header */
    uint32_t end;          /* the byte behind its last */
    uint32_t closed;       /* whether every reference in these bytes names a slot reserved in them: 0 or 1 */
    uint32_t slots_before; /* how many slots were reserved before its header */
} sill_span_t;

typedef struct {
    uint32_t refusal; /* 17: the stack is shorter than sill_keep_need says, place is stack_len; then, as they are met, 16: place is a
                         node's number that is not among those used, or that of a container with a bad chain */
    uint32_t place;
    uint32_t nodes;   /* how many nodes and entries are kept */
    uint32_t entries;
    uint32_t free_nodes; /* how many more the stores have room for: what sill_read_more can claim */
    uint32_t free_entries;
} sill_kept_t;

/* Reads the value at the input's start. The input has at most SILL_MOST_BYTES (14). nodes holds seven numbers a node: letter,
 * place, size, first entry, count, the place after its last byte, and the number of the input, which is 0 here; entries two an
 * entry: node, next entry; slots one a slot: 0 while open, else node + 1. No entry is SILL_NOTHING. Each capacity (nodes_len / 7,
 * entries_len / 2, slots_len) counts as at most SILL_MOST_RECORDS records, nesting as at most SILL_MOST_NESTING. A record of each
 * kind for every byte of the input is always enough; fewer do for most inputs, and 11, 12 and 13 ask for more. The root is node
 * 0. A nesting of 2,000 needs less than 1 MiB of stack. */
sill_read_t sill_read(const uint8_t *input, size_t input_len, uint32_t *nodes, size_t nodes_len, uint32_t *entries,
                      size_t entries_len, uint32_t *slots, size_t slots_len, uint32_t nesting);

/* Writes the value of node root in its canonical form, bytes and then zeros. Sharing is written out, so no length of out is
 * always enough; 17 asks for more. 14 at 0; 10 and 16 at the node's number; 17 at out_len. Any stores may be lent, of which so
 * many nodes and entries count as used; nesting, and the stack that it needs, as in sill_read. */
sill_written_t sill_write(const uint8_t *input, size_t input_len, const uint32_t *nodes, size_t nodes_len,
                          const uint32_t *entries, size_t entries_len, uint32_t used_nodes, uint32_t used_entries,
                          uint32_t root, uint32_t nesting, uint8_t *out, size_t out_len);

/* What a node holds that has no children. Any node store may be asked, of which so many nodes count as used. */
sill_leaf_t sill_leaf(const uint8_t *input, size_t input_len, const uint32_t *nodes, size_t nodes_len, uint32_t used,
                      uint32_t node);

/* The bytes of a node, from its header to its end; of one that is shared by reference, where it stands itself. Any stores may be
 * asked, of which so many nodes and entries count as used; nodes with another input's number than the asked one's stand in no bytes of
 * this one. Of stores that a reading left: where closed is 1, the bytes alone, each reference's index in them lowered by slots_before,
 * read as the same value. Of stores that sill_keep moved the slots of what was not kept are not counted. */
sill_span_t sill_span(const uint8_t *input, size_t input_len, const uint32_t *nodes, size_t nodes_len, const uint32_t *entries,
                      size_t entries_len, uint32_t used_nodes, uint32_t used_entries, uint32_t node);

/* Moves a node and everything reachable from it to the front of the stores, numbered in order of first visit from that node, depth
 * first, with entries container by container in that order; behind them all is zero, and so are the slots. The node becomes node 0,
 * its value is the same, what was shared stays shared, and each node keeps the number of its input. Any stores may be lent, of which
 * so many nodes and entries count as used. A chain is walked to its count when its container is first visited, before its children;
 * it is bad where an entry is not among those used or was met before, in this chain or another.
 * The stack is working room, which is zero afterwards in every case. Refused, nodes, entries and slots are as they were. */
sill_kept_t sill_keep(uint32_t *nodes, size_t nodes_len, uint32_t *entries, size_t entries_len, uint32_t *slots, size_t slots_len,
                      uint32_t used_nodes, uint32_t used_entries, uint32_t node, uint32_t *stack, size_t stack_len);

/* How many numbers of stack sill_keep needs where so many nodes and entries are used. */
uint64_t sill_keep_need(uint32_t used_nodes, uint32_t used_entries);

/* Reads a value behind kept ones: the first kept_nodes nodes and kept_entries entries stay, and the value's nodes and entries are those
 * of sill_read, their numbers raised by the kept ones; each of its nodes has input_number. The root is node kept_nodes. The counts are
 * kept plus new, the slots begin at 0 again. Refusals in this order: 14; then 11 at 0 where more nodes are kept than the capacity, 12
 * at 0 where more entries are; then those of sill_read. Refused, the first 7 * kept_nodes numbers of nodes and 2 * kept_entries of
 * entries are as they were (all, where the store is shorter), and everything behind them and every slot is zero. So it may be tried
 * again in longer stores that begin with what is kept. Which input belongs to which number is the caller's to know: every other
 * function is to be lent the one that the node's seventh number names. Nesting, and the stack that it needs, as in sill_read. */
sill_read_t sill_read_more(const uint8_t *input, size_t input_len, uint32_t *nodes, size_t nodes_len, uint32_t *entries,
                           size_t entries_len, uint32_t *slots, size_t slots_len, uint32_t nesting, uint32_t kept_nodes,
                           uint32_t kept_entries, uint32_t input_number);

/* The line table that is a bytes node's contents, as sill_locate reads it: 14 at 0, then 16 at the node number where its
 * record is not sound or it is not bytes. Places of 18 count from the table's start. */
sill_located_t sill_locate_node(const uint8_t *input, size_t input_len, const uint32_t *nodes, size_t nodes_len,
                                uint32_t used, uint32_t node, int32_t first_line, uint32_t count, uint32_t *records,
                                size_t records_len);

/* ---- Golden files. The old form is two values back to back, code then expected result, with nothing after. The new form has the
   tagged fields of settings files: edition (tag 1, the one byte 1), code (tag 2), result (tag 3), exactly these in that order. Its
   first byte, 1, begins no value, so that it tells the forms apart. */

typedef struct {
    uint32_t refusal; /* of sill_golden_from_fields first: a fault of the file, as of settings files; then 23 at 0: other fields, or
                         another edition. Of both: those of sill_read, of the code, then of the result, placed from the file's start (14
                         at 0); 7 at the first value's header: it is no code; 25 at the first byte behind a value, in fields behind
                         the code's first. Of sill_golden_to_fields then 26 at a value above 65,535 bytes, the code first. Then 17: no
                         room, place is out_len, which counts as at most 4,294,967,295 */
    uint32_t place;
    uint32_t written; /* how many bytes */
} sill_moved_t;

/* The golden plain, which has the old form, in fields. Both values are read before anything is written. nodes, entries and slots are
 * working room as in sill_read: each value has all of it, and it is zero afterwards in every case; nesting, and the stack that it
 * needs, as there. The new form is ten bytes longer than the old. */
sill_moved_t sill_golden_to_fields(const uint8_t *plain, size_t plain_len, uint32_t *nodes, size_t nodes_len, uint32_t *entries,
                                   size_t entries_len, uint32_t *slots, size_t slots_len, uint32_t nesting, uint8_t *out,
                                   size_t out_len);

/* The golden fields, which has the new form, in the old. What either move accepts, the other gives back byte for byte. */
sill_moved_t sill_golden_from_fields(const uint8_t *fields, size_t fields_len, uint32_t *nodes, size_t nodes_len,
                                     uint32_t *entries, size_t entries_len, uint32_t *slots, size_t slots_len, uint32_t nesting,
                                     uint8_t *out, size_t out_len);

#ifdef __cplusplus
}
#endif

#endif
