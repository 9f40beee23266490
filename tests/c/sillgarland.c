/* The header and the archive as a C or C++ program meets them: document 01's sheets, a line table, and the deepest nesting on a
 * small stack. Compiled as C11 and as C++17 by tools/c-test; the last line says how many tests passed. */
#include "sillgarland.h"

#include <pthread.h>
#include <stdio.h>
#include <string.h>

#define LENGTH(array) (sizeof(array) / sizeof((array)[0]))
#define NONE UINT32_MAX

static int passed, failed;

static void expect(int held, const char *what)
{
    if (held) {
        passed++;
    } else {
        failed++;
        printf("failed: %s\n", what);
    }
}

static int all_zero(const uint32_t *store, size_t length)
{
    for (size_t at = 0; at < length; at++) {
        if (store[at] != 0) {
            return 0;
        }
    }
    return 1;
}

/* ---- varints */

static void test_varints(void)
{
    uint8_t out[4] = {9, 9, 9, 9};
    sill_written_t written = sill_write_varint(out, LENGTH(out), 64);
    expect(written.refusal == 0 && written.written == 2, "64 takes two bytes");
    expect(memcmp(out, "\x40\x01\0\0", 4) == 0, "64 is 40 01 little-endian, and zeros follow");

    written = sill_write_varint_with_start(out, LENGTH(out), 64);
    expect(memcmp(out, "\xC1\0\0\0", 4) == 0, "64 is C1 00 big-endian with the marker");
    sill_found_t found = sill_read_varint_with_start(out, written.written, 0);
    expect(found.refusal == 0 && found.found && found.value == 64 && found.next == 2, "and reads back");
    found = sill_read_varint_with_start(out, 1, 0);
    expect(found.refusal == 2 && !found.found && found.place == 0 && found.next == 0, "a cut number is refused at its start");
    found = sill_read_varint((const uint8_t *)"\0\x44\x40\x40\x40\x40\0", 7, 1);
    expect(found.refusal == 18 && !found.found && found.place == 1 && found.next == 1, "and so is 2^32");

    written = sill_write_varint(NULL, 0, 1);
    expect(written.refusal == 17 && written.place == 0, "no room in an empty slice");
}

/* ---- values */

static sill_read_t read_with(const void *input, size_t length, uint32_t nodes[21], uint32_t nesting)
{
    uint32_t entries[4], slots[1];
    return sill_read((const uint8_t *)input, length, nodes, 21, entries, LENGTH(entries), slots, LENGTH(slots), nesting);
}

static void expect_refused(const char *input, size_t length, uint32_t nesting, uint32_t refusal, uint32_t place)
{
    uint32_t nodes[21];
    memset(nodes, 7, sizeof nodes);
    sill_read_t read = read_with(input, length, nodes, nesting);
    expect(read.refusal == refusal && read.place == place, "refused with its number and place");
    expect(read.consumed == 0 && read.nodes == 0 && all_zero(nodes, 21), "and nothing is left behind");
}

/* P1 to P12 of document 01. */
static void test_sheets(void)
{
    uint32_t nodes[21], entries[4], slots[1];
    sill_read_t read = read_with("N", 1, nodes, 2000);
    expect(read.refusal == 0 && read.consumed == 1 && read.nodes == 1, "P1");

    read = read_with(")\x02i\x01\0\0\0T", 8, nodes, 2000);
    expect(read.refusal == 0 && read.consumed == 8 && read.nodes == 3 && read.entries == 2, "P4");
    expect(nodes[0] == ')' && nodes[4] == 2 && nodes[5] == 8 && nodes[6] == 0 && nodes[7] == 'i' && nodes[8] == 3 && nodes[9] == 4 &&
               nodes[12] == 7,
           "P4's nodes");

    read = sill_read((const uint8_t *)")\x02\xE9\x05\0\0\0r\0\0\0\0", 12, nodes, 21, entries, 4, slots, 1, 2000);
    expect(read.refusal == 0 && read.nodes == 2 && read.slots == 1, "P6");
    expect(entries[0] == 1 && entries[1] == 1 && entries[2] == 1 && entries[3] == NONE, "P6: both entries name node 1");

    read = read_with("{\xB0", 2, nodes, 2000);
    expect(read.refusal == 0 && read.consumed == 2 && read.slots == 0, "P7");

    expect_refused("", 0, 2000, 1, 0);
    expect_refused("0", 1, 2000, 4, 0);
    expect_refused("\xA9\x01r\0\0\0\0", 7, 2000, 5, 3);
    expect_refused("l\x01\0\0\0\0\x80", 7, 2000, 8, 5);
    expect_refused("(\xFF\xFF\xFF\xFF", 5, 2000, 6, 1);
    expect_refused(")\x01N", 3, 1, 10, 2);
    expect_refused("{NN0", 4, 1, 10, 1);
    expect_refused("c", 1, 1, 10, 1);
}

static void test_leaves(void)
{
    static const uint8_t input[] = ")\x02i\xFE\xFF\xFF\xFFT";
    uint32_t nodes[21];
    sill_read_t read = read_with(input, 8, nodes, 2000);
    sill_leaf_t leaf = sill_leaf(input, 8, nodes, LENGTH(nodes), read.nodes, 1);
    expect(leaf.refusal == 0 && leaf.kind == 5 && (int64_t)leaf.first == -2 && leaf.pad == 0, "a whole number");
    leaf = sill_leaf(input, 8, nodes, LENGTH(nodes), read.nodes, 2);
    expect(leaf.kind == 2 && leaf.first == 1 && leaf.second == 0, "a truth");
    leaf = sill_leaf(input, 8, nodes, LENGTH(nodes), read.nodes, 0);
    expect(leaf.refusal == 0 && leaf.kind == 0, "a tuple is not a leaf");
    leaf = sill_leaf(input, 8, nodes, LENGTH(nodes), read.nodes, 3);
    expect(leaf.refusal == 16 && leaf.place == 3, "a number beyond the used ones");
}

/* A reference's span is the original's; one that leaves a span is told. */
static void test_spans(void)
{
    const uint8_t *input = (const uint8_t *)")\x02\xE9\x05\0\0\0)\x01r\0\0\0\0";
    uint32_t nodes[21], entries[6], slots[1];
    sill_read_t read = sill_read(input, 14, nodes, 21, entries, 6, slots, 1, 2000);
    sill_span_t span = sill_span(input, 14, nodes, 21, entries, 6, read.nodes, read.entries, 0);
    expect(span.refusal == 0 && span.start == 0 && span.end == 14 && span.closed == 1 && span.slots_before == 0, "the root's span");
    span = sill_span(input, 14, nodes, 21, entries, 6, read.nodes, read.entries, 1);
    expect(span.refusal == 0 && span.start == 2 && span.end == 7 && span.closed == 1 && span.slots_before == 0, "a shared number's");
    span = sill_span(input, 14, nodes, 21, entries, 6, read.nodes, read.entries, 2);
    expect(span.refusal == 0 && span.start == 7 && span.end == 14 && span.closed == 0 && span.slots_before == 1, "one with a reference out of it");
    span = sill_span(input, 14, nodes, 21, entries, 6, read.nodes, read.entries, 3);
    expect(span.refusal == 16 && span.place == 3 && span.end == 0, "a node that is not there");
    nodes[19] = 15;
    span = sill_span(input, 14, nodes, 21, entries, 6, read.nodes, read.entries, 2);
    expect(span.refusal == 16 && span.place == 2, "an end beyond the input");
}

/* A shared integer is written out twice; what is refused leaves the output all zero. */
static void test_writing(void)
{
    static const uint8_t input[] = ")\x02\xE9\x05\0\0\0r\0\0\0\0";
    uint32_t nodes[14], entries[4], slots[1];
    uint8_t out[16];
    sill_read_t read = sill_read(input, 12, nodes, 14, entries, 4, slots, 1, 2000);
    memset(out, 7, sizeof out);
    sill_written_t written = sill_write(input, 12, nodes, 14, entries, 4, read.nodes, read.entries, 0, 2, out, 16);
    expect(written.refusal == 0 && written.written == 15, "P6 in its canonical form");
    expect(memcmp(out, "(\x02\0\0\0i\x05\0\0\0i\x05\0\0\0\0", 16) == 0, "its bytes, and zeros follow");

    written = sill_write(input, 12, nodes, 14, entries, 4, read.nodes, read.entries, 0, 1, out, 16);
    expect(written.refusal == 10 && written.place == 1 && written.written == 0, "too deep at the child");
    written = sill_write(input, 12, nodes, 14, entries, 4, read.nodes, read.entries, 2, 2, out, 16);
    expect(written.refusal == 16 && written.place == 2, "no such node to write");
    memset(out, 7, sizeof out);
    written = sill_write(input, 12, nodes, 14, entries, 4, read.nodes, read.entries, 0, 2, out, 14);
    expect(written.refusal == 17 && written.place == 14, "one byte short");
    expect(memcmp(out, "\0\0\0\0\0\0\0\0\0\0\0\0\0\0\x07\x07", 16) == 0, "and the fourteen lent bytes are zero");
}

/* ---- a value kept, and more read behind it */

/* The second part of a pair is moved to the front with the text before it that it shares; then a number from another input goes behind. */
static void test_keeping(void)
{
    const uint8_t *first = (const uint8_t *)")\x02\xFA\x03" "abc[\x02\0\0\0r\0\0\0\0T", *second = (const uint8_t *)"\xA9\x01i\x09\0\0\0";
    uint32_t nodes[50], entries[13], slots[2], stack[21], before[50];
    uint8_t out[16];
    sill_read_t read = sill_read(first, 18, nodes, 50, entries, 13, slots, 2, 2000);
    expect(read.refusal == 0 && read.nodes == 4 && read.entries == 4 && read.slots == 1, "a pair");
    expect(sill_keep_need(4, 4) == 20 && sill_keep_need(0, 0) == 0 && sill_keep_need(UINT32_MAX, UINT32_MAX) == 5 * 1048576, "the need");

    memcpy(before, nodes, sizeof nodes);
    memset(stack, 7, sizeof stack);
    sill_kept_t kept = sill_keep(nodes, 50, entries, 13, slots, 2, 4, 4, 9, stack, 19);
    expect(kept.refusal == SILL_NO_ROOM && kept.place == 19 && kept.nodes == 0, "a stack one number short, before a bad number");
    expect(all_zero(stack, 19) && stack[19] == 0x07070707 && slots[0] == 2, "the stack is zero, and the slots stay");
    kept = sill_keep(nodes, 50, entries, 13, slots, 2, 4, 4, 4, stack, 20);
    expect(kept.refusal == SILL_BAD_TABLE && kept.place == 4 && !memcmp(before, nodes, sizeof nodes), "no such node, and all stays");

    kept = sill_keep(nodes, 50, entries, 13, slots, 2, 4, 4, 2, stack, 20);
    expect(kept.refusal == 0 && kept.nodes == 3 && kept.entries == 2 && kept.free_nodes == 4 && kept.free_entries == 4, "the list is kept");
    expect(nodes[0] == '[' && nodes[3] == 0 && nodes[7] == 'z' && nodes[10] == NONE && nodes[14] == 'T', "in order of first visit");
    expect(entries[0] == 1 && entries[1] == 1 && entries[2] == 2 && entries[3] == NONE, "its entries");
    expect(all_zero(nodes + 21, 29) && all_zero(entries + 4, 9) && all_zero(slots, 2) && all_zero(stack, 20), "and zeros behind");

    read = sill_read_more((const uint8_t *)"u\x02\0\0\0a", 6, nodes, 50, entries, 13, slots, 2, 2000, 3, 2, 1);
    expect(read.refusal == 2 && read.place == 5 && nodes[14] == 'T' && all_zero(nodes + 21, 29), "a refused one leaves what is kept");
    read = sill_read_more(second, 7, nodes, 50, entries, 13, slots, 2, 2000, 8, 7, 1);
    expect(read.refusal == SILL_NO_NODE && read.place == 0, "more nodes kept than fit");
    read = sill_read_more(second, 7, nodes, 50, entries, 13, slots, 2, 2000, 7, 7, 1);
    expect(read.refusal == SILL_NO_ENTRY && read.place == 0, "more entries kept than fit");
    read = sill_read_more(second, 7, nodes, 50, entries, 13, slots, 2, 2000, 3, 2, 4000000000u);
    expect(read.refusal == 0 && read.consumed == 7 && read.nodes == 5 && read.entries == 3 && read.slots == 1, "kept plus new");
    expect(nodes[21] == ')' && nodes[24] == 2 && nodes[27] == 4000000000u && nodes[28] == 'i' && nodes[20] == 0, "raised, with its input");
    expect(entries[4] == 4 && entries[5] == NONE && slots[0] == 4 && all_zero(nodes + 35, 15), "its entry and slot");

    sill_written_t written = sill_write(first, 18, nodes, 50, entries, 13, 5, 3, 0, 2, out, 16);
    expect(written.refusal == 0 && written.written == 14 && !memcmp(out, "[\x02\0\0\0u\x03\0\0\0" "abcT", 14), "the kept list");
    written = sill_write(second, 7, nodes, 50, entries, 13, 5, 3, 3, 2, out, 16);
    expect(written.refusal == 0 && written.written == 10 && !memcmp(out, "(\x01\0\0\0i\x09\0\0\0", 10), "and the tuple behind it");
}

/* ---- exception tables */

/* Two entries, read and written back; then a table without room, without a marker, cut, and numbers that no table has. */
static void test_exceptions(void)
{
    static const uint8_t table[] = {0x84, 0x03, 0x0A, 0x03, 0xC1, 0x00, 0x02, 0x41, 0x05, 0x00};
    uint32_t entries[12];
    uint8_t out[12];
    memset(entries, 7, sizeof entries);
    sill_exceptions_t read = sill_read_exceptions(table, LENGTH(table), entries, LENGTH(entries));
    expect(read.refusal == 0 && read.place == 0 && read.count == 2, "two entries");
    expect(entries[0] == 4 && entries[1] == 3 && entries[2] == 10 && entries[3] == 1 && entries[4] == 1, "the first");
    expect(entries[5] == 64 && entries[6] == 2 && entries[7] == 69 && entries[8] == 0 && entries[9] == 0, "the second");
    expect(all_zero(entries + 10, 2), "and zeros follow");

    memset(out, 7, sizeof out);
    sill_written_t written = sill_write_exceptions(entries, 12, out, LENGTH(out));
    expect(written.refusal == 0 && written.written == 10, "both entries are written, the remainder is not");
    expect(memcmp(out, table, 10) == 0 && out[10] == 0 && out[11] == 0, "as they stood in the table, and zeros follow");
    written = sill_write_exceptions(entries, 10, out, 9);
    expect(written.refusal == SILL_NO_ROOM && written.place == 9 && written.written == 0, "no room for the last byte");
    expect(out[0] == 0 && out[8] == 0, "and the output is zero");

    read = sill_read_exceptions(table, LENGTH(table), entries, 9);
    expect(read.refusal == SILL_NO_ROOM && read.place == 1 && read.count == 0, "room for one entry");
    expect(all_zero(entries, 9), "and the entries are zero");
    read = sill_read_exceptions(table, 9, entries, 0);
    expect(read.refusal == SILL_NO_ROOM && read.place == 0, "the first entry has no room before the second is cut");
    read = sill_read_exceptions(table, 9, entries, 12);
    expect(read.refusal == SILL_DATA_TOO_SHORT && read.place == 9, "no byte is left for a later number: at the end");
    read = sill_read_exceptions(table, 8, entries, 12);
    expect(read.refusal == SILL_DATA_TOO_SHORT && read.place == 7, "a cut number: at its start");
    read = sill_read_exceptions(table + 1, 9, entries, 12);
    expect(read.refusal == SILL_NO_MARKER && read.place == 0, "no marker: at the entry");

    entries[3] = 0x80000000u;
    written = sill_write_exceptions(entries, 5, out, 0);
    expect(written.refusal == SILL_NUMBER_RANGE && written.place == 0, "a depth of 2^31");
    entries[3] = 0x7FFFFFFFu;
    entries[4] = 2;
    written = sill_write_exceptions(entries, 5, out, 0);
    expect(written.refusal == SILL_NUMBER_RANGE && written.place == 0, "a last-instruction bit of 2");
}

/* ---- nightly totals */

/* Three answers counted from nothing, printed, and added; then a store that is too short, an answer above 26, a full counter. */
static void test_totals(void)
{
    static const uint32_t answers[] = {0, 2, 0}, unknown[] = {26, 27}, last[] = {26};
    static const char start[] = "inputs 3\naccepted 2\nrefused 1\nrefusal 1 0\nrefusal 2 1\n";
    uint64_t after[31], sum[29];
    uint8_t out[400];
    memset(after, 7, sizeof after);
    sill_totalled_t told = sill_totals(NULL, 0, answers, 3, after, 31);
    expect(told.refusal == 0 && told.place == 0, "three answers are counted");
    expect(after[0] == 3 && after[1] == 2 && after[2] == 1 && after[3] == 0 && after[4] == 1 && after[28] == 0, "as they are");
    expect(after[29] == 0 && after[30] == 0, "and zeros follow");

    memset(out, 7, sizeof out);
    sill_written_t text = sill_print_totals(after, SILL_COUNTERS, out, sizeof out);
    expect(text.refusal == 0 && text.written == 330 + 29 && out[358] == '\n' && out[359] == 0, "29 lines of one digit");
    expect(memcmp(out, start, sizeof start - 1) == 0 && memcmp(out + 346, "refusal 26 0\n", 13) == 0, "in 02's form and order");
    text = sill_print_totals(after, SILL_COUNTERS, out, 358);
    expect(text.refusal == SILL_NO_ROOM && text.place == 358 && text.written == 0 && out[0] == 0, "one byte short");

    told = sill_add_totals(after, 2, after, 29, sum, 29);
    expect(told.refusal == 0 && sum[0] == 6 && sum[1] == 4 && sum[2] == 1 && sum[4] == 1, "a counter that is not there is 0");
    told = sill_totals(after, 29, answers, 3, sum, 28);
    expect(told.refusal == SILL_NO_ROOM && told.place == 28 && sum[0] == 0, "28 numbers are too few");
    told = sill_totals(after, 29, unknown, 2, sum, 29);
    expect(told.refusal == SILL_NUMBER_RANGE && told.place == 0 && sum[28] == 0, "27 is no refusal");
    after[28] = UINT64_MAX;
    told = sill_totals(after, 29, last, 1, sum, 29);
    expect(told.refusal == SILL_NUMBER_RANGE && sum[0] == 0, "a counter that is full");
    told = sill_add_totals(after, 29, after, 29, sum, 29);
    expect(told.refusal == SILL_NUMBER_RANGE && sum[0] == 0, "and a sum that is");
    expect(after[28] == UINT64_MAX && after[0] == 3, "what went in is as it was");
}

/* ---- line tables */

/* Two entries, cut inside the first and the second: placed as they become complete; the end, then 21; a refusal that stays. */
static void test_pieces(void)
{
    static const uint8_t table[] = {0xE9, 0x02, 0xE8, 0x02}, far[] = {0xF0, 0x00, 0x45, 0x00};
    uint32_t state[41], records[13];
    memset(state, 7, sizeof state);
    memset(records, 7, sizeof records);
    sill_located_t told = sill_locate_begin(10, 3, state, 41, records, 12);
    expect(told.refusal == 0 && told.from_entries == 0 && records[0] == 0 && records[11] == 0 && records[12] == 0x07070707, "begun, all records zero");
    told = sill_locate_piece(table, 1, state, 41, records, 12);
    expect(told.refusal == 0 && told.from_entries == 0 && records[0] == 0, "nothing is complete");
    told = sill_locate_piece(table + 1, 2, state, 41, records, 12);
    expect(told.refusal == 0 && told.from_entries == 2 && told.whole == 0 && records[0] == 11 && records[4] == 11 && records[8] == 0, "the first entry is placed");
    told = sill_locate_piece(NULL, 0, state, 41, records, 12);
    expect(told.refusal == 0 && told.from_entries == 2 && records[4] == 11, "a piece without bytes");
    uint32_t kept[41], held[12];
    memcpy(kept, state, sizeof kept);
    memcpy(held, records, sizeof held);
    told = sill_locate_end(kept, 41, held, 12);
    expect(told.refusal == 0 && told.from_entries == 3 && told.whole == 0 && held[8] == 11, "the missing byte is 0 at the end");
    told = sill_locate_piece(table + 3, 1, state, 41, records, 12);
    expect(told.refusal == 0 && told.from_entries == 3 && records[8] == 12, "the second entry is placed");
    told = sill_locate_end(state, 41, records, 12);
    expect(told.refusal == 0 && told.from_entries == 3 && told.whole == 1 && records[8] == 12 && state[40] == 0x07070707, "whole");
    told = sill_locate_end(state, 41, records, 12);
    expect(told.refusal == SILL_ALREADY_ENDED && told.place == 0 && records[0] == 0, "21 behind the end");
    memset(state, 0, sizeof state);
    told = sill_locate_piece(NULL, 0, state, 40, records, 12);
    expect(told.refusal == SILL_ALREADY_ENDED && told.place == 0, "zeros are no state");
    sill_locate_begin(2147483647, 2, state, 40, records, 12);
    told = sill_locate_piece(far, 3, state, 40, records, 12);
    expect(told.refusal == 0, "not lost: the end line's number goes on");
    told = sill_locate_piece(far + 3, 1, state, 40, records, 12);
    expect(told.refusal == SILL_NUMBER_RANGE && told.place == 0, "lost");
    told = sill_locate_end(state, 40, records, 12);
    expect(told.refusal == SILL_NUMBER_RANGE && told.place == 0, "and again");
    told = sill_locate_begin(1, 4, state, 40, records, 12);
    expect(told.refusal == SILL_NO_ROOM && told.place == 3, "records for three");
    told = sill_locate_end(state, 40, records, 13);
    expect(told.refusal == SILL_NO_ROOM && told.place == 3, "which sticks");
    told = sill_locate_begin(1, 3, state, 39, records, 12);
    expect(told.refusal == SILL_NO_ROOM && told.place == 39 && state[6] == 0, "a state of 39 numbers");
}

/* 600 instructions, three a row: bits and a total behind 512 of them; the count itself may be asked for, and no more. */
static void test_starts(void)
{
    uint32_t records[2400];
    uint64_t index[20];
    for (uint32_t i = 0; i < 2400; i++) records[i] = i % 4 ? i : 7 + i / 12;
    memset(index, 7, sizeof index);
    sill_indexed_t built = sill_index_starts(records, 2400, 600, index, 20);
    expect(built.refusal == 0 && built.place == 0 && built.starts == 200, "200 starts");
    expect(index[0] == 0 && (index[1] & 15) == 9 && index[9] == 171 && index[18] == 0 && index[19] == 0, "bits, a total, zeros");
    sill_start_t told = sill_starts_before(index, 18, 600, 600);
    expect(told.refusal == 0 && told.value == 200, "before the count");
    told = sill_starts_before(index, 18, 600, 514);
    expect(told.refusal == 0 && told.value == 172, "in the second block");
    told = sill_starts_before(index, 18, 600, 601);
    expect(told.refusal == SILL_NO_SUCH_START && told.place == 0 && told.value == 0, "beyond the count");
    told = sill_start_at(index, 18, 600, 172);
    expect(told.refusal == 0 && told.value == 513, "the first start of the second block");
    expect(sill_start_at(index, 18, 600, 0).refusal == SILL_NO_SUCH_START, "k counts from 1");
    expect(sill_start_at(index, 18, 600, 201).refusal == SILL_NO_SUCH_START, "there are 200");
    told = sill_start_at(index, 17, 600, 0);
    expect(told.refusal == SILL_NO_ROOM && told.place == 17, "17 before 20");
    built = sill_index_starts(records, 2399, 600, index, 20);
    expect(built.refusal == SILL_NO_ROOM && built.place == 599 && built.starts == 0 && index[0] == 0 && index[9] == 0, "a record short");
    built = sill_index_starts(records, 2400, 600, index, 17);
    expect(built.refusal == SILL_NO_ROOM && built.place == 17, "a word short");
}

/* A line step, an entry without a place, one whose only byte is missing, and one left over. */
static void test_sources(void)
{
    uint8_t sources[6];
    memset(sources, 7, sizeof sources);
    sill_sourced_t told = sill_sources((const uint8_t *)"\xE9\x02\xF8", 3, 10, 4, sources, 6);
    expect(told.refusal == 0 && told.from_entries == 3 && told.with_line == 2 && told.with_columns == 0, "two with a line");
    expect(told.sure == 2 && memcmp(sources, "\x13\x13\x01\0\0\0", 6) == 0, "no place, then left over, then zeros");
    told = sill_sources((const uint8_t *)"\xE8", 1, 10, 1, sources, 6);
    expect(told.from_entries == 1 && told.with_line == 1 && told.sure == 0 && sources[0] == 51, "a cut entry is not sure");
    told = sill_sources((const uint8_t *)"\xE8\x1B", 2, 10, 1, sources, 6);
    expect(told.with_line == 1 && told.sure == 0 && sources[0] == 3, "line -3, shown as 1");
    memset(sources, 7, sizeof sources);
    told = sill_sources((const uint8_t *)"\xE9\x02", 2, 10, 3, sources, 2);
    expect(told.refusal == 17 && told.place == 2 && told.from_entries == 0, "no room for a byte each");
    expect(memcmp(sources, "\0\0\x07", 3) == 0, "and the two lent bytes are zero");
}

/* Two blocks from lines that meet; lines that do not, one that only would as shown, a table that refuses, no room. */
static void test_join(void)
{
    uint8_t out[4];
    memset(out, 7, sizeof out);
    sill_joined_t joined = sill_join((const uint8_t *)"\xE8\x02", 2, 10, 1, (const uint8_t *)"\xF8", 1, 11, 1, out, 4);
    expect(joined.refusal == 0 && joined.written == 3 && joined.count == 2 && joined.line == 11, "joined");
    expect(memcmp(out, "\xE8\x02\xF8\0", 4) == 0, "both tables, and zeros follow");
    joined = sill_join((const uint8_t *)"\xE8\x02", 2, 10, 1, (const uint8_t *)"\xF8", 1, 10, 1, out, 4);
    expect(joined.refusal == 24 && joined.place == 0 && joined.written == 0 && joined.line == 0, "lines that do not meet");
    expect(memcmp(out, "\0\0\0\0", 4) == 0, "and the output is zero");
    joined = sill_join((const uint8_t *)"\xF8", 1, 0, 1, (const uint8_t *)"\xF8", 1, 1, 1, out, 4);
    expect(joined.refusal == 24, "lines are compared as they are stored");
    joined = sill_join((const uint8_t *)"\xD8\0\0", 3, 2147483647, 1, NULL, 0, 2147483647, 0, out, 4);
    expect(joined.refusal == 24 && joined.place == 0, "a table that refuses is not whole");
    joined = sill_join((const uint8_t *)"\xF8", 1, -5, 1, NULL, 0, -5, 0, out, 0);
    expect(joined.refusal == 17 && joined.place == 0, "no room");
    joined = sill_join((const uint8_t *)"\xF8", 1, -5, 1, NULL, 0, -5, 0, out, 1);
    expect(joined.refusal == 0 && joined.count == 1 && joined.line == -5 && out[0] == 0xF8, "the empty table behind");

    sill_line_t told = sill_line_after((const uint8_t *)"\xE8\x02", 2, 10, 1);
    expect(told.refusal == 0 && told.whole == 1 && told.line == 11, "the line that a table leaves");
    told = sill_line_after((const uint8_t *)"\xE9\x02", 2, 10, 1);
    expect(told.refusal == 0 && told.whole == 0 && told.line == 11, "an entry past the count moves the line too");
    told = sill_line_after((const uint8_t *)"\xD8\0\0", 3, 2147483647, 1);
    expect(told.refusal == 18 && told.place == 0 && told.line == 0, "a line out of range");
}

/* A lookup in both files, and the faults in their order; a rewriting that keeps an unknown tag; two saves, and the editions of both. */
static void test_settings(void)
{
    const uint8_t *own = (const uint8_t *)"\x04\x01\0\x01", *fallback = (const uint8_t *)"\x01\x01\0\x33\x04\x01\0\0";
    sill_setting_t found = sill_setting(own, 4, fallback, 8, 4);
    expect(found.refusal == 0 && found.file == 0 && found.start == 3 && found.size == 1, "found in the override");
    found = sill_setting(own, 4, fallback, 8, 1);
    expect(found.refusal == 0 && found.file == 1 && found.start == 3 && found.size == 1, "found in the default");
    found = sill_setting(own, 4, fallback, 8, 260);
    expect(found.refusal == 23 && found.place == 0 && found.start == 0, "a tag above 255 is in none");
    found = sill_setting((const uint8_t *)"\x04\0\0\x04", 4, fallback, 7, 4);
    expect(found.refusal == 22 && found.place == 3, "a repeated tag comes before its cut header, and before the default");
    found = sill_setting(own, 4, fallback, 7, 4);
    expect(found.refusal == 2 && found.place == 4, "the default is tested too");

    uint8_t out[16], grown[32];
    memset(out, 7, sizeof out);
    sill_rewritten_t again =
        sill_rewrite_settings((const uint8_t *)"\xC8\x01\0\x2A\x04\0\0", 7, own, 4, out, sizeof out);
    expect(again.refusal == 0 && again.written == 8, "rewritten");
    expect(memcmp(out, "\xC8\x01\0\x2A\x04\x01\0\x01\0\0\0\0\0\0\0\0", 16) == 0, "an unknown tag is kept, zeros follow");
    again = sill_rewrite_settings(fallback, 8, NULL, 0, out, 7);
    expect(again.refusal == 17 && again.place == 7 && memcmp(out, "\0\0\0\0\0\0\0", 7) == 0, "no room");
    again = sill_rewrite_settings(fallback, 8, NULL, 0, out, 8);
    expect(again.refusal == 0 && again.written == 8 && memcmp(out, fallback, 8) == 0, "no changes give the file back");

    sill_saved_t saved = sill_save_edition(NULL, 0, fallback, 8, out, sizeof out);
    expect(saved.refusal == 0 && saved.written == 12 && memcmp(out, "\x08\0\0\0", 4) == 0, "saved");
    saved = sill_save_edition(out, 12, (const uint8_t *)"\x01\x01\0\x34", 4, grown, sizeof grown);
    expect(saved.refusal == 0 && saved.written == 20, "a second edition");
    sill_edition_t edition = sill_edition(grown, 20, (const uint8_t *)"\x33", 1);
    expect(edition.refusal == 0 && edition.start == 4 && edition.size == 8, "the first edition is what it was");
    expect(memcmp(grown + 4, fallback, 8) == 0, "byte for byte");
    edition = sill_edition(grown, 20, (const uint8_t *)"\x35", 1);
    expect(edition.refusal == 23 && edition.place == 0, "no such edition");
    edition = sill_edition(grown, 19, (const uint8_t *)"\x33", 1);
    expect(edition.refusal == 2 && edition.place == 12, "a record past the end");
    saved = sill_save_edition(out, 12, fallback, 8, grown, sizeof grown);
    expect(saved.refusal == 23 && saved.place == 0 && grown[0] == 0, "already saved");
    saved = sill_save_edition(out, 12, own, 4, grown, sizeof grown);
    expect(saved.refusal == 23 && saved.place == 0, "a file without an edition");
}

/* A golden moved into fields and back, and refusals in document 02's order: two faults at a time, of which the first is told. */
static sill_moved_t move_golden(int to_fields, const void *golden, size_t length, uint8_t *out, size_t out_len)
{
    uint32_t nodes[256], entries[64], slots[8];
    memset(nodes, 7, sizeof nodes);
    sill_moved_t moved =
        to_fields ? sill_golden_to_fields((const uint8_t *)golden, length, nodes, LENGTH(nodes), entries, LENGTH(entries), slots,
                                          LENGTH(slots), SILL_MOST_NESTING, out, out_len)
                  : sill_golden_from_fields((const uint8_t *)golden, length, nodes, LENGTH(nodes), entries, LENGTH(entries), slots,
                                            LENGTH(slots), SILL_MOST_NESTING, out, out_len);
    expect(all_zero(nodes, LENGTH(nodes)) && all_zero(entries, LENGTH(entries)) && all_zero(slots, LENGTH(slots)),
           "the stores are zero after a move");
    return moved;
}

static void test_goldens(void)
{
    /* A code of nothing: five numbers, ten parts and the first line; then the expected result, none. */
    uint8_t plain[80] = {'c'}, fields[90], back[80];
    size_t at = 21;
    const char *parts[] = {"s\0\0\0\0", ")\0", ")\0", ")\0", "s\0\0\0\0", "z\0", "z\0", "z\0", "\1\0\0\0", "s\0\0\0\0", "s\0\0\0\0"};
    const size_t sizes[] = {5, 2, 2, 2, 5, 2, 2, 2, 4, 5, 5};
    for (size_t i = 0; i < LENGTH(parts); i++) {
        memcpy(plain + at, parts[i], sizes[i]);
        at += sizes[i];
    }
    plain[at] = 'N';
    size_t code = at, length = at + 1;
    sill_moved_t moved = move_golden(1, plain, length, fields, sizeof fields);
    expect(moved.refusal == 0 && moved.written == length + 10, "moved into fields");
    expect(memcmp(fields, "\1\1\0\1\2", 5) == 0 && fields[5] == code && fields[6] == 0, "the edition, then the code's header");
    expect(memcmp(fields + 7, plain, code) == 0 && memcmp(fields + 7 + code, "\3\1\0N\0", 5) == 0, "the values as they were");
    moved = move_golden(0, fields, length + 10, back, sizeof back);
    expect(moved.refusal == 0 && moved.written == length && memcmp(back, plain, length) == 0, "and back, byte for byte");
    moved = move_golden(0, fields, length + 10, back, length - 1);
    expect(moved.refusal == 17 && moved.place == length - 1 && back[0] == 0, "no room");

    moved = move_golden(1, "N", 1, back, sizeof back);
    expect(moved.refusal == 1 && moved.place == 1, "the second value is read before the first is found to be no code");
    moved = move_golden(1, "NNN", 3, back, sizeof back);
    expect(moved.refusal == 7 && moved.place == 0, "no code comes before trailing bytes");
    plain[length] = 'N';
    moved = move_golden(1, plain, length + 1, back, sizeof back);
    expect(moved.refusal == 25 && moved.place == length, "trailing bytes");
    fields[length + 10] = 4;
    fields[length + 11] = fields[length + 12] = 0;
    moved = move_golden(0, fields, length + 13, back, sizeof back);
    expect(moved.refusal == 23 && moved.place == 0, "one field more");
    fields[length + 10] = 2;
    moved = move_golden(0, fields, length + 13, back, sizeof back);
    expect(moved.refusal == 22 && moved.place == length + 10, "a repeated tag comes before");
    moved = move_golden(0, fields, length + 9, back, sizeof back);
    expect(moved.refusal == 2 && moved.place == 7 + code, "a cut field at its place");
    fields[3] = 2;
    moved = move_golden(0, fields, length + 10, back, sizeof back);
    expect(moved.refusal == 23 && moved.place == 0, "another edition");
    moved = move_golden(0, "\1\1\0\1\2\2\0NN\3\2\0NN", 14, back, sizeof back);
    expect(moved.refusal == 7 && moved.place == 7, "no code, at its header in the field");
}

/* Document 01's table for three instructions, then for one; then a table cut inside its second entry. */
static void test_salvage(void)
{
    uint8_t out[8];
    memset(out, 7, sizeof out);
    sill_salvaged_t salvaged = sill_salvage((const uint8_t *)"\xE9\x02", 2, 10, 3, out, 8);
    expect(salvaged.refusal == 0 && salvaged.written == 3 && salvaged.kept == 1 && salvaged.covered == 1, "one covered");
    expect(salvaged.dropped == 0 && salvaged.shortened == 0, "nothing dropped, nothing shortened");
    expect(memcmp(out, "\xE9\x02\xF8\0\0\0\0\0", 8) == 0, "the repaired table, and zeros follow");

    salvaged = sill_salvage((const uint8_t *)"\xE9\x02\xF8", 3, 10, 1, out, 8);
    expect(salvaged.written == 2 && salvaged.kept == 1 && salvaged.dropped == 1 && salvaged.shortened == 1, "shortened");
    expect(memcmp(out, "\xE8\x02\0\0\0\0\0\0", 8) == 0, "its first byte, for one instruction");

    salvaged = sill_salvage((const uint8_t *)"\xE9\x02\xD8\x04", 4, 10, 3, out, 8);
    expect(salvaged.written == 3 && salvaged.kept == 1 && salvaged.dropped == 2 && salvaged.covered == 1, "a cut entry");
    memset(out, 7, sizeof out);
    salvaged = sill_salvage((const uint8_t *)"\xE9\x02", 2, 10, 3, out, 2);
    expect(salvaged.refusal == 17 && salvaged.place == 2 && salvaged.kept == 0, "no room for the result");
    expect(memcmp(out, "\0\0\x07", 3) == 0, "and the two lent bytes are zero");
    salvaged = sill_salvage(NULL, 0, 1, 4294967295u, out, 8);
    expect(salvaged.refusal == 14 && salvaged.place == 0, "a result above 16 MiB");
}

static void test_lines(void)
{
    static const uint8_t input[] = "s\x02\0\0\0\xE9\x02";
    uint32_t nodes[7], records[13], flat[12];
    sill_location_t locations[3];
    sill_read_t read = sill_read(input, 7, nodes, 7, NULL, 0, NULL, 0, 1);
    sill_located_t located = sill_locate_node(input, 7, nodes, 7, read.nodes, 0, 10, 3, records, LENGTH(records));
    expect(located.refusal == 0 && located.from_entries == 2 && located.whole == 0, "two of three, and not whole");
    expect(records[0] == 11 && records[4] == 11 && records[8] == 10 && records[12] == 0, "11, 11 and then the first line");

    located = sill_locate(input + 5, 2, 10, 2, records, LENGTH(records));
    expect(located.refusal == 0 && located.whole == 1, "whole for two instructions");

    located = sill_locations(input + 5, 2, 10, 3, flat, LENGTH(flat), locations, LENGTH(locations));
    expect(located.refusal == 0 && locations[1].line == 11 && locations[2].line == 10, "the same as structs");

    located = sill_locate(input + 5, 2, 10, 4, records, LENGTH(records));
    expect(located.refusal == 17 && located.place == 3 && all_zero(records, LENGTH(records)), "no room for four");

    located = sill_locate_node(input, 7, nodes, 7, read.nodes, 1, 10, 3, records, LENGTH(records));
    expect(located.refusal == 16 && located.place == 1, "no such node");
}

/* ---- local names */

static void test_split(void)
{
    static const uint8_t kinds[] = {0x60, 0x20, 0x80};
    uint32_t locals[3], cells[3], frees[3], map[3], cell_args[3];
    sill_split_t split = sill_split(kinds, 3, 3, 1, 0, 0, locals, 3, cells, 3, frees, 3, map, 3, cell_args, 3);
    expect(split.refusal == 0 && split.locals == 2 && split.cells == 1 && split.frees == 1, "two, one and one");
    expect(split.present && cell_args[0] == 0, "the cell is the first argument");
    expect(map[0] == 0 && map[1] == NONE && map[2] == 1, "cell 0, neither, and the free name after the cells");
}

/* ---- the deepest nesting: tuples and code objects' constants, as deep as allowed, on the stack that the header names */

enum { DEEPEST = 2000, MOST_BYTES = 1 << 20, MOST_NODES = 1 << 14, STACK = 1 << 20 };

static uint8_t deep_input[MOST_BYTES], deep_output[2 * MOST_BYTES];
static uint32_t deep_nodes[7 * MOST_NODES], deep_entries[2 * MOST_NODES], deep_slots[1], deep_stack[5 * MOST_NODES];

static size_t deep_tuples(void)
{
    for (size_t level = 0; level + 1 < DEEPEST; level++) {
        memcpy(deep_input + 2 * level, ")\x01", 2);
    }
    deep_input[2 * (DEEPEST - 1)] = 'N';
    return 2 * (DEEPEST - 1) + 1;
}

/* A code object takes two levels and its tuple of constants one: 666 of them, and the innermost tuple is empty. */
static size_t deep_code(void)
{
    static const char front[] = "c\0\0\0\0\0\0\0\0\0\0\0\0\0\0\0\0\0\0\0\0s\0\0\0\0)\x01";
    static const char back[] = ")\0)\0s\0\0\0\0z\0z\0z\0\x01\0\0\0s\0\0\0\0s\0\0\0\0";
    size_t length = 0;
    for (int level = 0; level < 666; level++) {
        memcpy(deep_input + length, front, sizeof front - 1);
        length += sizeof front - 1;
    }
    deep_input[length - 1] = 0;
    for (int level = 0; level < 666; level++) {
        memcpy(deep_input + length, back, sizeof back - 1);
        length += sizeof back - 1;
    }
    return length;
}

static sill_read_t read_deep(size_t length, uint32_t nesting)
{
    return sill_read(deep_input, length, deep_nodes, LENGTH(deep_nodes), deep_entries, LENGTH(deep_entries), deep_slots,
                     LENGTH(deep_slots), nesting);
}

static void expect_deep(size_t length, const char *what)
{
    sill_read_t read = read_deep(length, DEEPEST);
    expect(read.refusal == 0 && read.consumed == length, what);
    sill_written_t written = sill_write(deep_input, length, deep_nodes, LENGTH(deep_nodes), deep_entries, LENGTH(deep_entries),
                                        read.nodes, read.entries, 0, DEEPEST, deep_output, LENGTH(deep_output));
    expect(written.refusal == 0 && written.written > length, "and written back");
    sill_kept_t kept = sill_keep(deep_nodes, LENGTH(deep_nodes), deep_entries, LENGTH(deep_entries), deep_slots, LENGTH(deep_slots),
                                 read.nodes, read.entries, 0, deep_stack, LENGTH(deep_stack));
    expect(kept.refusal == 0 && kept.nodes == read.nodes && kept.entries == read.entries, "and kept");
    sill_read_t more = sill_read_more(deep_input, length, deep_nodes, LENGTH(deep_nodes), deep_entries, LENGTH(deep_entries),
                                      deep_slots, LENGTH(deep_slots), DEEPEST, kept.nodes, kept.entries, 1);
    expect(more.refusal == 0 && more.nodes == 2 * read.nodes, "and read once more behind it");
}

static void *test_nesting(void *unused)
{
    size_t length = deep_tuples();
    expect(read_deep(length, DEEPEST - 1).refusal == 10, "no deeper than allowed");
    expect_deep(length, "tuples 2,000 deep");
    expect_deep(deep_code(), "code objects 2,000 deep");
    return unused;
}

static void test_small_stack(void)
{
    pthread_t thread;
    pthread_attr_t attributes;
    pthread_attr_init(&attributes);
    pthread_attr_setstacksize(&attributes, STACK);
    int begun = pthread_create(&thread, &attributes, test_nesting, NULL) == 0;
    expect(begun && pthread_join(thread, NULL) == 0, "a thread of 1 MiB");
    pthread_attr_destroy(&attributes);
}

int main(void)
{
    test_varints();
    test_sheets();
    test_leaves();
    test_spans();
    test_writing();
    test_keeping();
    test_exceptions();
    test_totals();
    test_lines();
    test_salvage();
    test_join();
    test_settings();
    test_goldens();
    test_sources();
    test_starts();
    test_pieces();
    test_split();
    test_small_stack();
    printf("%d passed, %d failed\n", passed, failed);
    return failed > 0;
}
