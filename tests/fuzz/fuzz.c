/* One input for libFuzzer, put to every exported function that takes bytes. Whatever is lent ends where a page begins that
 * nobody may touch, and is just as long as it is said to be. Held besides: a refusal leaves zeros alone, an acceptance nothing
 * past what it used; bytes appended change refusals 1 and 2 alone; what was read is written, and reads and is written as
 * before (a code out of name order may not); a node's line table is its bytes' line table; a node moved to the front is written
 * as before, and a value behind others is read as alone, raised. tools/fuzz builds and runs this. */
#include "../../include/sillgarland.h"
#include <stdint.h>
#include <stdio.h>
#include <stdlib.h>
#include <string.h>
#include <sys/mman.h>

#define NESTING 2000
#define NODE 7 /* numbers a node */
#define MOST 8192 /* bytes of input; stores have room for as many records */

static void hold(int held, const char *what) {
    if (!held) {
        fprintf(stderr, "fuzz: %s\n", what);
        abort();
    }
}

/* Memory whose end is the start of a page that faults. */
typedef struct {
    uint8_t *end;
} arena;

static arena arena_of(size_t bytes) {
    size_t page = 65536, whole = (bytes + page - 1) / page * page;
    uint8_t *at = mmap(NULL, whole + 2 * page, PROT_NONE, MAP_PRIVATE | MAP_ANONYMOUS, -1, 0);
    hold(at != MAP_FAILED && mprotect(at + page, whole, PROT_READ | PROT_WRITE) == 0, "no memory");
    return (arena){at + page + whole};
}

static uint8_t *lend_bytes(arena *from, const uint8_t *bytes, size_t len) {
    uint8_t *to = from->end - len;
    if (bytes) memcpy(to, bytes, len);
    else memset(to, 0xA5, len);
    return to;
}

static uint32_t *lend_words(arena *from, size_t len) { return (uint32_t *)lend_bytes(from, NULL, 4 * len); }

static int all_zero(const void *from, size_t bytes) {
    const uint8_t *at = from;
    for (size_t i = 0; i < bytes; i++)
        if (at[i]) return 0;
    return 1;
}

static arena inputs, nodes_a, entries_a, slots_a, outs, outs2, records_a, stack_a, lists[5];

typedef struct {
    sill_read_t answer;
    const uint8_t *input;
    size_t len, room[3];
    uint32_t *nodes, *entries, *slots;
} reading;

static reading read_with(const uint8_t *data, size_t len, const size_t room[3], uint32_t nesting) {
    reading r = {.len = len, .room = {room[0], room[1], room[2]}};
    r.input = lend_bytes(&inputs, data, len);
    r.nodes = lend_words(&nodes_a, room[0]);
    r.entries = lend_words(&entries_a, room[1]);
    r.slots = lend_words(&slots_a, room[2]);
    r.answer = sill_read(r.input, len, r.nodes, room[0], r.entries, room[1], r.slots, room[2], nesting);
    size_t used[3] = {NODE * (size_t)r.answer.nodes, 2 * (size_t)r.answer.entries, r.answer.slots};
    for (int i = 0; i < 3; i++) {
        uint32_t *store = i == 0 ? r.nodes : i == 1 ? r.entries : r.slots;
        hold(used[i] <= room[i], "more is used than is lent");
        hold(all_zero(store + used[i], 4 * (room[i] - used[i])), "a store is not zero past what is used");
    }
    hold(!r.answer.refusal || all_zero(used, sizeof used), "a refusal has counts");
    hold(r.answer.refusal ? r.answer.consumed == 0 && r.answer.place <= len : r.answer.consumed <= len, "beyond the input");
    return r;
}

static void hold_lines(const uint8_t *table, size_t len, int32_t first, uint32_t count, const sill_located_t *same) {
    const uint8_t *at = lend_bytes(&outs2, table, len);
    uint32_t *records = lend_words(&records_a, 4 * (size_t)count);
    sill_located_t l = sill_locate(at, len, first, count, records, 4 * (size_t)count);
    hold(!same || !memcmp(&l, same, sizeof l), "by node a line table is another");
    hold(!l.refusal || (!l.from_entries && !l.whole && all_zero(records, 16 * (size_t)count)), "a refused line table");
    hold(l.from_entries <= count && l.whole <= 1 && (!l.whole || l.from_entries == count), "instructions from entries");
}

/* Beside the records: refused alike; bytes of 1 or more exactly below from_entries; a 1 that was not stored is told. */
static void hold_sources(const uint8_t *table, size_t len, int32_t first, uint32_t count) {
    const uint8_t *at = lend_bytes(&inputs, table, len);
    uint32_t *records = lend_words(&records_a, 4 * (size_t)count);
    sill_located_t l = sill_locate(at, len, first, count, records, 4 * (size_t)count);
    uint8_t *bytes = lend_bytes(&outs, NULL, count);
    sill_sourced_t s = sill_sources(at, len, first, count, bytes, count);
    hold(s.refusal == l.refusal && s.place == l.place && s.from_entries == l.from_entries, "sources beside records");
    for (uint32_t i = 0; i < count && !s.refusal; i++) {
        hold((bytes[i] & 1) == (i < l.from_entries) && (bytes[i] & 1 || !bytes[i]), "from an entry or not");
        hold(!(l.whole && bytes[i] & 32), "a byte is missing in a whole table");
        hold((bytes[i] & 19) != 3 || records[4 * i] == 1 || records[4 * i + 2] == 1, "a line below 1 that is not shown as 1");
    }
}

/* A table in pieces of the lengths that its own bytes say: the end as of the joined table; then the bytes as a state. */
static void hold_pieces(const uint8_t *table, size_t len, int32_t first, uint32_t count) {
    static uint32_t state[SILL_STATE_NUMBERS];
    size_t words = 4 * (size_t)count;
    uint32_t *joined = lend_words(&records_a, words), *records = lend_words(&entries_a, words);
    sill_located_t whole = sill_locate(table, len, first, count, joined, words);
    hold(!sill_locate_begin(first, count, state, SILL_STATE_NUMBERS, records, words).refusal, "a beginning");
    for (size_t at = 0; at < len;) {
        size_t next = at + table[at] % 5;
        if (next == at) sill_locate_piece(table, 0, state, SILL_STATE_NUMBERS, records, words), next++;
        if (next > len) next = len;
        sill_located_t told = sill_locate_piece(table + at, next - at, state, SILL_STATE_NUMBERS, records, words);
        hold(!told.refusal || told.refusal == whole.refusal, "a piece refuses what the table does");
        at = next;
    }
    sill_located_t told = sill_locate_end(state, SILL_STATE_NUMBERS, records, words);
    hold(!memcmp(&told, &whole, sizeof told) && !memcmp(records, joined, 4 * words), "by piece as joined");
    memset(state, 0, sizeof state);
    memcpy(state, table, len < sizeof state ? len : sizeof state);
    told = sill_locate_piece(table, len, state, SILL_STATE_NUMBERS, records, words);
    sill_located_t again = sill_locate_piece(table, 0, state, SILL_STATE_NUMBERS, records, words);
    hold(!told.refusal || (again.refusal == told.refusal && again.place == told.place), "a refusal of any state stays");
}

/* An index of the records' lines: each answer beside a count of its own; then the input's bytes as an index. */
static void hold_starts(const uint8_t *data, size_t len, uint32_t count) {
    static uint64_t index[18], any[18];
    uint32_t *records = lend_words(&records_a, 4 * (size_t)count);
    for (uint32_t i = 0; i < 4 * count; i++) records[i] = len ? data[(i / 4) % len] & 3 : 0;
    sill_indexed_t built = sill_index_starts(records, 4 * (size_t)count, count, index, 18);
    uint32_t starts = 0;
    for (uint32_t i = 0; i <= count; i++) {
        hold(sill_starts_before(index, 18, count, i).value == starts, "starts before an instruction");
        if (i == count || (i && records[4 * i] == records[4 * i - 4])) continue;
        starts++;
        sill_start_t at = sill_start_at(index, 18, count, starts);
        hold(!at.refusal && at.value == i, "where a start is");
    }
    hold(!built.refusal && built.starts == starts, "how many starts");
    hold(sill_starts_before(index, 18, count, count + 1).refusal == SILL_NO_SUCH_START, "beyond the count");
    hold(sill_start_at(index, 18, count, starts + 1).refusal == SILL_NO_SUCH_START, "beyond the starts");
    memset(any, 0, sizeof any);
    memcpy(any, data, len < sizeof any ? len : sizeof any);
    for (uint32_t k = 0; k < 40; k++) {
        sill_start_t at = sill_start_at(any, 18, count, k);
        hold(at.refusal ? at.refusal == SILL_NO_SUCH_START && !at.value : at.value < count, "a start of any words");
        hold(!sill_starts_before(any, 18, count, k % (count + 1)).refusal, "starts before, of any words");
    }
}

/* A repaired table is whole, and a second repair changes nothing. */
static void hold_salvage(const uint8_t *table, size_t len, int32_t first, uint32_t count) {
    const uint8_t *at = lend_bytes(&inputs, table, len);
    size_t room = len + count / 8 + 1;
    uint8_t *out = lend_bytes(&outs, NULL, room);
    sill_salvaged_t s = sill_salvage(at, len, first, count, out, room);
    hold(!s.refusal && s.written <= room && all_zero(out + s.written, room - s.written), "a repair");
    hold(s.dropped <= len && s.covered <= count && s.shortened <= 1, "a repair's list");
    uint8_t *again = lend_bytes(&outs2, NULL, s.written);
    sill_salvaged_t t = sill_salvage(out, s.written, first, count, again, s.written);
    hold(t.written == s.written && !t.dropped && !t.shortened && !t.covered, "a second repair");
    hold(!memcmp(out, again, s.written), "a second repair changes a table");
    uint32_t *records = lend_words(&records_a, 4 * (size_t)count);
    sill_located_t l = sill_locate(again, s.written, first, count, records, 4 * (size_t)count);
    hold(!l.refusal && l.whole && l.from_entries == count, "a repaired table is not whole");
}

/* The halves as they are: joined exactly if both are whole from lines that meet. */
static void hold_halves(const uint8_t *table, size_t len, int32_t first, uint32_t count) {
    size_t half = len / 2, rest = len - half;
    const uint8_t *a = lend_bytes(&inputs, table, half), *b = lend_bytes(&outs2, table + half, rest);
    uint32_t *records = lend_words(&records_a, 4 * (size_t)count);
    sill_located_t l = sill_locate(a, half, first, count, records, 4 * (size_t)count);
    sill_line_t left = sill_line_after(a, half, first, count), last = sill_line_after(b, rest, left.line, count);
    hold(left.refusal == l.refusal && left.place == l.place && left.whole == l.whole, "a line beside records");
    uint8_t *out = lend_bytes(&outs, NULL, len);
    sill_joined_t j = sill_join(a, half, first, count, b, rest, left.line, count, out, len);
    hold(j.refusal == (left.whole && last.whole ? 0 : 24) && !j.place, "joined exactly if both are whole");
    hold(j.refusal ? all_zero(out, len) && !j.line : !memcmp(out, table, len) && j.line == last.line, "both halves, or zeros");
}

/* The halves repaired, so that they are whole: joined, with the locations of both; by one line missed they are not. */
static void hold_join(const uint8_t *table, size_t len, int32_t first, uint32_t count) {
    size_t half = len / 2, room = len + count / 8 + 1;
    uint8_t *mended = lend_bytes(&outs, NULL, room);
    uint32_t before = sill_salvage(table, half, first, count, mended, room).written;
    const uint8_t *a = lend_bytes(&outs2, mended, before);
    int32_t line = sill_line_after(a, before, first, count).line;
    uint32_t behind = sill_salvage(table + half, len - half, line, count, mended, room).written;
    const uint8_t *b = lend_bytes(&nodes_a, mended, behind);
    size_t both = (size_t)before + behind;
    uint8_t *out = lend_bytes(&outs, NULL, both);
    sill_joined_t j = sill_join(a, before, first, count, b, behind, line, count, out, both);
    hold(!j.refusal && j.written == both && j.count == 2 * count, "whole tables are not joined");
    hold(!memcmp(out, a, before) && !memcmp(out + before, b, behind), "the bytes of both");
    hold(j.line == sill_line_after(out, both, first, 2 * count).line, "the line of both");
    uint32_t *records = lend_words(&records_a, 8 * (size_t)count), *former = lend_words(&entries_a, 4 * (size_t)count);
    sill_located_t l = sill_locate(out, both, first, 2 * count, records, 8 * (size_t)count);
    hold(l.whole && l.from_entries == 2 * count, "a joined table is not whole");
    sill_locate(a, before, first, count, former, 4 * (size_t)count);
    hold(!memcmp(records, former, 16 * (size_t)count), "the locations of the first");
    sill_locate(b, behind, line, count, former, 4 * (size_t)count);
    hold(!memcmp(records + 4 * (size_t)count, former, 16 * (size_t)count), "the locations of the second");
    j = sill_join(a, before, first, count, b, behind, (int32_t)((uint32_t)line + 1), count, out, both);
    hold(j.refusal == 24 && !j.place && !j.written && all_zero(out, both), "lines that do not meet");
}

/* The halves as override and default; as file and changes; and the input as an archive, and as a file that is saved. */
static void hold_settings(const uint8_t *data, size_t len) {
    size_t half = len / 2, rest = len - half;
    const uint8_t *own = lend_bytes(&inputs, data, half), *fallback = lend_bytes(&outs2, data + half, rest);
    uint32_t tag = len ? data[0] : 0;
    sill_setting_t f = sill_setting(own, half, fallback, rest, tag);
    hold(f.refusal ? !f.file && !f.start && !f.size : (size_t)f.start + f.size <= (f.file ? rest : half), "a part of a file");
    hold(f.refusal || (f.file ? fallback : own)[f.start - 3] == tag, "another tag");
    uint8_t *out = lend_bytes(&outs, NULL, len);
    sill_rewritten_t w = sill_rewrite_settings(own, half, fallback, rest, out, len);
    hold(w.written <= len && all_zero(out + w.written, len - w.written), "a rewriting is not zero past what was written");
    hold(w.refusal == (f.refusal == 23 ? 0 : f.refusal), "the same two files are refused otherwise");
    if (!w.refusal) {
        const uint8_t *kept = lend_bytes(&nodes_a, out, w.written);
        sill_setting_t g = sill_setting(kept, w.written, NULL, 0, tag), c = sill_setting(fallback, rest, own, half, tag);
        hold(g.refusal == c.refusal && g.size == c.size, "a rewritten file says something else");
        hold(g.refusal || !memcmp(kept + g.start, (c.file ? own : fallback) + c.start, g.size), "in other bytes");
        out = lend_bytes(&outs, NULL, w.written);
        sill_rewritten_t same = sill_rewrite_settings(kept, w.written, NULL, 0, out, w.written);
        hold(!same.refusal && same.written == w.written && !memcmp(out, kept, w.written), "no changes change it");
    }
    sill_edition_t e = sill_edition(own, half, fallback, rest);
    hold(e.refusal ? !e.start && !e.size : (size_t)e.start + e.size <= half, "a part of an archive");
    out = lend_bytes(&outs, NULL, len + 4);
    sill_saved_t s = sill_save_edition(own, half, fallback, rest, out, len + 4);
    hold(s.refusal ? all_zero(out, len + 4) && !s.written : s.written == len + 4 && !memcmp(out, own, half), "a save");
    s = sill_save_edition(NULL, 0, fallback, rest, out, len + 4);
    if (s.refusal) return;
    const uint8_t *archive = lend_bytes(&inputs, out, s.written);
    f = sill_setting(fallback, rest, NULL, 0, 1);
    e = sill_edition(archive, s.written, fallback + f.start, f.size);
    hold(!e.refusal && e.start == 4 && e.size == rest, "what was saved is not there");
    s = sill_save_edition(archive, s.written, fallback, rest, out, len + 4);
    hold(s.refusal == 23 && !s.place, "an edition is saved twice");
}

/* A move of the input, as either form; what it accepts, the other move gives back. The stores are zero whatever it answers. */
static sill_moved_t moved(int to_fields, const uint8_t *golden, size_t len, const size_t room[3], uint8_t *out, size_t out_len) {
    uint32_t *nodes = lend_words(&nodes_a, room[0]), *entries = lend_words(&entries_a, room[1]), *slots = lend_words(&slots_a, room[2]);
    sill_moved_t m =
        to_fields ? sill_golden_to_fields(golden, len, nodes, room[0], entries, room[1], slots, room[2], NESTING, out, out_len)
                  : sill_golden_from_fields(golden, len, nodes, room[0], entries, room[1], slots, room[2], NESTING, out, out_len);
    hold(all_zero(nodes, 4 * room[0]) && all_zero(entries, 4 * room[1]) && all_zero(slots, 4 * room[2]), "working room is left");
    hold(m.written <= out_len && all_zero(out + m.written, out_len - m.written), "a move is not zero past what was written");
    hold(!m.refusal || (!m.written && (m.refusal == 17 || m.place <= len)), "a refused move");
    return m;
}

static void hold_moves(const uint8_t *data, size_t len) {
    const size_t room[3] = {8 * len, 2 * len, len};
    for (int to_fields = 0; to_fields < 2; to_fields++) {
        const uint8_t *golden = lend_bytes(&inputs, data, len);
        uint8_t *out = lend_bytes(&outs, NULL, len + 10);
        sill_moved_t m = moved(to_fields, golden, len, room, out, len + 10);
        hold(m.refusal != 17, "there was room");
        if (m.refusal) continue;
        hold(to_fields ? m.written == len + 10 : m.written + 10 == len, "a golden in fields is ten bytes longer");
        const uint8_t *other = lend_bytes(&outs2, out, m.written);
        out = lend_bytes(&outs, NULL, len);
        sill_moved_t b = moved(!to_fields, other, m.written, room, out, len);
        hold(!b.refusal && b.written == len && !memcmp(out, data, len), "a golden does not come back");
        out = lend_bytes(&outs, NULL, len - 1);
        b = moved(!to_fields, other, m.written, room, out, len - 1);
        hold(b.refusal == 17 && b.place == len - 1, "one byte short");
    }
}

/* Entries that are read are written in no more bytes, and these read as the same entries; one entry or one byte short is 17. */
static void hold_exceptions(const uint8_t *table, size_t len) {
    const uint8_t *at = lend_bytes(&inputs, table, len);
    size_t room = 5 * (len / 4) + len % 5;
    uint32_t *entries = lend_words(&nodes_a, room), *again = lend_words(&records_a, room);
    sill_exceptions_t e = sill_read_exceptions(at, len, entries, room);
    hold(!e.refusal || (!e.count && e.place <= len), "a refused exception table");
    hold(5 * (size_t)e.count <= room && all_zero(entries + 5 * e.count, 4 * (room - 5 * e.count)), "entries past those read");
    if (e.refusal || !e.count) return;
    uint8_t *out = lend_bytes(&outs, NULL, len);
    sill_written_t w = sill_write_exceptions(entries, 5 * (size_t)e.count, out, len);
    hold(!w.refusal && w.written <= len && all_zero(out + w.written, len - w.written), "entries are written longer");
    sill_exceptions_t same = sill_read_exceptions(out, w.written, again, room);
    hold(!memcmp(&same, &e, sizeof e) && !memcmp(entries, again, 4 * room), "written entries read otherwise");
    uint32_t *fewer = lend_words(&records_a, 5 * (size_t)e.count - 1);
    sill_exceptions_t full = sill_read_exceptions(at, len, fewer, 5 * (size_t)e.count - 1);
    hold(full.refusal == 17 && full.place == e.count - 1, "one entry short is not 17");
    uint8_t *shorter = lend_bytes(&outs2, NULL, w.written - 1);
    sill_written_t cut = sill_write_exceptions(entries, 5 * (size_t)e.count, shorter, w.written - 1);
    hold(cut.refusal == 17 && cut.place == w.written - 1 && all_zero(shorter, w.written - 1), "one byte short is not 17");
}

/* Entries that no reading made: the input's own bytes, of which some are numbers that no table has. */
static void hostile_exceptions(const uint8_t *data, size_t len) {
    size_t words = len / 4;
    uint32_t *entries = lend_words(&nodes_a, words);
    memcpy(entries, data, 4 * words);
    for (size_t i = 4; i < words; i += 5) entries[i] %= 3;
    uint8_t *out = lend_bytes(&outs, NULL, 24 * (words / 5));
    sill_written_t w = sill_write_exceptions(entries, words, out, 24 * (words / 5));
    int in_range = 1;
    for (size_t i = 0; i + 5 <= words; i += 5) in_range &= entries[i + 3] < 0x80000000u && entries[i + 4] < 2;
    hold(in_range ? !w.refusal : w.refusal == 18 && !w.place && !w.written, "numbers that no exception table has");
    hold(all_zero(out + w.written, 24 * (words / 5) - w.written), "a table past what was written");
}

/* Any totals and answers: the counts of two halves add up to the count of all, or some refusal is 18; and the lines stand in no less
   room than they take. */
static void hold_totals(const uint8_t *data, size_t len) {
    uint64_t before[29] = {0}, one[29], other[29], all[29], sum[29];
    memcpy(before, data, len < sizeof before ? len : sizeof before);
    size_t words = len / 4;
    uint32_t *answers = lend_words(&nodes_a, words);
    memcpy(answers, data, 4 * words);
    for (size_t i = 0; i < words; i++) answers[i] %= len % 5 ? 27 : 28;
    sill_totalled_t a = sill_totals(before, 29, answers, words / 2, one, 29);
    sill_totalled_t b = sill_totals(NULL, 0, answers + words / 2, words - words / 2, other, 29);
    sill_totalled_t both = sill_totals(before, 29, answers, words, all, 29);
    sill_totalled_t added = sill_add_totals(one, 29, other, 29, sum, 29);
    if (a.refusal || b.refusal) hold(both.refusal == 18 && !both.place, "a part is refused and the whole is not");
    else hold(both.refusal == added.refusal && !memcmp(all, sum, sizeof sum), "parts do not add up");
    hold(!both.refusal || all_zero(all, sizeof all), "refused totals are not zero");
    uint8_t text[1000], cut[1000];
    sill_written_t w = sill_print_totals(before, 29, text, sizeof text);
    hold(!w.refusal && text[w.written - 1] == '\n' && all_zero(text + w.written, sizeof text - w.written), "totals are not printed");
    sill_written_t c = sill_print_totals(before, 29, cut, w.written - 1);
    hold(c.refusal == 17 && c.place == w.written - 1 && all_zero(cut, w.written - 1), "totals one byte short are not 17");
}

/* The bytes of a node lie within what was read, hold what it names itself, and the root's are all of it. */
static void hold_span(const reading *r, uint32_t n) {
    sill_read_t a = r->answer;
    sill_span_t span = sill_span(r->input, r->len, r->nodes, r->room[0], r->entries, r->room[1], a.nodes, a.entries, n);
    if (n == a.nodes) {
        hold(span.refusal == 16 && span.place == n, "a span of no node");
        return;
    }
    hold(!span.refusal && span.start < span.end && span.end == r->nodes[NODE * n + 5] && span.end <= a.consumed, "a span");
    hold((r->input[span.start] & 0x7F) == r->nodes[NODE * n] && span.slots_before <= a.slots, "a span's header");
    hold(n || (span.start == 0 && span.end == a.consumed && span.closed && !span.slots_before), "the root's span");
}

/* The leaf of each node, the line table of each node of bytes, on stores that a reading made. */
static void ask_nodes(const reading *r) {
    uint32_t used = r->answer.nodes, most = used < 64 ? used : 64;
    for (uint32_t n = 0; n <= most; n++) {
        sill_leaf_t leaf = sill_leaf(r->input, r->len, r->nodes, r->room[0], used, n);
        hold((leaf.refusal != 0) == (n == used), "a leaf");
        hold_span(r, n);
        if (n == used || r->nodes[NODE * n] != 's') continue;
        uint32_t count = r->nodes[NODE * n + 2] % 64;
        uint32_t *records = lend_words(&records_a, 4 * (size_t)count);
        sill_located_t l =
            sill_locate_node(r->input, r->len, r->nodes, r->room[0], used, n, 7, count, records, 4 * (size_t)count);
        hold_lines(r->input + r->nodes[NODE * n + 1], r->nodes[NODE * n + 2], 7, count, &l);
    }
}

static sill_written_t write_into(const reading *r, uint32_t root, uint32_t nesting, arena *to, size_t room, uint8_t **out) {
    *out = lend_bytes(to, NULL, room);
    sill_written_t w = sill_write(r->input, r->len, r->nodes, r->room[0], r->entries, r->room[1], r->answer.nodes,
                                       r->answer.entries, root, nesting, *out, room);
    hold(w.written <= room && all_zero(*out + w.written, room - w.written), "an output is not zero past what was written");
    hold(!w.refusal || !w.written, "a refused writing has bytes");
    return w;
}

/* The move of a node: refused, all stays; accepted, the counts fit, the rest is zero, and a second move changes nothing. The stack is just
 * long enough, and zero afterwards; one number shorter it is refused first. The stores that come back are a reading's as before. */
static reading keep_of(const reading *r, uint32_t n) {
    static uint32_t before[(NODE + 2) * MOST];
    sill_read_t a = r->answer;
    size_t need = sill_keep_need(a.nodes, a.entries), nodes = r->room[0], entries = r->room[1];
    hold(nodes + entries <= sizeof before / 4, "room to remember the stores");
    memcpy(before, r->nodes, 4 * nodes);
    memcpy(before + nodes, r->entries, 4 * entries);
    if (need) {
        uint32_t *less = lend_words(&stack_a, need - 1);
        sill_kept_t s = sill_keep(r->nodes, nodes, r->entries, entries, r->slots, r->room[2], a.nodes, a.entries, n, less, need - 1);
        hold(s.refusal == 17 && s.place == need - 1 && all_zero(less, 4 * (need - 1)), "a stack one number short");
    }
    uint32_t *stack = lend_words(&stack_a, need);
    sill_kept_t k = sill_keep(r->nodes, nodes, r->entries, entries, r->slots, r->room[2], a.nodes, a.entries, n, stack, need);
    hold(all_zero(stack, 4 * need), "the stack is not zero after a move");
    reading kept = *r;
    kept.answer.nodes = k.nodes, kept.answer.entries = k.entries, kept.answer.refusal = k.refusal;
    if (k.refusal) {
        hold(k.refusal == 16 && !k.nodes && !k.entries && !k.free_nodes && !k.free_entries, "a refused move");
        hold(!memcmp(before, r->nodes, 4 * nodes) && !memcmp(before + nodes, r->entries, 4 * entries), "a refused move changes a store");
        return kept;
    }
    hold(k.nodes && k.nodes <= a.nodes && k.entries <= a.entries, "more is kept than was used");
    hold(k.nodes + k.free_nodes == nodes / NODE && k.entries + k.free_entries == entries / 2, "the room freed");
    hold(all_zero(r->nodes + NODE * k.nodes, 4 * (nodes - NODE * k.nodes)), "nodes behind what is kept");
    hold(all_zero(r->entries + 2 * k.entries, 4 * (entries - 2 * k.entries)) && all_zero(r->slots, 4 * r->room[2]), "entries and slots");
    for (uint32_t m = 0; m < k.nodes; m++) hold(r->nodes[NODE * m + 4] || r->nodes[NODE * m + 3] == SILL_NOTHING, "a first entry of none");
    memcpy(before, r->nodes, 4 * nodes);
    memcpy(before + nodes, r->entries, 4 * entries);
    sill_kept_t again = sill_keep(r->nodes, nodes, r->entries, entries, r->slots, r->room[2], k.nodes, k.entries, 0, stack, need);
    hold(!memcmp(&k, &again, sizeof k) && !memcmp(before, r->nodes, 4 * nodes) && !memcmp(before + nodes, r->entries, 4 * entries),
         "a second move changes something");
    return kept;
}

/* Read behind so many records that no reading made: the same answer, kept plus new, each number raised; what is kept stays. */
static void hold_behind(const uint8_t *data, size_t len, sill_read_t plain) {
    static uint32_t alone[(NODE + 3) * MOST];
    size_t room[3] = {NODE * len + 3, 2 * len + 1, len};
    reading r = read_with(data, len, room, NESTING);
    memcpy(alone, r.nodes, 4 * room[0]);
    memcpy(alone + room[0], r.entries, 4 * room[1]);
    size_t n = len % 5, e = len % 7, nodes = room[0] + NODE * n, entries = room[1] + 2 * e;
    uint32_t *to = lend_words(&nodes_a, nodes), *links = lend_words(&entries_a, entries), *slots = lend_words(&slots_a, len);
    uint32_t number = 0xA5A5A5A5;
    sill_read_t more = sill_read_more(r.input, len, to, nodes, links, entries, slots, len, NESTING, n, e, number);
    for (size_t i = 0; i < NODE * n; i++) hold(to[i] == number, "a kept node is changed");
    for (size_t i = 0; i < 2 * e; i++) hold(links[i] == number, "a kept entry is changed");
    if (plain.refusal) {
        hold(!memcmp(&plain, &more, sizeof more), "behind others it is refused otherwise");
        hold(all_zero(to + NODE * n, 4 * room[0]) && all_zero(links + 2 * e, 4 * room[1]) && all_zero(slots, 4 * len), "zeros behind");
        return;
    }
    plain.nodes += n, plain.entries += e;
    hold(!memcmp(&plain, &more, sizeof more), "behind others the counts are other");
    to += NODE * n, links += 2 * e;
    for (size_t i = 0; i < room[0]; i++) {
        int first = i % NODE == 3 && alone[i] != SILL_NOTHING && i / NODE < plain.nodes - n, input = i % NODE == 6 && i / NODE < plain.nodes - n;
        hold(to[i] == (input ? number : first ? alone[i] + e : alone[i]), "a node is not the plain reading's, raised");
    }
    for (size_t i = 0; i < room[1]; i++) {
        uint32_t was = alone[room[0] + i], by = i / 2 >= plain.entries - e || was == SILL_NOTHING ? 0 : i % 2 ? e : n;
        hold(links[i] == was + by, "an entry is not the plain reading's, raised");
    }
}

/* What was read is written; what was written reads, and is written as before. Code out of name order may not read. */
static void write_back(const reading *r) {
    static uint8_t kept[64 * MOST];
    uint8_t *out;
    size_t ample = 16 * r->len + 64;
    sill_written_t w = write_into(r, 0, NESTING, &outs, ample, &out);
    hold(!w.refusal || w.refusal == 10 || w.refusal == 17, "what was read is not written");
    if (w.refusal) return;
    memcpy(kept, out, w.written);
    sill_written_t tight = write_into(r, 0, NESTING, &outs, w.written, &out);
    hold(!tight.refusal && !memcmp(kept, out, w.written), "in just enough room it is written otherwise");
    sill_written_t short_of = write_into(r, 0, NESTING, &outs, w.written - 1, &out);
    hold(short_of.refusal == 17 && short_of.place == w.written - 1, "one byte short is not 17");
    if (w.written > MOST) return;
    size_t room[3] = {NODE * (size_t)w.written, 2 * (size_t)w.written, w.written};
    reading again = read_with(kept, w.written, room, NESTING);
    hold(!again.answer.refusal || again.answer.refusal == 8, "what was written does not read");
    if (again.answer.refusal) return;
    hold(again.answer.consumed == w.written && again.answer.slots == 0, "what was written reads otherwise");
    sill_written_t same = write_into(&again, 0, NESTING, &outs, ample, &out);
    int has_code = 0;
    for (uint32_t n = 0; n < again.answer.nodes; n++) has_code |= again.nodes[NODE * n] == 'c';
    hold(!same.refusal && (has_code || !memcmp(kept, out, w.written)), "what was written is written otherwise the second time");
}

/* Nodes of a reading, each moved to the front: what it is written as stays. */
static void keep_parts(const uint8_t *data, size_t len, const size_t ample[3]) {
    static uint8_t was[16 * MOST + 64];
    size_t room = 16 * len + 64;
    uint8_t *out;
    uint32_t nodes = 1;
    for (uint32_t n = 0; n < nodes; n += 1 + nodes / 8) {
        reading r = read_with(data, len, ample, NESTING);
        nodes = r.answer.nodes;
        sill_written_t w = write_into(&r, n, NESTING, &outs, room, &out);
        memcpy(was, out, w.written);
        reading kept = keep_of(&r, n);
        hold(!kept.answer.refusal, "what was read is not moved");
        sill_written_t again = write_into(&kept, 0, NESTING, &outs, room, &out);
        hold(again.refusal == w.refusal && again.written == w.written && !memcmp(was, out, w.written), "what was moved is written otherwise");
    }
}

/* Stores that no reading made: the input's own bytes. */
static void hostile(const uint8_t *data, size_t len) {
    size_t words = len / 4, nodes = words / 2 / NODE * NODE, entries = (words - nodes) / 2 * 2;
    reading r = {.input = lend_bytes(&inputs, data, len), .len = len, .room = {nodes, entries, 0}};
    r.nodes = lend_words(&nodes_a, nodes);
    r.entries = lend_words(&entries_a, entries);
    for (size_t i = 0; i < nodes; i++) r.nodes[i] = i % NODE ? data[4 * i] : data[4 * i] & 0x7F;
    for (size_t i = 0; i < entries; i++) r.entries[i] = data[4 * (nodes + i)] % 8;
    r.answer.nodes = nodes / NODE;
    r.answer.entries = entries / 2;
    for (uint32_t n = 0; n <= r.answer.nodes && n < 16; n++) {
        uint8_t *out;
        sill_leaf(r.input, len, r.nodes, nodes, r.answer.nodes, n);
        sill_span_t span = sill_span(r.input, len, r.nodes, nodes, r.entries, entries, r.answer.nodes, r.answer.entries, n);
        hold(span.refusal ? span.refusal == 16 : span.start < span.end && span.end <= len, "a span of any stores");
        write_into(&r, n, 12, &outs, 512, &out);
        if (n % 4 == 3) keep_of(&r, n);
    }
}

static void others(const uint8_t *data, size_t len) {
    uint32_t first, sum = 0;
    for (size_t i = 0; i < len; i++) sum = sum * 31 + data[i];
    memcpy(&first, len >= 4 ? data : (const uint8_t *)"\1\0\0\0", 4);
    hold_lines(data, len, sum % 2 ? (int32_t)first : 1, sum % 300, NULL);
    hold_sources(data, len, sum % 2 ? (int32_t)first : 1, sum % 300);
    hold_salvage(data, len, sum % 2 ? (int32_t)first : 1, sum % 300);
    hold_halves(data, len, sum % 2 ? (int32_t)first : 1, sum % 300);
    hold_join(data, len, sum % 2 ? (int32_t)first : 1, sum % 300);
    hold_starts(data, len, sum % 1000);
    hold_settings(data, len);
    hold_moves(data, len);
    hold_pieces(data, len, sum % 2 ? (int32_t)first : 1, sum % 300);
    hold_exceptions(data, len);
    hostile_exceptions(data, len);
    hold_totals(data, len);
    uint32_t *list[5];
    size_t names = len < 512 ? len : 512;
    for (int i = 0; i < 5; i++) list[i] = lend_words(&lists[i], names - (names && sum % 7 == (uint32_t)i));
    const uint8_t *kinds = lend_bytes(&inputs, data, names);
    size_t room[5];
    for (int i = 0; i < 5; i++) room[i] = names - (names && sum % 7 == (uint32_t)i);
    sill_split(kinds, names, names, sum % 5 ? sum % 9 : first, sum % 3, sum, list[0], room[0], list[1], room[1], list[2], room[2],
               list[3], room[3], list[4], room[4]);
    const uint8_t *bytes = lend_bytes(&inputs, data, len);
    for (size_t at = 0; at <= len && at < 16; at++) {
        sill_found_t found = sill_read_varint(bytes, len, at), marked = sill_read_varint_with_start(bytes, len, at);
        hold(found.next <= len && (!marked.found || !memcmp(&found, &marked, sizeof found)), "a varint");
        hold(found.found ? !found.refusal && found.next > at : found.next == at && found.place == (found.refusal ? at : 0),
             "one of none, found and refused");
    }
}

static int same_answer(sill_read_t answer, reading r) { return !memcmp(&answer, &r.answer, sizeof answer); }

int LLVMFuzzerTestOneInput(const uint8_t *data, size_t len) {
    static int made;
    static uint8_t longer[MOST + 8];
    if (!made++) {
        inputs = arena_of(64 * MOST), nodes_a = arena_of(32 * MOST), entries_a = arena_of(9 * MOST), slots_a = arena_of(4 * MOST);
        outs = arena_of(64 * MOST), outs2 = arena_of(64 * MOST), records_a = arena_of(16 * MOST), stack_a = arena_of(20 * MOST);
        for (int i = 0; i < 5; i++) lists[i] = arena_of(4 * MOST);
    }
    if (len > MOST - 8) return 0;
    size_t ample[3] = {NODE * len + 3, 2 * len + 1, len};
    reading r = read_with(data, len, ample, NESTING);
    sill_read_t plain = r.answer;
    if (!plain.refusal) {
        ask_nodes(&r);
        write_back(&r);
        keep_parts(data, len, ample);
        size_t exact[3] = {NODE * (size_t)plain.nodes, 2 * (size_t)plain.entries, plain.slots};
        hold(same_answer(plain, read_with(data, len, exact, NESTING)), "in just enough room");
        for (int i = 0; i < 3; i++) {
            if (!exact[i]) continue;
            exact[i]--;
            hold(read_with(data, len, exact, NESTING).answer.refusal == (uint32_t[]){11, 12, 13}[i], "one short");
            exact[i]++;
        }
    }
    hold_behind(data, len, plain);
    size_t little[3] = {len % 40, len % 9, len % 3};
    for (uint32_t nesting = 0; nesting < 4; nesting++) read_with(data, len, little, nesting);
    memcpy(longer, data, len);
    memset(longer + len, 'N', 8);
    if (plain.refusal != 1 && plain.refusal != 2)
        hold(same_answer(plain, read_with(longer, len + 8, ample, NESTING)), "bytes appended");
    hostile(data, len);
    others(data, len);
    return 0;
}
