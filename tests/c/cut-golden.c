/* Which row does the formula of a golden come from? Of a golden whose line table was cut, and of the whole one. Compiled as C and
 * as C++, against the installed header and with pkg-config's flags alone, by tools/install-test; docs/C.md has it word for word. */
#include <sillgarland.h>
#include <stdio.h>

enum { MOST = 4096, INSTRUCTION = 40 };

#define NAMED(number, name) name,
static const char *const refusals[] = {"accepted", SILL_EACH_REFUSAL(NAMED)};

static uint8_t input[MOST];
static uint32_t nodes[7 * MOST], entries[2 * MOST], slots[MOST], records[4 * MOST];
static uint8_t sources[MOST];

/* The node that is a code object's part, by its number from 0. */
static const uint32_t *part(uint32_t at)
{
    uint32_t entry = nodes[3];
    while (at-- > 0) {
        entry = entries[2 * entry + 1];
    }
    return nodes + 7 * entries[2 * entry];
}

static int show(const char *path)
{
    FILE *file = fopen(path, "rb");
    if (file == NULL) {
        perror(path);
        return 1;
    }
    size_t size = fread(input, 1, MOST, file);
    fclose(file);
    sill_read_t read = sill_read(input, size, nodes, 7 * MOST, entries, 2 * MOST, slots, MOST, SILL_MOST_NESTING);
    if (read.refusal != SILL_ACCEPTED || nodes[0] != 'c') {
        printf("%s: %s at byte %u\n", path, read.refusal ? refusals[read.refusal] : "no code object", (unsigned)read.place);
        return 1;
    }
    uint32_t count = part(0)[2] / 2;
    const uint8_t *first = input + nodes[1] + nodes[2]; /* the first line stands behind a code object's own bytes */
    int32_t line = (int32_t)(first[0] | (uint32_t)first[1] << 8 | (uint32_t)first[2] << 16 | (uint32_t)first[3] << 24);
    const uint8_t *table = input + part(8)[1];
    sill_located_t located = sill_locate(table, part(8)[2], line, count, records, 4 * MOST);
    sill_sourced_t sourced = sill_sources(table, part(8)[2], line, count, sources, MOST);
    if (located.refusal != SILL_ACCEPTED || sourced.refusal != SILL_ACCEPTED) {
        printf("%s: line table: %s\n", path, refusals[located.refusal]);
        return 1;
    }
    printf("%s: %s, %u of %u instructions placed\n", path, located.whole ? "whole" : "NOT WHOLE", (unsigned)located.from_entries,
           (unsigned)count);
    int sure = (sources[INSTRUCTION] & (2 | 16 | 32)) == (2 | 16);
    if (sure) {
        printf("instruction %d comes from row %u\n", INSTRUCTION, (unsigned)records[4 * INSTRUCTION]);
    } else {
        printf("instruction %d has no row\n", INSTRUCTION);
    }
    return 0;
}

int main(void)
{
    return show("goldens/cut-line-table.golden") | show("goldens/rates.golden");
}
