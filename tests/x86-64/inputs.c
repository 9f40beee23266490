/* Puts inputs to tests/fuzz/fuzz.c without libFuzzer: the list on the standard input, a line an input in hexadecimal, as it is and
 * changed in random places, as often as the first argument says. The last line counts; what does not hold ends the program. */
#include "../fuzz/fuzz.c"

static uint64_t seed = 1;

static uint32_t below(uint32_t bound) {
    seed ^= seed << 13, seed ^= seed >> 7, seed ^= seed << 17;
    return (uint32_t)(seed >> 20) % bound;
}

static size_t bytes_of(const char *line, uint8_t *to, size_t most) {
    size_t len = 0;
    unsigned byte;
    while (len < most && sscanf(line + 2 * len, "%2x", &byte) == 1) to[len++] = (uint8_t)byte;
    return len;
}

/* A byte more, less or other, or a part repeated. */
static size_t changed(uint8_t *data, size_t len, size_t most) {
    size_t at = len ? below((uint32_t)len) : 0;
    switch (below(4)) {
    case 0:
        if (len) data[at] = (uint8_t)below(256);
        return len;
    case 1:
        if (len == most) return len;
        memmove(data + at + 1, data + at, len - at);
        data[at] = (uint8_t)below(256);
        return len + 1;
    case 2:
        if (len) memmove(data + at, data + at + 1, len - at - 1);
        return len ? len - 1 : 0;
    default: {
        size_t part = len - at < most - len ? len - at : most - len;
        memmove(data + len, data + at, part);
        return len + part;
    }
    }
}

int main(int words, char **word) {
    static char line[2 * MOST + 2];
    static uint8_t data[MOST], other[MOST];
    unsigned long times = words > 1 ? strtoul(word[1], NULL, 10) : 0, put = 0;
    while (fgets(line, sizeof line, stdin)) {
        if (line[0] == '#') continue;
        size_t len = line[0] == '-' ? 0 : bytes_of(line, data, MOST - 8);
        LLVMFuzzerTestOneInput(data, len);
        put++;
        for (unsigned long i = 0; i < times; i++, put++) {
            size_t now = len;
            memcpy(other, data, len);
            for (uint32_t more = 1 + below(4); more; more--) now = changed(other, now, MOST - 8);
            LLVMFuzzerTestOneInput(other, now);
        }
    }
    printf("x86-64: inputs put to every export between pages that fault: %lu passed, %d failed\n", put, put == 0);
    return put == 0;
}
