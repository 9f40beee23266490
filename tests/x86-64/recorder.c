/* The exports in front of the library's own (`own_NAME`, renamed by tools/x86-64): each call is passed on, and what went in and
 * what came out is written to the file that SILL_CALLS names. The first SILL_FIRST calls of each export are written, then one of
 * SILL_EVERY, and none that lends more than MOST bytes. calls.h, made from the header, has the exports. */
#include "../../include/sillgarland.h"
#include "calls.h"
#include <pthread.h>
#include <stdio.h>
#include <stdlib.h>
#include <string.h>

#define MOST (64u << 20)

static FILE *to;
static unsigned long long first, every, met[CALLS];
static pthread_mutex_t one_at_a_time = PTHREAD_MUTEX_INITIALIZER;
static pthread_once_t opened = PTHREAD_ONCE_INIT;

static unsigned long long number(const char *name, unsigned long long otherwise) {
    const char *word = getenv(name);
    return word ? strtoull(word, NULL, 10) : otherwise;
}

static void open_file(void) {
    const char *name = getenv("SILL_CALLS");
    first = number("SILL_FIRST", ~0ull), every = number("SILL_EVERY", 1);
    if (name && !(to = fopen(name, "wb"))) abort();
    if (to) setvbuf(to, NULL, _IOFBF, 1 << 20);
}

/* Whether this call is one to write: spread, so that no rhythm of the caller is met. */
static int chosen(int call, size_t lent) {
    pthread_once(&opened, open_file);
    if (!to || lent > MOST) return 0;
    unsigned long long nth = __atomic_fetch_add(&met[call], 1, __ATOMIC_RELAXED);
    return nth < first || (nth * 0x9E3779B97F4A7C15ull >> 32) % every == 0;
}

/* A call as it is gathered: it is written once it has returned, as one piece. */
typedef struct {
    uint8_t *bytes;
    size_t used, room;
} gathered;

static void put(gathered *call, const void *from, size_t size) {
    if (call->used + size > call->room) {
        call->room = 2 * (call->used + size);
        if (!(call->bytes = realloc(call->bytes, call->room))) abort();
    }
    if (size) memcpy(call->bytes + call->used, from, size);
    call->used += size;
}

static void put_number(gathered *call, uint64_t value) { put(call, &value, sizeof value); }

/* A lent slice: how many elements, whether there is memory at all, and the bytes. */
static void put_slice(gathered *call, const void *from, size_t length, size_t width) {
    put_number(call, length);
    put_number(call, from != NULL);
    put(call, from, length * width);
}

static void write_out(gathered *call) {
    pthread_mutex_lock(&one_at_a_time);
    if (fwrite(call->bytes, 1, call->used, to) != call->used || fflush(to)) abort();
    pthread_mutex_unlock(&one_at_a_time);
    free(call->bytes);
}

#define RECORDING
#include "calls.h"
