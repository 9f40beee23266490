/* Makes again each call that recorder.c wrote, with the library that this is linked to, and compares answers and the contents of
 * every store lent for writing. Each slice ends where a page begins that faults, and each export has a stack of 1 MiB of its own,
 * marked before the first call, so that the deepest use of it can be told. Calls come from the standard input. */
#include "../../include/sillgarland.h"
#include "calls.h"
#include <stdio.h>
#include <stdlib.h>
#include <string.h>
#include <sys/mman.h>
#include <ucontext.h>

#define PAGE 65536u
#define SLICES 8
#define ROOM (72u << 20)
#define STACK (1u << 20)
#define MARK 0xA5

static uint8_t *ends[SLICES];
static uint64_t lengths[SLICES];
static int slices, current;
static unsigned long long calls[CALLS], differences[CALLS];

static void stop(const char *why) {
    fprintf(stderr, "player: %s\n", why);
    exit(1);
}

/* So many bytes, of which the page behind the last and the one before the first fault. */
static uint8_t *guarded(size_t size) {
    uint8_t *at = mmap(NULL, size + 2 * PAGE, PROT_NONE, MAP_PRIVATE | MAP_ANONYMOUS | MAP_NORESERVE, -1, 0);
    if (at == MAP_FAILED || mprotect(at + PAGE, size, PROT_READ | PROT_WRITE)) stop("no memory");
    return at + PAGE;
}

static void take(void *to, size_t size) {
    if (size && fread(to, 1, size, stdin) != size) stop("a call is cut");
}

static uint64_t take_number(void) {
    uint64_t value;
    take(&value, sizeof value);
    return value;
}

/* The next lent slice, as it went in. */
static void *take_slice(size_t width) {
    if (slices == SLICES) stop("more slices than there is memory for");
    uint64_t length = take_number(), there = take_number();
    if (length * width > ROOM) stop("a slice is too long");
    uint8_t *at = ends[slices] - length * width;
    take(at, length * width);
    lengths[slices++] = length;
    return there ? at : NULL;
}

static int same_bytes(const void *from, size_t size) {
    static uint8_t other[4096];
    const uint8_t *at = from;
    int same = 1;
    while (size) {
        size_t part = size < sizeof other ? size : sizeof other;
        take(other, part);
        same &= !memcmp(at, other, part);
        at += part, size -= part;
    }
    return same;
}

static void told(int same) {
    if (!same && !differences[current]++) printf("x86-64: %s answers otherwise, first in its call %llu\n", names[current], calls[current]);
    calls[current]++;
}

#define PLAYING
#include "calls.h"

static ucontext_t back, ready[CALLS];
static uint8_t *stacks[CALLS];

static void on_its_stack(int call) {
    for (;;) {
        plays[call]();
        swapcontext(&ready[call], &back);
    }
}

static void make_stack(int call) {
    stacks[call] = guarded(STACK);
    memset(stacks[call], MARK, STACK);
    if (getcontext(&ready[call])) stop("no context");
    ready[call].uc_stack.ss_sp = stacks[call];
    ready[call].uc_stack.ss_size = STACK;
    makecontext(&ready[call], (void (*)(void))on_its_stack, 1, call);
}

static size_t deepest(int call) {
    size_t at = 0;
    while (at < STACK && stacks[call][at] == MARK) at++;
    return STACK - at;
}

int main(void) {
    static uint8_t buffer[1 << 20];
    setvbuf(stdin, (char *)buffer, _IOFBF, sizeof buffer);
    for (int i = 0; i < SLICES; i++) ends[i] = guarded(ROOM) + ROOM;
    uint32_t call;
    while (fread(&call, sizeof call, 1, stdin) == 1) {
        if (call >= CALLS) stop("no such export");
        if (!stacks[call]) make_stack((int)call);
        slices = 0, current = (int)call;
        swapcontext(&back, &ready[call]);
    }
    unsigned long long all = 0, wrong = 0, never = 0;
    for (int i = 0; i < CALLS; i++) {
        never += !calls[i];
        if (calls[i]) printf("x86-64: %s: %llu calls, %llu otherwise, %zu bytes of stack at most\n", names[i], calls[i], differences[i], deepest(i));
        all += calls[i], wrong += differences[i];
    }
    if (never) printf("x86-64: %llu exports were not called\n", never);
    printf("x86-64: %llu passed, %llu failed\n", all - wrong, wrong);
    return wrong > 0;
}
