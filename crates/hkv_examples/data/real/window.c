/* Ranges of memory: helpers that give a struct, and that put a second result into a local of the caller. */
#include <stdint.h>

#define NPROC 8

struct range {
    uint32_t from, to; /* without `to` */
};

struct range windows[NPROC];

/* The part that two ranges have in common. */
static __attribute__((noinline)) struct range common(struct range a, struct range b) {
    struct range both = {a.from > b.from ? a.from : b.from, a.to < b.to ? a.to : b.to};
    return both;
}

/* Whether the range has a length, and that. */
static __attribute__((noinline)) int measure(struct range r, uint32_t *length) {
    if (r.from >= r.to)
        return 0;
    *length = r.to - r.from;
    return 1;
}

/* Takes the window down to its common part with a range; gives its length. */
uint32_t clip(uint32_t pid, uint32_t from, uint32_t to) {
    uint32_t length;
    if (pid >= NPROC)
        return 0;
    struct range r = common(windows[pid], (struct range){from, to});
    if (!measure(r, &length))
        return 0;
    windows[pid] = r;
    return length;
}
