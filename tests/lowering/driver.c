/* Runs functions of three 64-bit numbers, and shows what they return and what the memory is behind each call.
 *
 * Comes in on standard input: a line `FUNCTION A B C SEED` for each call. The memory is first the initial one where SEED is 0, and else
 * drawn from it. Goes out: `RESULT MEMORY`, MEMORY being a sum over all bytes, or `undefined` where the function was stopped by a trap
 * of a sanitizer. HANDLERS and OBJECTS come from the command line. */
#include <setjmp.h>
#include <signal.h>
#include <stdint.h>
#include <stdio.h>
#include <stdlib.h>
#include <string.h>

#define X(name) uint64_t name(uint64_t, uint64_t, uint64_t);
HANDLERS
#undef X
#define X(name) name,
static uint64_t (*const handlers[])(uint64_t, uint64_t, uint64_t) = {HANDLERS};
#undef X
#define X(name, size) extern unsigned char name[];
OBJECTS
#undef X
#define X(name, size) {name, size},
static const struct object {
    unsigned char *at;
    size_t size;
} objects[] = {OBJECTS {0, 0}};

static sigjmp_buf before;

static void trapped(int signal) {
    (void)signal;
    siglongjmp(before, 1);
}

static void fill(uint64_t seed) {
    for (const struct object *o = objects; o->at; o++)
        for (size_t k = 0; k < o->size; k++) {
            seed = seed * 6364136223846793005u + 1442695040888963407u;
            o->at[k] = seed >> 56;
        }
}

static uint64_t sum(void) {
    uint64_t all = 0xcbf29ce484222325u;
    for (const struct object *o = objects; o->at; o++)
        for (size_t k = 0; k < o->size; k++)
            all = (all ^ o->at[k]) * 0x100000001b3u;
    return all;
}

int main(void) {
    static unsigned char initial[1 << 16];
    unsigned char *to = initial;
    for (const struct object *o = objects; o->at; to += o->size, o++)
        memcpy(to, o->at, o->size);
    signal(SIGILL, trapped);
    signal(SIGTRAP, trapped);
    unsigned function;
    unsigned long long a, b, c, seed;
    while (scanf("%u %llu %llu %llu %llu", &function, &a, &b, &c, &seed) == 5) {
        to = initial;
        for (const struct object *o = objects; o->at; to += o->size, o++)
            memcpy(o->at, to, o->size);
        if (seed)
            fill(seed);
        if (sigsetjmp(before, 1)) {
            puts("undefined");
        } else {
            unsigned long long result = handlers[function](a, b, c);
            printf("%llu %016llx\n", result, (unsigned long long)sum());
        }
    }
    return 0;
}
