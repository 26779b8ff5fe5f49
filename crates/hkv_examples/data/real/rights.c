/* Rights as sets of bits: what is handed on is at most what the giver has, and at most four rights. */
#include <stdint.h>

#define NPROC 16

uint64_t rights[NPROC];

int32_t grant(uint32_t from, uint32_t to, uint64_t set) {
    if (from >= NPROC || to >= NPROC)
        return -1;
    if (set & ~rights[from])
        return -1;
    if (__builtin_popcountll(set) > 4)
        return -1;
    rights[to] |= set;
    return 0;
}
