#include <stdint.h>

struct entry {
    struct entry *next;
    uint32_t a;
};
struct entry table[8];

void link(void) { table[0].next = &table[1]; }
