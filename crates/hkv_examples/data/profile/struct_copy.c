#include <stdint.h>

struct entry {
    uint32_t a, b, c[4];
};
struct entry table[8];

void copy(uint32_t to, uint32_t from) {
    if (to < 8 && from < 8)
        table[to] = table[from];
}
