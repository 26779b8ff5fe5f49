#include <stdint.h>

struct entry {
    uint32_t a, b, c[4];
};
struct entry table[8];

void clear(uint32_t i) {
    if (i < 8)
        table[i] = (struct entry){0};
}
