#include <stdint.h>

struct entry {
    uint32_t a, b, c[4];
};
struct entry table[8];

void clear(uint32_t i) {
    if (i < 8) {
        table[i].a = 0;
        table[i].b = 0;
        table[i].c[0] = 0;
        table[i].c[1] = 0;
        table[i].c[2] = 0;
        table[i].c[3] = 0;
    }
}
