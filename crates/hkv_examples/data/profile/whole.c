#include <stdint.h>

struct entry {
    uint32_t state, limit;
};
struct entry table[16] = {
    [0] = {1, 4},
    [1 ... 15] = {0, 4},
};

void set(uint32_t i) {
    if (i < 16)
        table[i].limit = 2;
}
