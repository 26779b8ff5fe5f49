#include <stdint.h>

struct entry {
    uint32_t state, limit;
};
struct entry table[16] = {{1, 4}};

void set(uint32_t i) {
    if (i < 16)
        table[i].limit = 2;
}
