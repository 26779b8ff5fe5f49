#include <stdint.h>

struct entry {
    uint32_t a : 3, b : 5, c : 12;
};
struct entry table[4];

void set(uint32_t i) {
    if (i < 4)
        table[i].c = 7;
}
