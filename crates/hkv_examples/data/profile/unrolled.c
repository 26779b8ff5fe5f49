#include <stdint.h>

uint32_t table[4];

void clear(uint32_t x) {
#pragma clang loop unroll(full)
    for (int i = 0; i < 4; i++)
        if (table[i] == x)
            table[i] = 0;
}
