#include <stdint.h>

uint32_t table[8];

__attribute__((noinline)) static int find(uint32_t i, uint32_t *found) {
    if (i >= 8)
        return -1;
    *found = table[i];
    return 0;
}

int32_t get(uint32_t i) {
    uint32_t found;
    if (find(i, &found))
        return -1;
    return (int32_t)(found & 7);
}
