#include <stdint.h>

uint32_t table[4];

uint32_t get(uint32_t i) {
    uint32_t turned[4] = {table[3], table[2], table[1], table[0]};
    return turned[i & 3];
}
