#include <stdint.h>

uint32_t add(uint32_t x, uint32_t y) {
    uint64_t sum = (uint64_t)x + y;
    return sum > UINT32_MAX ? UINT32_MAX : (uint32_t)sum;
}
