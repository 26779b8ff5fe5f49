#include <stdint.h>

uint64_t high(uint64_t x, uint64_t y) {
    return (uint64_t)((unsigned __int128)x * y >> 64);
}
