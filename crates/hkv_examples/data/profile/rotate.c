#include <stdint.h>

uint32_t rotate(uint32_t x) { return x << 5 | x >> 27; }
