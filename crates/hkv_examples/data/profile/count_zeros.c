#include <stdint.h>

uint32_t first(uint32_t x) { return x ? (uint32_t)__builtin_ctz(x) : 32; }
