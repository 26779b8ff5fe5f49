#include <stdint.h>

uint32_t f(uint32_t x) { return x < 2 ? x : f(x - 1) - f(x - 2); }
