#include <stdint.h>

uint32_t rotate(uint32_t x) {
    return (uint32_t)((uint64_t)x * 0x100000001 >> 27);
}
