#include <stdint.h>

uint32_t first(uint32_t x) {
    uint32_t n = 0;
    if (x == 0)
        return 32;
    if ((x & 0xffff) == 0) {
        n += 16;
        x >>= 16;
    }
    if ((x & 0xff) == 0) {
        n += 8;
        x >>= 8;
    }
    if ((x & 15) == 0) {
        n += 4;
        x >>= 4;
    }
    if ((x & 3) == 0) {
        n += 2;
        x >>= 2;
    }
    return n + (~x & 1);
}
