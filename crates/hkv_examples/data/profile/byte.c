#include <stdint.h>

uint8_t busy;

int32_t take(void) {
    if (busy)
        return -1;
    busy = 1;
    return 0;
}
