#include <stdint.h>

uint32_t used;

void use(void) {
    if (used > 8)
        __builtin_trap();
    used += 1;
}
