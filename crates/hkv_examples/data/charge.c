/* A bill: each page costs the rate and one more. */

#include <stdint.h>

uint32_t sys_charge(uint32_t pages, uint32_t rate) {
    return pages * (rate + 1);
}
