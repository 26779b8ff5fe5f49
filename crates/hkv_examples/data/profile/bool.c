#include <stdbool.h>
#include <stdint.h>

bool busy;

int32_t take(void) {
    if (busy)
        return -1;
    busy = true;
    return 0;
}
