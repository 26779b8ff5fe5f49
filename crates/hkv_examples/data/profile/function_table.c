#include <stdint.h>

uint32_t state;

static void start(void) { state = 1; }
static void stop(void) { state = 2; }
static void (*const handlers[2])(void) = {start, stop};

void call(uint32_t i) {
    if (i < 2)
        handlers[i]();
}
