#include <stdint.h>

int32_t ticks;

void tick(void) { ticks += 1; }
