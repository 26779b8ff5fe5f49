#include <stdint.h>

extern uint32_t ticks;

void tick(void) { ticks += 1; }
