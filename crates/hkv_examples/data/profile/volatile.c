#include <stdint.h>

volatile uint32_t ready;

void set(void) { ready = 1; }
