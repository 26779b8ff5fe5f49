#include <stdint.h>

uint8_t memory[8388608];

void set(void) { memory[0] = 1; }
