#include <stdint.h>

int32_t probe(void);

int32_t get(void) { return probe(); }
