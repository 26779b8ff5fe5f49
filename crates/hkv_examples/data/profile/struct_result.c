#include <stdint.h>

struct pair {
    uint64_t a, b;
};
uint64_t now;

struct pair get(void) { return (struct pair){now, 1}; }
