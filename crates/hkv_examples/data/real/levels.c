/* A flag that is only ever set, which clang keeps in one bit, and a small array that a handler fills and reads. */
#include <stdbool.h>
#include <stdint.h>

#define NLEVEL 4

static bool started;
uint32_t weights[NLEVEL];

int32_t start(void) {
    started = true;
    return 0;
}

/* Moves the level to the front, and the others behind it, and gives the weight that then stands at a place. */
uint32_t weight_at(uint32_t level, uint32_t place) {
    if (!started || level >= NLEVEL || place >= NLEVEL)
        return 0;
    uint32_t order[NLEVEL] = {weights[0], weights[1], weights[2], weights[3]};
    order[level] = order[0];
    order[0] = weights[level];
    return order[place];
}
