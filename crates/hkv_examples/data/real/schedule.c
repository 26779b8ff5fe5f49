/* Round robin over 32 tasks: the mask of those that are ready, turned so that the one behind the running one comes first. */
#include <stdint.h>

uint32_t ready;
uint32_t running;

int32_t next_task(void) {
    uint32_t by = running + 1;
    uint32_t turned = ready >> (by & 31) | ready << (-by & 31);
    if (turned == 0)
        return -1;
    running = (by + __builtin_ctz(turned)) & 31;
    return running;
}

int32_t wake(uint32_t task) {
    if (task >= 32)
        return -1;
    ready |= 1u << task;
    return 0;
}
