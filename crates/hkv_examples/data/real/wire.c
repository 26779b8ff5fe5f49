/* Descriptors of a device that reads them with the highest byte first. */
#include <stdint.h>

#define NDESC 16

struct descriptor {
    uint64_t address; /* big endian */
    uint32_t length;  /* big endian */
    uint16_t flags;   /* big endian */
    uint16_t used;
};

struct descriptor ring[NDESC];

int32_t describe(uint32_t n, uint64_t address, uint32_t length, uint16_t flags) {
    if (n >= NDESC || ring[n].used || length == 0)
        return -1;
    ring[n].address = __builtin_bswap64(address);
    ring[n].length = __builtin_bswap32(length);
    ring[n].flags = __builtin_bswap16(flags);
    ring[n].used = 1;
    return 0;
}

/* The length of a descriptor, as the processor counts. */
uint32_t length_of(uint32_t n) {
    return n < NDESC ? __builtin_bswap32(ring[n].length) : 0;
}
