/* Entries of a page table in six bytes: the frame and its flags are bit-fields of one packed struct. */
#include <stdint.h>

#define NENTRY 16
#define NFRAME 4096

struct __attribute__((packed)) entry {
    uint64_t frame : 36;
    uint64_t present : 1, writable : 1, user : 1;
    uint64_t spare : 9;
};

struct entry table[NENTRY];

int32_t map_page(uint32_t n, uint32_t frame, uint32_t writable) {
    if (n >= NENTRY || frame >= NFRAME || table[n].present)
        return -1;
    table[n].frame = frame;
    table[n].writable = writable != 0;
    table[n].present = 1;
    return 0;
}

int32_t protect(uint32_t n) {
    if (n >= NENTRY || !table[n].present)
        return -1;
    table[n].writable = 0;
    return 0;
}
