/* Free pages as a bitmap: the lowest free one is taken by counting zeros. */
#include <stdint.h>

#define NPAGE 32

uint32_t free_pages = 0xfffffff0; /* page p is free where bit p is set */
uint32_t owner[NPAGE];

int32_t page_alloc(uint32_t pid) {
    if (free_pages == 0 || pid == 0)
        return -1;
    uint32_t page = __builtin_ctz(free_pages);
    free_pages &= free_pages - 1;
    owner[page] = pid;
    return page;
}

int32_t page_free(uint32_t page, uint32_t pid) {
    if (page >= NPAGE || pid == 0 || owner[page] != pid)
        return -1;
    owner[page] = 0;
    free_pages |= 1u << page;
    return 0;
}
