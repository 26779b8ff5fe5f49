/* Pages of memory, and the tables by which two virtual machines see them. */

#include <stdint.h>

#define NVM 2    /* virtual machines */
#define NENTRY 4 /* entries of a table */
#define NPAGE 8  /* pages */

enum { READ = 1, WRITE = 2, EXECUTE = 4 };
enum use { FREE, MAPPED };

struct entry {
    uint64_t page;
    uint32_t may; /* READ, WRITE and EXECUTE, or 0 where the entry is free */
};

struct page {
    uint8_t owner;
    enum use use;
};

struct entry table[NVM][NENTRY];
struct page pages[NPAGE];

/* Whether a page may be used so: never written and executed. */
static int allowed(uint32_t may) {
    return may != 0 && may <= (READ | WRITE | EXECUTE) &&
           (may & (WRITE | EXECUTE)) != (WRITE | EXECUTE);
}

/* Lets the machine vm see the page by the entry at. */
int32_t sys_map(uint32_t vm, uint32_t at, uint64_t page, uint32_t may) {
    if (vm >= NVM || at >= NENTRY || page >= NPAGE || !allowed(may))
        return -1;
    if (table[vm][at].may != 0 || pages[page].use != FREE)
        return -1;
    table[vm][at].page = page;
    table[vm][at].may = may;
    pages[page].owner = (uint8_t)vm;
    pages[page].use = MAPPED;
    return 0;
}

/* Takes the page of the entry at from the machine vm. */
int32_t sys_unmap(uint32_t vm, uint32_t at) {
    if (vm >= NVM || at >= NENTRY || table[vm][at].may == 0)
        return -1;
    table[vm][at].may = 0;
    pages[table[vm][at].page].use = FREE;
    return 0;
}

/* Changes how the machine vm may use the page of the entry at. */
int32_t sys_protect(uint32_t vm, uint32_t at, uint32_t may) {
    if (vm >= NVM || at >= NENTRY || table[vm][at].may == 0)
        return -1;
    if (!allowed(may))
        return -1;
    table[vm][at].may = may;
    return 0;
}
