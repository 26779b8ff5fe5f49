#include <stdint.h>

void flush(void);

uint32_t root;

void set_root(uint32_t page) {
    root = page;
    flush();
}
