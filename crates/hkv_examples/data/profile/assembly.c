void stop(void) { __asm__ volatile("cli"); }
