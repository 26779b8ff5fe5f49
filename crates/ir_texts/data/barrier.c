unsigned long flags(void) { unsigned long f; __asm__ volatile ("pushf; pop %0" : "=r"(f)); return f; }
