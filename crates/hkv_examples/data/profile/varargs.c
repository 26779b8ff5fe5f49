void printk(const char *text, ...);

void tell(int x) { printk("x is %d", x); }
