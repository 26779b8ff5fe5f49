extern int printk(const char *format, ...);
void boot(int n) { printk("boot %d\n", n); }
