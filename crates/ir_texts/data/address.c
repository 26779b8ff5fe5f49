unsigned long page_of(void *p) { return (unsigned long)p >> 12; }
