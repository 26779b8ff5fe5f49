struct page { unsigned long words[8]; };
void copy(struct page *to, const struct page *from) { *to = *from; }
void clear(struct page *p) { __builtin_memset(p, 0, sizeof *p); }
