extern void fill(int *p);
int local(void) { int x[2]; fill(x); return x[0] + x[1]; }
