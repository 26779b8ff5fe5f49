extern void hook(int);
static int depth(int n) { return n <= 0 ? 0 : 1 + depth(n - 1); }
int enter(int n) { hook(n); return depth(n); }
