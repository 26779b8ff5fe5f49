extern int limit;
int below(int x) { return x < limit; }
