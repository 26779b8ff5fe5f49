unsigned long rotate(unsigned long x, unsigned n) { return (x << (n & 63)) | (x >> (-n & 63)); }
int clamp(int x) { return x < 0 ? 0 : x > 255 ? 255 : x; }
_Bool odd(long x) { return x & 1; }
