int checked(int a, int b, int *out) {
  return __builtin_add_overflow(a, b, out);
}
unsigned char narrow(unsigned x) { unsigned char c; return __builtin_mul_overflow(x, 3u, &c) ? 0 : c; }
