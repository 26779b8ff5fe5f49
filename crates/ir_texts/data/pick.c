int pick(int kind, int a, int b) {
  switch (kind) {
  case 0: return a + b;
  case 1: return a - b;
  case 7: return a * b;
  case -3: return b ? a / b : 0;
  default: return -1;
  }
}
