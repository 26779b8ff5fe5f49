volatile unsigned device;
unsigned poll(void) { unsigned n = 0; while (!(device & 1)) n++; return n; }
