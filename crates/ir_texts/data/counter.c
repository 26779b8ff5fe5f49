unsigned char ticks;
void tick(void) { ticks++; }
unsigned char now(void) { return ticks; }
