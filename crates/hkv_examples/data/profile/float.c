float level;

void set(int x) { level = x; }
