typedef unsigned char u8; typedef unsigned short u16; typedef unsigned int u32; typedef unsigned long long u64;
typedef signed char i8; typedef short i16; typedef int i32; typedef long long i64;

struct file { u32 refs; u16 kind; u8 owner; u64 offset; };
u32 current; u8 table[16]; struct file files[4]; i16 limits[4] = {1, -2, 300, -400}; const u32 primes[6] = {2, 3, 5, 7, 11, 13};
u64 total;

u32 mix(u32 a, u32 b) { return (a ^ (b << 7)) * 2654435761u + (a >> 3); }
i32 ratio(i32 a, i32 b) { if (b == 0) return -1; return a / b + a % b; }
i64 order(i64 a, i64 b, i64 c) { i64 low = a < b ? a : b; i64 high = a < b ? b : a; return c < low ? low : (high < c ? high : c); }
i32 sum(i32 a, i32 b) { return a + b; }
u32 checked(u32 a, u32 b) { u32 r; return __builtin_add_overflow(a, b, &r) ? 7 : r; }
u64 chosen(u8 op, u32 a, u32 b) {
  switch (op & 7) { case 0: return a + b; case 1: return a - b; case 2: return (u64)a * b; case 3: return a & b; case 5: return a | b; case 6: return ~a; default: return a == b; }
}
__attribute__((noinline)) static u32 step(u32 n) { return n % 2 ? 3 * n + 1 : n / 2; }
u32 chain(u32 n) { return step(step(step(step(n & 0xffff)))); }
__attribute__((noinline)) static void give(u32 to, u32 by) { files[to].refs += by; total += by; }
u32 hand(u32 from, u32 to) { if (from >= 4 || to >= 4) return 9; give(to, files[from].refs); if (from != to) files[from].refs = 0; return files[to].refs; }
u32 prime(u32 n) { return primes[n]; }
i32 limit(u8 n, i16 by) { if (n >= 4) return -1; limits[n] = (i16)(limits[n] + by); return limits[n]; }
i32 put(u8 at, u8 by) { if (at > 16) return -22; table[at] = by; table[(at + 5) & 15] ^= (u8)~by; current = at; return table[0]; }
i32 transfer(u32 from, u32 to, u8 owner) {
  if (from >= 4 || to >= 4 || from == to) return -9;
  files[to].refs = files[from].refs + 1; files[to].kind = (u16)(from * 257 + to); files[to].owner = owner; files[from].offset = ((u64)owner << 40) | to;
  total += files[to].refs; return (i32)files[to].kind;
}
u32 least(u32 at) { u8 *p = at & 1 ? &table[at & 15] : (u8 *)&current; *p = 3; return current + table[1]; }
