/* Functions of three numbers over a few variables: C as people write it, each with a construct that the profile does not have. */
#include <stdbool.h>
#include <stddef.h>
#include <stdint.h>
#include <string.h>

typedef uint8_t u8;
typedef uint16_t u16;
typedef uint32_t u32;
typedef uint64_t u64;
#define APART __attribute__((noinline)) static

struct entry {
    u32 a, b;
    u64 c;
    u16 d, e;
    u32 f;
};
struct __attribute__((packed)) small {
    u8 a;
    u32 b;
};
struct odd {
    u32 a : 11, b : 9;
};
struct __attribute__((packed)) wide {
    u64 a : 36, b : 3, c : 9;
};
struct __attribute__((packed)) forty {
    u64 a : 30, b : 10;
};
struct __attribute__((packed)) most {
    u64 a : 50;
    u64 b : 6;
};
union word {
    u32 whole;
    u8 bytes[4];
    u16 halves[2];
};

struct entry table[4] = {{1, 2, 3, 4, 5, 6}, {7, 8, 9, 10, 11, 12}, {13, 14, 15, 16, 17, 18}, {19, 20, 21, 22, 23, 24}};
struct small smalls[5];
struct odd odds[4];
struct wide wides[4] = {{1, 2, 3}, {4, 5, 6}, {7, 0, 8}, {9, 1, 10}};
struct forty forties[3];
struct most mosts[3];
union word words[3] = {{.bytes = {1}}, {.halves = {2, 3}}, {.whole = 4}};
u8 bytes[48] = "what stands here is moved";
u32 numbers[8] = {1, 2, 3, 4, 5, 6, 7, 8};
static bool started;
static u32 chosen = 7;

/* The sizes that lower.py gives the driver. */
_Static_assert(sizeof table == 96 && sizeof smalls == 25 && sizeof odds == 16 && sizeof wides == 24 && sizeof forties == 15, "sizes");
_Static_assert(sizeof mosts == 21 && sizeof words == 12 && sizeof bytes == 48 && sizeof numbers == 32, "sizes");

/* ---- copies */
u64 copy_struct(u64 a, u64 b, u64 c) { table[a & 3] = table[b & 3]; return c; }
u64 copy_out(u64 a, u64 b, u64 c) { struct entry e = table[a & 3]; e.b += (u32)b; e.d = (u16)c; table[(a + 1) & 3] = e; return e.c + e.b; }
u64 copy_small(u64 a, u64 b, u64 c) { smalls[a % 5] = smalls[b % 5]; return c; }
u64 copy_bytes(u64 a, u64 b, u64 c) { memcpy(bytes + (a & 7), bytes + 24 + (b & 7), 16); return c; }
u64 move_bytes(u64 a, u64 b, u64 c) { memmove(bytes + (a & 15), bytes + (b & 15), 21); return c; }
u64 move_up(u64 a, u64 b, u64 c) { memmove(numbers + 1, numbers, 28); return a + b + c; }
u64 set_bytes(u64 a, u64 b, u64 c) { memset(bytes + (a & 15), (int)b, 19); return c; }
u64 set_words(u64 a, u64 b, u64 c) { memset(numbers, (int)b, sizeof numbers); return a + c; }
u64 clear_struct(u64 a, u64 b, u64 c) { table[a & 3] = (struct entry){0}; return b ^ c; }
u64 clear_some(u64 a, u64 b, u64 c) { table[a & 3] = (struct entry){.b = (u32)b, .e = (u16)c}; return 1; }

/* ---- integers of other widths */
u64 put_odd(u64 a, u64 b, u64 c) { odds[a & 3].a = (u32)b; odds[b & 3].b = (u32)c; return odds[c & 3].a + odds[c & 3].b; }
u64 put_wide(u64 a, u64 b, u64 c) { wides[a & 3].a = b; wides[b & 3].c = (u64)c; wides[c & 3].b ^= 5; return wides[c & 3].a + wides[a & 3].b; }
u64 put_forty(u64 a, u64 b, u64 c) { forties[a % 3].a = b; forties[b % 3].b = c; return forties[c % 3].a ^ forties[c % 3].b; }
u64 put_most(u64 a, u64 b, u64 c) { mosts[a % 3].a = b; mosts[b % 3].b = c; return mosts[c % 3].a ^ mosts[c % 3].b; }
u64 start(u64 a, u64 b, u64 c) { u64 was = started; if (a & 1) started = true; return was + b + c; }
u64 choose(u64 a, u64 b, u64 c) { if (a % 3 == 0) chosen = 7; return chosen + b + c; }
u64 pun(u64 a, u64 b, u64 c) { union word w = words[a % 3]; w.bytes[1] = (u8)b; w.halves[1] ^= (u16)c; words[(a + 1) % 3] = w; return w.whole; }

/* ---- orders, rotations, counts */
u64 rotate8(u64 a, u64 b, u64 c) { u8 x = (u8)a; return (u8)(x << (b & 7) | x >> (-b & 7)) + c; }
u64 rotate16(u64 a, u64 b, u64 c) { u16 x = (u16)a; return (u16)(x << 5 | x >> 11) ^ b ^ c; }
u64 rotate32(u64 a, u64 b, u64 c) { u32 x = (u32)a, n = (u32)b & 31; return (x << n | x >> (-n & 31)) + c; }
u64 rotate64(u64 a, u64 b, u64 c) { return (a >> (b & 63) | a << (-b & 63)) + (a << 13 | a >> 51) * c; }
u64 funnel(u64 a, u64 b, u64 c) { unsigned n = c & 63; return n ? a << n | b >> (64 - n) : a; }
u64 swap(u64 a, u64 b, u64 c) { return __builtin_bswap64(a) + __builtin_bswap32((u32)b) * 3 + __builtin_bswap16((u16)c); }
u64 swap_by_shifts(u64 a, u64 b, u64 c) { u32 x = (u32)a; return (x >> 24 | (x >> 8 & 0xff00) | (x << 8 & 0xff0000) | x << 24) + b + c; }
u64 counts(u64 a, u64 b, u64 c) { return (u64)__builtin_popcountll(a) * 100 + (u64)__builtin_popcount((u32)b) + c; }
u64 leading(u64 a, u64 b, u64 c) { return (a ? (u64)__builtin_clzll(a) : 64) + ((u32)b ? (u64)__builtin_clz((u32)b) : 32) + c; }
u64 trailing(u64 a, u64 b, u64 c) { return (a ? (u64)__builtin_ctzll(a) : 64) + (u64)__builtin_ctz((u32)b) + c; }
u64 parity(u64 a, u64 b, u64 c) { return (u64)__builtin_parityll(a) + (u64)__builtin_ffs((int)b) + c; }
u64 reverse(u64 a, u64 b, u64 c) { return __builtin_bitreverse64(a) ^ __builtin_bitreverse32((u32)b) ^ __builtin_bitreverse8((u8)c); }

/* ---- saturation and comparisons */
u64 add_up(u64 a, u64 b, u64 c) { u32 x = (u32)a, y = (u32)b; return (x + y < x ? UINT32_MAX : x + y) + (a + c < a ? UINT64_MAX : a + c); }
u64 take_off(u64 a, u64 b, u64 c) { return (a > b ? a - b : 0) + ((u8)a > (u8)c ? (u8)a - (u8)c : 0); }
u64 within(u64 a, u64 b, u64 c) {
    int64_t s = (int64_t)(int32_t)a + (int32_t)b, d = (int64_t)(int32_t)a - (int32_t)c;
    s = s > INT32_MAX ? INT32_MAX : s < INT32_MIN ? INT32_MIN : s;
    d = d > INT32_MAX ? INT32_MAX : d < INT32_MIN ? INT32_MIN : d;
    return (u64)s * 3 + (u64)d;
}
u64 order(u64 a, u64 b, u64 c) { return (u64)((a > b) - (a < b)) + (u64)(((int32_t)b > (int32_t)c) - ((int32_t)b < (int32_t)c)) * 10; }
u64 magnitude(u64 a, u64 b, u64 c) { int64_t x = (int64_t)a; return (u64)(x < 0 ? -x : x) + (b > c ? b : c); }

/* ---- structs and locals */
struct pair {
    u64 first, second;
};
struct triple {
    u32 x;
    u64 y, z;
};
struct trio {
    u32 x, y, z;
};
APART struct pair sorted(u64 a, u64 b) { return a < b ? (struct pair){a, b} : (struct pair){b, a}; }
APART struct triple turned(struct triple t, u64 by) { return by & 1 ? (struct triple){(u32)t.y, t.z, t.x} : (struct triple){t.x + 1, t.z, t.y}; }
APART int find(u32 number, u32 *place) {
    if (numbers[number & 7] < number)
        return 0;
    *place = number & 7;
    return 1;
}
APART void fill_in(u64 *part, u64 n) { part[n & 3] += n; part[1] ^= part[n >> 2 & 3]; }
APART u64 first_of(u64 a, u64 unread) { (void)unread; return a * 3; }
u64 give_pair(u64 a, u64 b, u64 c) { struct pair p = sorted(a, b); return p.first * 3 - p.second + c; }
u64 give_triple(u64 a, u64 b, u64 c) { struct triple t = turned((struct triple){(u32)a, b, c}, a); t = turned(t, b); return t.x + t.y * 5 + t.z * 7; }
u64 put_place(u64 a, u64 b, u64 c) { u32 place; return find((u32)a, &place) ? place + b : c; }
u64 local_array(u64 a, u64 b, u64 c) { u32 local[4] = {(u32)a, 20, 30, (u32)c}; local[b & 3] ^= 77; return local[a & 3] * 3 + local[c & 3]; }
u64 local_wide(u64 a, u64 b, u64 c) { u64 local[4] = {a, b, c, 7}; fill_in(local, a); fill_in(local, b); return local[0] + local[1] * 3 + local[2] * 5 + local[c & 3]; }
u64 local_structs(u64 a, u64 b, u64 c) { struct pair local[3] = {{a, b}, {b, c}, {c, a}}; local[a % 3].second += 1; return local[b % 3].first - local[c % 3].second; }
u64 local_bytes(u64 a, u64 b, u64 c) { u8 local[8]; memcpy(local, &a, 8); local[b & 7] = (u8)c; memcpy(&a, local, 8); return a; }
u64 step_back(u64 a, u64 b, u64 c) { struct trio local[4] = {{(u32)a, 2, 3}, {4, (u32)b, 6}, {7, 8, (u32)c}, {10, 11, 12}}, *p = &local[1 + a % 3]; p[-1].z ^= (u32)b; return p[-1].y + p->z * 3u + local[c & 3].z; }
u64 unread(u64 a, u64 b, u64 c) { u64 never; if (c & 1) never = b; return first_of(a, c & 1 ? never : a); }
u64 looked_up(u64 a, u64 b, u64 c) { static const struct triple known[3] = {{1, 2, 3}, {4, 5, 6}, {7, 8, 9}}; struct triple t = known[a % 3]; return t.y * b + t.z * c + t.x; }

/* ---- vectors */
typedef u32 four __attribute__((vector_size(16)));
typedef u8 eight __attribute__((vector_size(8)));
u64 vectors(u64 a, u64 b, u64 c) { four v = {(u32)a, (u32)b, (u32)c, 4}, w = v * 3 + (v >> 2); four m = (four)(w > v); w = (w & m) | ((v ^ 9) & ~m); return w[0] + (u64)w[1] * 5 + w[2] * 7u + w[a & 3]; }
u64 lanes(u64 a, u64 b, u64 c) { eight v = (eight)a, w = (eight)b; v = v + w * (u8)c; return (u64)__builtin_shufflevector(v, w, 0, 9, 2, 11, 7, 6, 5, 12); }
u64 neighbours(u64 a, u64 b, u64 c) { numbers[0] += (u32)a; numbers[1] += (u32)a; numbers[2] += (u32)b; numbers[3] += (u32)b; return numbers[4] + numbers[5] + numbers[6] + numbers[7] + c; }
u64 swapped_lanes(u64 a, u64 b, u64 c) { u32 x = numbers[0], y = numbers[1], z = numbers[2], w = numbers[3]; numbers[0] = w + (u32)a; numbers[1] = z; numbers[2] = y + (u32)b; numbers[3] = x; return c; }

/* ---- what is said to the optimizer alone */
u64 likely(u64 a, u64 b, u64 c) { if (__builtin_expect(a > b, 1)) return a; return __builtin_expect_with_probability(b, 3, 0.9) == 3 ? c : b; }
u64 noted(u64 a, u64 b, u64 c) { u64 kept __attribute__((annotate("a note"))) = a + b; __builtin_assume((c & 7) < 100); __builtin_prefetch(&numbers[a & 7]); return kept * c; }
APART void apart(u32 *restrict to, const u32 *restrict from) { to[0] = from[0] + 1; to[1] = from[0] + 2; }
u64 restricted(u64 a, u64 b, u64 c) { apart(&numbers[2 * (a & 1)], &numbers[4 + 2 * (b & 1)]); return c; }
u64 hidden(u64 a, u64 b, u64 c) { __asm__("" : "+r"(a)); return a * b + c; }
u64 aligned(u64 a, u64 b, u64 c) { u64 *p = __builtin_assume_aligned(&table[a & 3].c, 8); return *p + b + c; }
