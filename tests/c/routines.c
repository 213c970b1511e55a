/* The copy and division routines that the chip's library brings (tools/chip-runtime.c), at random numbers and places: prints a sum of their results.
 * tools/chip compares it with that of this machine's own. */
#include <stdint.h>
#ifdef CHIP
void put(const char *s); void put_u(uint32_t x);
#define ROUTINES(f) f(copy, __aeabi_memcpy, 1) f(copy_words, __aeabi_memcpy4, 4) f(copy_pairs, __aeabi_memcpy8, 8) \
    f(move, __aeabi_memmove, 1) f(move_words, __aeabi_memmove4, 4) f(move_pairs, __aeabi_memmove8, 8)
#define DECLARED(name, routine, step) void routine(void *, const void *, unsigned);
ROUTINES(DECLARED)
void __aeabi_memset(void *, unsigned, int);
void __aeabi_memclr(void *, unsigned);
void __aeabi_memclr4(void *, unsigned);
void __aeabi_memclr8(void *, unsigned);
#else
#include <stdio.h>
#include <string.h>
static void put(const char *s) { fputs(s, stdout); }
static void put_u(uint32_t x) { printf("%lu", (unsigned long)x); }
#define __aeabi_memset(d, n, c) memset(d, c, n)
#define __aeabi_memclr(d, n) memset(d, 0, n)
#define __aeabi_memclr4(d, n) memset(d, 0, n)
#define __aeabi_memclr8(d, n) memset(d, 0, n)
#define ROUTINES(f) f(copy, memcpy, 1) f(copy_words, memcpy, 4) f(copy_pairs, memcpy, 8) f(move, memmove, 1) f(move_words, memmove, 4) f(move_pairs, memmove, 8)
#endif
enum { ROUNDS = 20000, ROOM = 96 };

static uint32_t sum = 1, seed = 1;
static uint32_t any(void) {
    seed ^= seed << 13;
    seed ^= seed >> 17;
    seed ^= seed << 5;
    return seed;
}
static void add(uint64_t x) { sum = ((sum ^ (uint32_t)x) * 16777619u ^ (uint32_t)(x >> 32)) * 16777619u; }
/* a number of any width, with ones or zeros in front, and at times at the end of its range */
static uint64_t wide(void) {
    const uint64_t high = any(), low = any(), by = any();
    const uint64_t x = (high << 32 | low) >> by % 64;
    return by & 64 ? x : by & 128 ? ~x : by & 256 ? x & 3 : x;
}

/* apart, or a compiler takes a rest from the quotient */
#define RESTS(f) f(rest, uint64_t) f(rest_small, uint32_t) f(rest_signed, int64_t)
#define REST(name, type) static __attribute__((noinline)) type name(type a, type b) { return a % b; }
RESTS(REST)
static void numbers(void) {
    const uint64_t a = wide(), b = wide();
    const uint32_t n = any() % 64, x = (uint32_t)a, y = (uint32_t)b;
    add(a * b);
    add(a << n);
    add(a >> n);
    if (b) { add(a / b); add(rest(a, b)); }
    if (y) { add(x / y); add(rest_small(x, y)); }
    if (b && !(b == UINT64_MAX && a == 1ull << 63)) { add((uint64_t)((int64_t)a / (int64_t)b)); add((uint64_t)rest_signed((int64_t)a, (int64_t)b)); }
}

static _Alignas(8) uint8_t from[ROOM], to[ROOM];
static void filled(void) { for (int i = 0; i < ROOM; i++) { from[i] = (uint8_t)any(); to[i] = (uint8_t)any(); } }
static void left(void) { for (int i = 0; i < ROOM; i++) { add(from[i]); add(to[i]); } }
/* between two places, or within one where it may overlap: at any place that is a multiple of a step */
#define TRIED(name, routine, step) \
    static void name(int within) { \
        const uint32_t at = any() % 32 / step * step, by = any() % 32 / step * step, n = any() % 50; \
        routine((within ? from : to) + at, from + by, n); \
    }
ROUTINES(TRIED)
static void copies(void) {
    filled();
    copy(0); copy_words(0); copy_pairs(0);
    move(1); move_words(1); move_pairs(1); move(0);
    left();
    const uint32_t at = any() % 32, n = any() % 50;
    __aeabi_memset(to + at, n, (int)(any() & 255));
    __aeabi_memclr(from + n, at);
    left();
    filled();
    __aeabi_memclr4(to + at / 4 * 4, n);
    __aeabi_memclr8(from + at / 8 * 8, n);
    left();
}

int main(void) {
    for (int i = 0; i < ROUNDS; i++) {
        numbers();
        if (i % 8 == 0) copies();
    }
    put_u(sum);
    put("\n");
    return 0;
}
