/* What a compiler for the Cortex-M0 expects of its library: copies, and arithmetic that the chip lacks. In the library they are its own and seen by nobody else (tools/chip-object). */
#include <stdint.h>
typedef uint64_t u64;
typedef uint32_t u32;
typedef unsigned char u8;

void __aeabi_memcpy4(void *to, const void *from, u32 n) {
    u32 *d = to;
    const u32 *s = from;
    for (; n >= 16; n -= 16, d += 4, s += 4) {
        u32 a = s[0], b = s[1], c = s[2], e = s[3];
        d[0] = a; d[1] = b; d[2] = c; d[3] = e;
    }
    for (; n >= 4; n -= 4) *d++ = *s++;
    u8 *p = (u8 *)d;
    const u8 *q = (const u8 *)s;
    while (n--) *p++ = *q++;
}
void __aeabi_memcpy8(void *d, const void *s, u32 n) { __aeabi_memcpy4(d, s, n); }
/* Places that are no words: a compiler splits a struct's first byte off and copies the rest. Four bytes at a time, as this is most of what reading a line takes. */
void __aeabi_memcpy(void *to, const void *from, u32 n) {
    if ((((uintptr_t)to | (uintptr_t)from) & 3) == 0) { __aeabi_memcpy4(to, from, n); return; }
    u8 *d = to;
    const u8 *s = from;
    for (; n >= 4; n -= 4, d += 4, s += 4) {
        u8 a = s[0], b = s[1], c = s[2], e = s[3];
        d[0] = a; d[1] = b; d[2] = c; d[3] = e;
    }
    while (n--) *d++ = *s++;
}
void __aeabi_memmove(void *d, const void *s, u32 n) {
    if (d <= s) { __aeabi_memcpy(d, s, n); return; }
    u8 *p = d;
    const u8 *q = s;
    while (n--) p[n] = q[n];
}
void __aeabi_memmove4(void *d, const void *s, u32 n) { __aeabi_memmove(d, s, n); }
void __aeabi_memmove8(void *d, const void *s, u32 n) { __aeabi_memmove(d, s, n); }
void __aeabi_memset(void *d, u32 n, int c) { volatile u8 *p = d; while (n--) *p++ = c; }
void __aeabi_memclr4(void *d, u32 n) {
    volatile u32 *p = d;
    for (; n >= 4; n -= 4) *p++ = 0;
    __aeabi_memset((void *)p, n, 0);
}
void __aeabi_memclr8(void *d, u32 n) { __aeabi_memclr4(d, n); }
void __aeabi_memclr(void *d, u32 n) {
    if (((uintptr_t)d & 3) == 0) __aeabi_memclr4(d, n);
    else __aeabi_memset(d, n, 0);
}

u64 __aeabi_lmul(u64 a, u64 b) {
    u32 al = a, ah = a >> 32, bl = b, bh = b >> 32;
    u32 low = (al & 0xffff) * (bl & 0xffff), m = (al >> 16) * (bl & 0xffff), n = (al & 0xffff) * (bl >> 16);
    u32 mid = m + (low >> 16), carry = mid < m;
    mid += n;
    carry += mid < n;
    u32 high = (al >> 16) * (bl >> 16) + (mid >> 16) + (carry << 16) + al * bh + ah * bl;
    return (u64)high << 32 | mid << 16 | (low & 0xffff);
}
__attribute__((used)) static u32 divide32(u32 n, u32 d, u32 *rest) {
    u32 q = 0, bit = 1;
    if (!d) { *rest = n; return 0; }
    while (d < n && !(d >> 31)) { d <<= 1; bit <<= 1; }
    for (; bit; d >>= 1, bit >>= 1) if (n >= d) { n -= d; q |= bit; }
    *rest = n;
    return q;
}
__attribute__((used)) static u64 divide64(u64 n, u64 d, u64 *rest) {
    if (!(n >> 32) && !(d >> 32)) {
        u32 r, q = divide32(n, d, &r);
        *rest = r;
        return q;
    }
    u64 q = 0, bit = 1;
    if (!d) { *rest = n; return 0; }
    while (d < n && !(d >> 63)) { d <<= 1; bit <<= 1; }
    for (; bit; d >>= 1, bit >>= 1) if (n >= d) { n -= d; q |= bit; }
    *rest = n;
    return q;
}
u32 __aeabi_uidiv(u32 n, u32 d) { u32 r; return divide32(n, d, &r); }
__attribute__((naked)) void __aeabi_uidivmod(void) {
    __asm__ volatile("push {r4, lr}\nsub sp, #8\nmov r2, sp\nbl divide32\nldr r1, [sp]\nadd sp, #8\npop {r4, pc}\n");
}
__attribute__((naked)) void __aeabi_uldivmod(void) {
    __asm__ volatile("push {r4, lr}\nsub sp, #16\nadd r4, sp, #8\nstr r4, [sp]\nbl divide64\nldr r2, [sp, #8]\nldr r3, [sp, #12]\nadd sp, #16\npop {r4, pc}\n");
}
u64 __aeabi_llsr(u64 a, int n) {
    u32 l = a, h = a >> 32;
    if (n >= 32) return h >> (n - 32);
    return n ? (u64)(h >> n) << 32 | (l >> n | h << (32 - n)) : a;
}
u64 __aeabi_llsl(u64 a, int n) {
    u32 l = a, h = a >> 32;
    if (n >= 32) return (u64)(l << (n - 32)) << 32;
    return n ? (u64)(h << n | l >> (32 - n)) << 32 | l << n : a;
}
__attribute__((used)) static int64_t divide_signed(int64_t n, int64_t d, int64_t *rest) {
    u64 r, q = divide64(n < 0 ? -(u64)n : (u64)n, d < 0 ? -(u64)d : (u64)d, &r);
    *rest = n < 0 ? -r : r;
    return (n < 0) != (d < 0) ? -q : q;
}
__attribute__((naked)) void __aeabi_ldivmod(void) {
    __asm__ volatile("push {r4, lr}\nsub sp, #16\nadd r4, sp, #8\nstr r4, [sp]\nbl divide_signed\nldr r2, [sp, #8]\nldr r3, [sp, #12]\nadd sp, #16\npop {r4, pc}\n");
}
