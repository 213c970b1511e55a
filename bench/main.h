/* Runs the cases, and prints what a call said and a sum of all it left. On x86: `cases N` runs case N, whose call alone is inside measured(). On the chip: all cases, one after another. */
#ifdef CHIP
void put(const char *s); void put_u(uint32_t x); void paint(void); uint32_t used(void);
__attribute__((noinline)) void mark_on(void) { __asm__ volatile("nop"); }
__attribute__((noinline)) void mark_off(void) { __asm__ volatile("nop"); }
#else
#include <stdio.h>
#include <stdlib.h>
#endif

#ifdef CHIP
int main(void) {
    for (int k = 0; k < SAMPLES; k++) {
        prepare(k);
        paint();
        mark_on();
        uint32_t r = measured(k);
        mark_off();
        uint32_t u = used();
        put("#"); put_u(k); put("|"); put(label(k)); put("|"); put_u(r); put("|"); put_u(u); put("|"); put_u(left(k)); put("\n");
    }
    return 0;
}
#else
int main(int n, char **a) {
    if (n < 2) { printf("%d\n", SAMPLES); return 0; }
    int k = atoi(a[1]);
    prepare(k);
    uint32_t r = measured(k);
    printf("%s|%u|%u|%u\n", label(k), size, r, left(k));
    return 0;
}
#endif
