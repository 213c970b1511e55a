/* Start of a program on a Cortex-M in qemu: output by semihosting, and the stack's high-water mark. With NEWLIB, newlib's own start follows. */
#include <stdint.h>
extern uint32_t data_from[], data_begin[], data_end[], bss_begin[], bss_end[], stack_top[];
int main(void);
void _start(void);
static void semihost(uint32_t op, const void *p) {
    register uint32_t r0 __asm__("r0") = op;
    register const void *r1 __asm__("r1") = p;
    __asm__ volatile("bkpt 0xab" : "+r"(r0) : "r"(r1) : "memory");
}
void put(const char *s) { semihost(4, s); }
void put_u(uint32_t x) {
    char b[12];
    int i = 11;
    b[11] = 0;
    do { b[--i] = '0' + x % 10; x /= 10; } while (x);
    put(b + i);
}
enum { PAINT = 0x5a5a5a5a };
static uint32_t *painted;
static uint32_t *stack_now(void) { uint32_t *p; __asm__ volatile("mov %0, sp" : "=r"(p)); return p; }
/* fills the stack below the caller */
void paint(void) {
    painted = stack_now() - 8;
    for (volatile uint32_t *p = bss_end; p < painted; p++) *p = PAINT;
}
/* how many bytes of it were written since */
uint32_t used(void) {
    uint32_t *p = bss_end;
    while (p < painted && *p == PAINT) p++;
    return (char *)painted - (char *)p;
}
void reset(void) {
    uint32_t *s = data_from;
    for (uint32_t *d = data_begin; d < data_end;) *d++ = *s++;
    for (volatile uint32_t *d = bss_begin; d < bss_end;) *d++ = 0;
#ifdef NEWLIB
    _start();
#else
    main();
#endif
    semihost(0x18, (void *)0x20026);
    for (;;) {}
}
void fault(void) {
    put("fault\n");
    semihost(0x18, (void *)0x20023);
    for (;;) {}
}
__attribute__((section(".vectors"), used)) void *vectors[16] = { stack_top, reset, fault, fault };
