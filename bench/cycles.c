/* A plugin of qemu (Debian's 7.2, whose package has no header for it): instructions and cycles of a Cortex-M0 from each run of the function at `on` to the next of that at `off`, a line each into `out`.
 * Cycles are those of ARM's manual of the Cortex-M0 for each instruction that is run: memory never makes the chip wait, no interrupt comes; a product takes `product` cycles, 1 or 32 by the chip. */
#include <stddef.h>
#include <stdint.h>
#include <stdio.h>
#include <stdlib.h>
#include <string.h>

struct qemu_plugin_tb;
struct qemu_plugin_insn;
void qemu_plugin_register_vcpu_tb_trans_cb(uint64_t id, void (*made)(uint64_t, struct qemu_plugin_tb *));
void qemu_plugin_register_vcpu_tb_exec_cb(struct qemu_plugin_tb *, void (*run)(unsigned, void *), int flags, void *);
void qemu_plugin_register_atexit_cb(uint64_t id, void (*ended)(uint64_t, void *), void *);
size_t qemu_plugin_tb_n_insns(const struct qemu_plugin_tb *);
struct qemu_plugin_insn *qemu_plugin_tb_get_insn(const struct qemu_plugin_tb *, size_t);
const void *qemu_plugin_insn_data(const struct qemu_plugin_insn *);
uint64_t qemu_plugin_insn_vaddr(const struct qemu_plugin_insn *);
int qemu_plugin_version = 1;

/* Instructions that are run one after another: from where, up to where, how many, their cycles where no branch is taken at the end, and whether one may be. */
struct block { uint32_t from, to, instructions, cycles; int may_branch; };
static uint32_t on, off;
static unsigned product = 1;
static FILE *out;
static int counting;
static uint64_t instructions, cycles;
static const struct block *last;

static int ones(unsigned x) { return __builtin_popcount(x); }
/* by an instruction's first half: qemu's own size of the last one before a page's end counts the next one in */
static unsigned size_of(unsigned x) { return (x & 0xf800) >= 0xe800 ? 4 : 2; }
static int is_conditional(unsigned x) { return (x & 0xf000) == 0xd000 && (x & 0x0e00) != 0x0e00; }
static unsigned cost(unsigned x) {
    if (size_of(x) == 4) return 4;                        /* BL, MRS, MSR, barriers */
    if ((x & 0xffc0) == 0x4340) return product;           /* MULS */
    if ((x & 0xf800) == 0xe000) return 3;                 /* B */
    if ((x & 0xff00) == 0x4700) return 3;                 /* BX, BLX */
    if ((x & 0xfd87) == 0x4487) return 3;                 /* ADD and MOV to the program counter */
    if ((x & 0xf800) == 0x4800) return 2;                 /* LDR of a constant */
    if ((x & 0xf000) == 0x5000 || (x & 0xe000) == 0x6000 || (x & 0xe000) == 0x8000) return 2; /* LDR, STR and their kin */
    if ((x & 0xff00) == 0xbd00) return 4 + ones(x & 0x1ff); /* POP with the program counter */
    if ((x & 0xf600) == 0xb400) return 1 + ones(x & 0x1ff); /* PUSH, POP */
    if ((x & 0xf000) == 0xc000) return 1 + ones(x & 0xff);  /* LDM, STM */
    return 1;
}

static void run(unsigned cpu, void *p) {
    const struct block *b = p;
    (void)cpu;
    if (counting && last && last->may_branch && b->from != last->to) cycles += 2;
    if (b->from == on) {
        counting = 1;
        instructions = cycles = 0;
        last = NULL;
        return;
    }
    if (counting && b->from == off) {
        fprintf(out, "%llu %llu\n", (unsigned long long)instructions, (unsigned long long)cycles);
        counting = 0;
    }
    if (!counting) return;
    instructions += b->instructions;
    cycles += b->cycles;
    last = b;
}
static void made(uint64_t id, struct qemu_plugin_tb *tb) {
    struct block *b = calloc(1, sizeof *b);
    (void)id;
    if (!b) abort();
    b->instructions = (uint32_t)qemu_plugin_tb_n_insns(tb);
    for (size_t i = 0; i < b->instructions; i++) {
        const struct qemu_plugin_insn *x = qemu_plugin_tb_get_insn(tb, i);
        uint16_t half;
        memcpy(&half, qemu_plugin_insn_data(x), sizeof half);
        if (!i) b->from = (uint32_t)qemu_plugin_insn_vaddr(x);
        b->to = (uint32_t)qemu_plugin_insn_vaddr(x) + size_of(half);
        b->cycles += cost(half);
        b->may_branch = is_conditional(half);
    }
    qemu_plugin_register_vcpu_tb_exec_cb(tb, run, 0, b);
}
static void ended(uint64_t id, void *p) { (void)id; (void)p; fclose(out); }

int qemu_plugin_install(uint64_t id, const void *about, int count, char **given) {
    (void)about;
    for (int i = 0; i < count; i++) {
        if (!strncmp(given[i], "on=", 3)) on = (uint32_t)strtoul(given[i] + 3, NULL, 16) & ~1u;
        if (!strncmp(given[i], "off=", 4)) off = (uint32_t)strtoul(given[i] + 4, NULL, 16) & ~1u;
        if (!strncmp(given[i], "product=", 8)) product = (unsigned)atoi(given[i] + 8);
        if (!strncmp(given[i], "out=", 4)) out = fopen(given[i] + 4, "w");
    }
    if (!on || !off || !out) return -1;
    qemu_plugin_register_vcpu_tb_trans_cb(id, made);
    qemu_plugin_register_atexit_cb(id, ended, NULL);
    return 0;
}
