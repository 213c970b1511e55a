/* What the cases share: the memory they lend, and lines made for them. */
#include "maltziru.h"
enum { LINE = MALTZIRU_LINE, NAMES = MALTZIRU_NAMES, PLACES = MALTZIRU_TIMES, VALUES = MALTZIRU_VALUES, GRANTS = MALTZIRU_GRANTS, WORDS = MALTZIRU_WORDS };
static uint64_t names[NAMES];
static uint32_t times[PLACES], words[WORDS];
static int32_t values[VALUES];
static struct maltziru_ledger ledger;
static char typed[LINE + 1];
static unsigned size;

static void add(const char *s) { while (*s && size < LINE) typed[size++] = *s++; typed[size] = 0; }
static void set(const char *s) { size = 0; add(s); }
static unsigned count(const char *s) { unsigned n = 0; while (s[n]) n++; return n; }
static const uint8_t *text(void) { return (const uint8_t *)typed; }
static void declare(const char *s) { set(s); maltziru_stream(names, NAMES, text(), size); }
/* a sum of what is left in some memory */
static uint32_t sum(uint32_t h, const void *p, unsigned n) {
    const uint8_t *b = p;
    while (n--) h = (h ^ *b++) * 16777619u;
    return h;
}
/* the same memory for each case, whichever was before */
static void clear(void *p, unsigned n) { volatile uint8_t *b = p; while (n--) *b++ = 0; }
static void begin(void) {
    clear(names, sizeof names);
    clear(times, sizeof times);
    clear(values, sizeof values);
    clear(words, sizeof words);
    ledger = maltziru_fresh();
}
