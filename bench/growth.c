/* Queries that grow: in the rows of their streams, the grants, the windows of a row, and their text. */
#include "fixtures.h"

/* a number as text, at the end of the room for it */
static const char *digits(unsigned n) {
    static char s[11];
    char *p = s + 10;
    do { *--p = (char)('0' + n % 10); n /= 10; } while (n);
    return p;
}
static void rows_scan(int n) { scan(); ledger.rows[0] = n; }
static void rows_join(int n) { joined(); ledger.rows[0] = ledger.rows[1] = n; }
static const char *OWN = "(grant fitter read (of test) (show test.unit test.volts) (when (= test.lot self.lot)))";
static const char *OTHER = "(grant seller avg (of test) (show test.volts) (window 60 60))";
static void grants_one(int n) {
    fixture();
    while (n-- > 1) grant(OTHER);
    grant(OWN);
    set("(pick (< test.volts 200) (in test))");
}
static void grants_all(int n) {
    fixture();
    while (n-- > 0) grant(OWN);
    set("(pick (< test.volts 200) (in test))");
}
static void windows(const char *f, int n) { set("("); add(f); add(" test.volts "); add(digits((unsigned)n)); add(" 1 (in test))"); }
static void windows_dense(int n) { overlapping(); windows("avg", n); }
static void windows_sparse(int n) { gaps(); windows("avg", n); }
static void windows_greatest(int n) { overlapping(); windows("max", n); }
/* a pick of n comparisons that every row passes */
static void text_rows(int n) {
    one_grant();
    set(n ? "(pick (and" : "(in test)");
    for (int i = 0; i < n; i++) add(" (< test.volts 200)");
    if (n) add(") (in test))");
}
static void text_alone(int n) { text_rows(n); ledger.rows[0] = 0; }

/* the axis, the curve, and its points up to -1; of text the point is how many comparisons, and its place on the axis the bytes */
struct curve { const char *axis, *name; void (*make)(int n); int points[8]; };
static const struct curve curves[] = {
    { "rows of a stream", "scan", rows_scan, { 0, 16, 32, 64, 128, -1 } },
    { "rows of a stream", "join of two", rows_join, { 0, 16, 32, 64, 128, -1 } },
    { "grants", "one open", grants_one, { 1, 2, 4, 8, 16, 24, -1 } },
    { "grants", "all open", grants_all, { 1, 2, 4, 8, 16, -1 } },
    { "windows of a row", "averages, rows 1 apart", windows_dense, { 1, 2, 4, 8, 16, 32, 64, -1 } },
    { "windows of a row", "averages, rows 15 apart", windows_sparse, { 1, 2, 4, 8, 16, 32, 64, -1 } },
    { "windows of a row", "greatest, rows 1 apart", windows_greatest, { 1, 2, 4, 8, 16, 32, 64, -1 } },
    { "bytes of text", "128 rows", text_rows, { 0, 1, 2, 4, 8, 16, 25, -1 } },
    { "bytes of text", "no rows", text_alone, { 0, 1, 2, 4, 8, 16, 25, -1 } },
};
enum { CURVES = sizeof curves / sizeof *curves, SAMPLES = 1 + 5 + 5 + 6 + 5 + 7 + 7 + 7 + 7 + 7 };
static const struct curve *on;
static int point;

/* the first of all is no call */
static void find(int k) {
    on = 0;
    for (int c = 0; k > 0 && c < CURVES; c++)
        for (int i = 0; curves[c].points[i] >= 0; i++)
            if (--k == 0) { on = &curves[c]; point = on->points[i]; }
}
static void prepare(int k) {
    begin();
    clear(cells, sizeof cells);
    granted = 0;
    find(k);
    if (on) on->make(point);
}
static __attribute__((noinline)) uint32_t ask(void) {
    struct maltziru_reply r = maltziru_ask(grants, granted, words, WORDS, ledger, names, NAMES, times, PLACES, values, VALUES, who, text(), size, cells, CELLS);
    return r.refusal ? r.refusal : r.count;
}
/* from the same place of the stack whatever is below it: copies there cost a little more or less by their place */
#ifdef __clang__
__attribute__((noinline))
#else
__attribute__((noipa))
#endif
uint32_t measured(int k) {
    _Alignas(64) volatile uint32_t r = k ? ask() : 0;
    return r;
}
static uint32_t left(int k) { (void)k; return sum(1, cells, sizeof cells); }
static char *joined_to(char *p, const char *s) { while (*s) *p++ = *s++; return p; }
static const char *label(int k) {
    static char s[64] = "nothing";
    (void)k;
    if (!on) return s;
    char *p = joined_to(joined_to(s, on->axis), "; ");
    p = joined_to(joined_to(p, on->name), "; ");
    *joined_to(p, digits((unsigned)point)) = 0;
    return s;
}
#include "main.h"
