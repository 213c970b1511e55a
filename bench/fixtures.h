/* Records, grants and queries that more than one file asks about. */
#include "driver.h"
enum { CELLS = 4096 };
static struct maltziru_grant grants[GRANTS];
static struct maltziru_caller who;
static unsigned granted;
static int64_t cells[CELLS];

static void grant(const char *s) {
    set(s);
    grants[granted] = maltziru_grant(names, NAMES, granted, text(), size, words, WORDS).grant;
    granted++;
}
static void caller(const char *s) { set(s); who = maltziru_caller(maltziru_nobody(), text(), size).caller; }
/* n rows of a stream, at times first + i * num / den, columns by a rule */
static void rows(int s, int n, uint32_t first, uint32_t num, uint32_t den, int32_t (*value)(int i, int c)) {
    ledger.rows[s] = n;
    for (int i = 0; i < n; i++) {
        times[s * 128 + i] = first + i * num / den;
        for (int c = 0; c < 6; c++) values[(s * 128 + i) * 6 + c] = value(i, c);
    }
}
static int32_t measure(int i, int c) { return c == 0 ? 7 + i % 4 : c == 1 ? i : i * 37 % 101 - 20; }
static int32_t later_unit(int i, int c) { return c == 1 ? i + 28 : i % 3 + c; }
static int32_t ranked(int i, int c) { return c == 1 ? i : i * 31 % 128; }

/* the streams of the example, the first full; the clock stands some time after its last row */
static void fixture(void) {
    declare("(stream test lot unit volts)");
    ledger.clock = 1200;
    rows(0, 128, 1000, 1, 1, measure);
    caller("(caller (roles fitter) (self lot 7))");
}
static void pairs(void) {
    fixture();
    declare("(stream pack lot unit label)");
    rows(1, 128, 1000, 1, 1, later_unit);
}
static void one_grant(void) { fixture(); grant("(grant fitter read (of test) (show *))"); }
static void scan(void) { one_grant(); rows(0, 128, 1000, 1, 1, ranked); set("(pick (and (< test.volts 64) (>= test.unit 0) (/= test.lot 200)) (in test))"); }
static void joined(void) { pairs(); grant("(grant fitter read (of test) (show *))"); grant("(grant fitter read (of pack) (show *))"); set("(join (= test.unit pack.unit) (in test) (in pack))"); }
static void overlapping(void) { one_grant(); set("(avg test.volts 64 1 (in test))"); }
static void gaps(void) { overlapping(); ledger.clock = 2017; rows(0, 128, 48, 15, 1, measure); }
static void tumbling(void) { one_grant(); ledger.clock = 2700; rows(0, 128, 960, 27, 2, measure); set("(sum test.volts 64 64 (in test))"); }
static void refused(void) { one_grant(); caller("(caller (roles))"); set("(in test)"); }
static void sixteen(void) {
    fixture();
    for (int i = 0; i < 8; i++) grant("(grant seller avg (of test) (show test.volts) (window 60 60))");
    for (int i = 0; i < 16; i++) grant("(grant fitter read (of test) (show test.unit test.volts) (when (= test.lot self.lot)))");
    set("(pick (< test.volts 200) (in test))");
}
