/* What the fixture's firmware does between two panels: declares its streams, takes rows with the clock, loads grants, asks as a fitter and as a reseller, prints a line, and meets refusals. */
#include "maltziru.h"
#if MALTZIRU_VERSION_MAJOR != 0
#error "written for version 0 of the library"
#endif

#ifdef CHIP
void put(const char *s);
static void put_char(char c) { char b[2] = { c, 0 }; put(b); }
int main(void);
#else
#include <stdio.h>
static void put(const char *s) { fputs(s, stdout); }
static void put_char(char c) { putchar(c); }
#endif

/* All that is lent. Nothing of it needs a value at first but the names, which are 0. */
static uint64_t names[MALTZIRU_NAMES];
static uint32_t times[MALTZIRU_TIMES];
static int32_t values[MALTZIRU_VALUES];
static struct maltziru_grant grants[MALTZIRU_GRANTS];
static uint32_t words[MALTZIRU_WORDS];
static int64_t cells[MALTZIRU_ANSWER_CELLS(1, 4, MALTZIRU_ROWS)]; /* one route, three columns, a full stream */
static uint8_t bytes[MALTZIRU_LINE_BYTES];

/* All that goes from call to call. */
static struct maltziru_ledger ledger;
static struct maltziru_caller caller;
static unsigned granted;

static unsigned length(const char *s) { unsigned n = 0; while (s[n]) n++; return n; }
static const uint8_t *text(const char *s) { return (const uint8_t *)s; }
static void put_number(int64_t x) {
    char b[21];
    int i = 20;
    uint64_t n = x < 0 ? 0 - (uint64_t)x : (uint64_t)x;
    b[i] = 0;
    do { b[--i] = (char)('0' + n % 10); n /= 10; } while (n);
    if (x < 0) b[--i] = '-';
    put(b + i);
}
static void told(uint32_t refusal) {
    if (!refusal) return;
    put("refused ");
    put_number(refusal);
    put(": ");
    put(maltziru_refusal_text(refusal));
    put("\n");
}

static void stream(const char *line) { told(maltziru_stream(names, MALTZIRU_NAMES, text(line), length(line))); }
static void clock_to(int64_t time) {
    struct maltziru_ledger_reply r = maltziru_clock(ledger, time);
    ledger = r.ledger;
    told(r.refusal);
}
static void row(unsigned s, int32_t lot, int32_t unit, int32_t volts) {
    const int32_t measured[3] = { lot, unit, volts };
    struct maltziru_ledger_reply r = maltziru_row(ledger, names, MALTZIRU_NAMES, s, measured, 3, times, MALTZIRU_TIMES, values, MALTZIRU_VALUES);
    ledger = r.ledger;
    told(r.refusal);
}
static void grant(const char *line) {
    struct maltziru_grant_reply r = maltziru_grant(names, MALTZIRU_NAMES, granted, text(line), length(line), words, MALTZIRU_WORDS);
    if (!r.refusal) grants[granted++] = r.grant;
    told(r.refusal);
}
static void be(const char *line) {
    struct maltziru_caller_reply r = maltziru_caller(caller, text(line), length(line));
    caller = r.caller;
    told(r.refusal);
}
/* An answer read by its own counts. */
static void put_answer(void) {
    unsigned at = 1;
    put("routes ");
    put_number(cells[0]);
    put("\n");
    for (int64_t route = 0; route < cells[0]; route++) {
        int64_t width = cells[at + 2], rows = cells[at + 3];
        put("route ");
        for (int i = 0; i < 4; i++) { put_number(cells[at + i]); put_char(i < 3 ? ' ' : '\n'); }
        at += 4;
        for (int64_t i = 0; i < rows; i++)
            for (int64_t c = 0; c < width; c++) { put_number(cells[at++]); put_char(c + 1 < width ? ' ' : '\n'); }
    }
}
static void ask(const char *query) {
    struct maltziru_reply r = maltziru_ask(grants, granted, words, MALTZIRU_WORDS, ledger, names, MALTZIRU_NAMES, times, MALTZIRU_TIMES, values, MALTZIRU_VALUES, caller,
        text(query), length(query), cells, sizeof cells / sizeof *cells);
    told(r.refusal);
    if (!r.refusal) put_answer();
}
static void line(int64_t route, const char *query) {
    struct maltziru_reply r = maltziru_line(grants, granted, words, MALTZIRU_WORDS, ledger, names, MALTZIRU_NAMES, times, MALTZIRU_TIMES, values, MALTZIRU_VALUES, caller, route,
        text(query), length(query), bytes, sizeof bytes);
    told(r.refusal);
    for (uint32_t i = 0; !r.refusal && i < r.count; i++) put_char((char)bytes[i]);
    if (!r.refusal) put("\n");
}

int main(void) {
    ledger = maltziru_fresh();
    caller = maltziru_nobody();
    stream("(stream test lot unit volts)");
    stream("(stream pack lot unit box)");
    grant("(grant fitter read (of test) (show test.unit test.volts) (when (= test.lot self.lot)))");
    grant("(grant seller avg (of test) (show test.volts) (window 20 20))");
    grant("(grant seller read (of pack) (show *))");
    clock_to(10);
    row(0, 7, 1, 30);
    clock_to(20);
    row(0, 7, 2, -5);
    row(0, 8, 3, 40);
    clock_to(45);
    row(1, 7, 1, 900);
    clock_to(60);

    put("fitter of lot 7\n");
    be("(caller (roles fitter) (self lot 7))");
    ask("(in test)");
    line(1, "(in test)");
    ask("(pick (< test.volts 0) (in test))");
    ask("(pick (= test.lot 8) (in test))"); /* the lot is not shown to fitters */
    ask("(in pack)");

    put("reseller\n");
    be("(caller (roles seller))");
    ask("(avg test.volts 20 20 (in test))");
    ask("(avg test.volts 10 10 (in test))"); /* finer than the grant allows */
    ask("(in test)");
    ask("(in pack)");
    line(1, "(avg test.volts 20 20 (in test))");

    put("what else is refused\n");
    clock_to(59);
    row(0, 7, 4, 1);
    row(2, 7, 4, 1);
    ask("(in test");
    ask("(avg test.volts 65 1 (in test))");
    ledger.rows[0] = 129; /* no call left this */
    ask("(in pack)");
    ledger.rows[0] = 4;
    ledger = maltziru_clear(ledger).ledger;
    ask("(in pack)");
    return 0;
}
