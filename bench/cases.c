/* The calls that write the record and the catalogue, at typical and at their worst inputs. */
#include "driver.h"

/* a head, as many items as fit, and a tail */
static void fill(const char *head, const char *item, const char *tail) {
    set(head);
    while (size + count(item) + count(tail) <= LINE) add(item);
    add(tail);
}
static void full_record(void) {
    for (int s = 0; s < 4; s++) ledger.rows[s] = s ? 128 : 127;
    ledger.clock = 9;
    for (int i = 0; i < PLACES; i++) times[i] = i % 128 / 16;
}

static void deep(void) {
    int k = 0;
    set("(grant a min (of a) (show *) (when ");
    while (size + 4 + k + 1 + 9 + 2 <= LINE) { add("(or "); k++; }
    add("(= a.a 1)");
    while (k--) add(")");
    add("))");
}
static void tail(void) {
    set("(grant a min (of a) (show *) (when");
    while (size + 10 + 37 <= LINE) add(" (= a.a 1)");
    add(" (or (or (or (or (or (= a.a 1))))))");
    add("))");
}
static void entries(void) {
    char item[] = " self.aa";
    set("(grant a min (of a) (show");
    for (int i = 0; size + 8 + 2 <= LINE; i++) { item[6] = 'a' + i / 26; item[7] = 'a' + i % 26; add(item); }
    add("))");
}

struct sample { const char *label; void (*make)(void); int call; };
enum { NONE, GRANT, DECLARE, ROW, ROW_LINE, CLOCK, CLOCK_LINE, CLEAR, CLEAR_LINE, CALLER, FRESH, NOBODY };
static void typical(void) { set("(grant fitter read (of test) (show test.unit test.volts) (when (= test.lot self.lot)))"); }
static void no_line(void) { set(""); }
static void wide(void) { fill("(grant a min (of a) (show *) (when", " (= a.a 1)", "))"); }
static void comb(void) { fill("(grant a min (of a) (show *) (when", " (or (or (or (or (or (= a.a 1))))))", "))"); }
static void last_name(void) { fill("(grant a min (of ready) (show *) (when", " (= ready.ms ready.ms)", "))"); }
static void columns(void) { fill("(grant a min (of a) (show", " a.a", "))"); }
static void last_columns(void) { fill("(grant a min (of ready) (show", " ready.ms", "))"); }
static void streams(void) { fill("(grant a min (of", " a", ") (show *))"); }
static void digits(void) { fill("(grant a min (of a) (show *) (from ", "9", "))"); }
static void stream_line(void) { set("(stream last lot unit volts)"); }
static void stream_columns(void) { fill("(stream last", " a", ")"); }
static void row_line(void) { full_record(); set("(row test 7 1 30)"); }
static void row_values(void) { full_record(); fill("(row test", " 1", ")"); }
static void row_call(void) { full_record(); }
static void clock_line(void) { set("(clock 12345)"); }
static void clock_digits(void) { fill("(clock ", "9", ")"); }
static void clear_line(void) { set("(clear)"); }
static void clear_word(void) { fill("(clear", "a", ")"); }
static void caller_line(void) { set("(caller (roles fitter) (self lot 7))"); }
static void caller_roles(void) { fill("(caller (roles", " a", "))"); }
static void caller_entries(void) { fill("(caller (roles)", " (self a 1)", ")"); }

static const struct sample samples[] = {
    { "nothing", no_line, NONE },
    { "grant line, typical (86 bytes, one condition)", typical, GRANT },
    { "grant line, many comparisons", wide, GRANT },
    { "grant line, combs of `or`", comb, GRANT },
    { "grant line, comparisons and five nested `or`", tail, GRANT },
    { "grant line, 102 nested `or` (refused)", deep, GRANT },
    { "grant line, comparisons of a late column", last_name, GRANT },
    { "grant line, many columns (refused)", columns, GRANT },
    { "grant line, many columns of a late stream (refused)", last_columns, GRANT },
    { "grant line, many entries shown (refused)", entries, GRANT },
    { "grant line, many streams (refused)", streams, GRANT },
    { "grant line, a long number (refused)", digits, GRANT },
    { "stream line", stream_line, DECLARE },
    { "stream line, many columns (refused)", stream_columns, DECLARE },
    { "row call, 511 rows", row_call, ROW },
    { "row line, 511 rows", row_line, ROW_LINE },
    { "row line, many values (refused)", row_values, ROW_LINE },
    { "clock call", no_line, CLOCK },
    { "clock line", clock_line, CLOCK_LINE },
    { "clock line, a long number (refused)", clock_digits, CLOCK_LINE },
    { "clear call", no_line, CLEAR },
    { "clear line", clear_line, CLEAR_LINE },
    { "clear line, a long word (refused)", clear_word, CLEAR_LINE },
    { "caller line", caller_line, CALLER },
    { "caller line, many roles (refused)", caller_roles, CALLER },
    { "caller line, many entries (refused)", caller_entries, CALLER },
    { "a fresh ledger", no_line, FRESH },
    { "a caller of no role", no_line, NOBODY },
};
enum { SAMPLES = sizeof samples / sizeof *samples };

static void prepare(int k) {
    begin();
    declare("(stream test lot unit volts)");
    declare("(stream a a)");
    declare("(stream pack lot label unit crate shift line)");
    if (samples[k].call != DECLARE) declare("(stream ready lot unit ms)");
    samples[k].make();
}
__attribute__((noinline)) uint32_t measured(int k) {
    static const int32_t three[3] = { 7, 1, 30 };
    switch (samples[k].call) {
    case GRANT: return maltziru_grant(names, NAMES, 23, text(), size, words, WORDS).refusal;
    case DECLARE: return maltziru_stream(names, NAMES, text(), size);
    case ROW: return maltziru_row(ledger, names, NAMES, 0, three, 3, times, PLACES, values, VALUES).refusal;
    case ROW_LINE: return maltziru_row_line(ledger, names, NAMES, text(), size, times, PLACES, values, VALUES).refusal;
    case CLOCK: return maltziru_clock(ledger, 5).refusal;
    case CLOCK_LINE: return maltziru_clock_line(ledger, text(), size).refusal;
    case CLEAR: return maltziru_clear(ledger).refusal;
    case CLEAR_LINE: return maltziru_clear_line(ledger, text(), size).refusal;
    case CALLER: return maltziru_caller(maltziru_nobody(), text(), size).refusal;
    case FRESH: return maltziru_fresh().clock;
    case NOBODY: return maltziru_nobody().roles;
    default: return 0;
    }
}

static uint32_t left(int k) { (void)k; return sum(sum(sum(sum(1, names, sizeof names), times, sizeof times), values, sizeof values), words, sizeof words); }
static const char *label(int k) { return samples[k].label; }
#include "main.h"
