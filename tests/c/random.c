/* Random calls, with damaged text and damaged memory among them: prints after each thousand a sum of all that the calls said and left, and at the end how often each refusal came.
 * Two builds of the library are alike on them where they print the same; tools/chip compares the chip's with this machine's. */
#include "maltziru.h"
#include <stdio.h>
#include <string.h>

enum { THOUSANDS = 20, CELLS = 1024, BYTES = 2048, TEXT = MALTZIRU_LINE + 64 };
/* all that is lent, and all that goes from call to call */
static struct lent {
    uint64_t names[MALTZIRU_NAMES];
    uint32_t times[MALTZIRU_TIMES];
    int32_t values[MALTZIRU_VALUES];
    struct maltziru_grant grants[MALTZIRU_GRANTS];
    uint32_t words[MALTZIRU_WORDS];
    struct maltziru_ledger ledger;
    struct maltziru_caller caller;
    int64_t cells[CELLS];
    uint8_t bytes[BYTES];
    unsigned granted;
} it, kept;
static unsigned refused[13];
static uint32_t sum, seed = 1;

/* Two of these never stand in one expression, as a compiler may take either first. */
static uint32_t any(uint32_t below) {
    seed ^= seed << 13;
    seed ^= seed >> 17;
    seed ^= seed << 5;
    return seed % below;
}
static int one_in(uint32_t n) { return any(n) == 0; }
static void add_to_sum(const void *p, unsigned n) {
    const uint8_t *b = p;
    while (n--) sum = (sum ^ *b++) * 16777619u;
}
static void said(uint32_t n) { add_to_sum(&n, sizeof n); }
/* all that stands in memory, but for the gaps of the caller's struct */
static void left(void) {
    add_to_sum(it.names, sizeof it.names);
    add_to_sum(it.times, sizeof it.times);
    add_to_sum(it.values, sizeof it.values);
    add_to_sum(it.grants, sizeof it.grants);
    add_to_sum(it.words, sizeof it.words);
    add_to_sum(&it.ledger, sizeof it.ledger);
    said(it.caller.roles);
    said(it.caller.entries);
    add_to_sum(it.caller.role, sizeof it.caller.role);
    add_to_sum(it.caller.name, sizeof it.caller.name);
    add_to_sum(it.caller.value, sizeof it.caller.value);
    add_to_sum(it.cells, sizeof it.cells);
    add_to_sum(it.bytes, sizeof it.bytes);
}

/* ---- texts */

static char text[TEXT];
static unsigned size;
static const char *scope[2]; /* the streams that a condition is mostly about */
static int in_grant;
static void put(const char *s) { while (*s && size < TEXT) text[size++] = *s++; }
#define ONE_OF(...) (((const char *const[]){ __VA_ARGS__ })[any(sizeof((const char *const[]){ __VA_ARGS__ }) / sizeof(char *))])
static const char *a_stream(void) { return one_in(50) ? "none" : ONE_OF("a", "b", "c"); }
static void put_column(void) {
    put(one_in(50) ? a_stream() : scope[any(2)]);
    put(one_in(60) ? ".z" : ONE_OF(".x", ".y"));
}
static void put_number(void) { put(one_in(60) ? ONE_OF("2147483648", "-2147483648", "2147483647", "-0", "01", "99999999999") : ONE_OF("0", "1", "2", "3", "5", "-1", "7", "64")); }
static void put_list(const char *head, void (*item)(void), unsigned least, unsigned most) {
    put(head);
    for (unsigned n = least + any(most - least + 1); n; n--) { put(" "); item(); }
    put(")");
}
static void put_compare(void) {
    put(ONE_OF("(= ", "(/= ", "(< ", "(<= ", "(> ", "(>= "));
    if (!in_grant && one_in(5)) put("time"); else put_column();
    put(" ");
    if (one_in(3)) put_column(); else if (in_grant && one_in(3)) put(ONE_OF("self.p", "self.q")); else put_number();
    put(")");
}
static void put_condition(void) {
    static unsigned depth;
    if (depth > 3 || !one_in(4)) { put_compare(); return; }
    depth++;
    if (one_in(3)) { put("(not "); put_condition(); put(")"); } else put_list(ONE_OF("(and", "(or"), put_condition, 1, 3);
    depth--;
}
/* one stream's rows, with picks and keeps */
static void put_table(const char *s) {
    static unsigned depth;
    if (depth > 3 || one_in(2)) { put("(in "); put(s); put(")"); return; }
    depth++;
    if (one_in(4)) { put("(keep "); put(s); put(".x "); put(s); put(".y "); } else { put("(pick "); put_condition(); put(" "); }
    put_table(s);
    put(")");
    depth--;
}
static void put_tables(const char *s, const char *t) {
    if (one_in(2)) { put_table(s); return; }
    put("(join (= "); put(s); put(ONE_OF(".x ", ".y ")); put(t); put(ONE_OF(".x) ", ".y) "));
    scope[1] = s;
    put_table(s);
    put(" ");
    scope[0] = scope[1] = t;
    put_table(t);
    put(")");
}
static void put_query(void) {
    const int above = one_in(9), figures = one_in(3), pick = one_in(3);
    const char *s = a_stream(), *t = a_stream();
    scope[0] = scope[1] = s;
    if (above) { put("(pick ("); put(ONE_OF("> figure 1", "< time 40", "/= figure -1")); put(") "); }
    if (figures) {
        put(ONE_OF("(min ", "(max ", "(count ", "(avg ", "(sum "));
        put(s);
        put(ONE_OF(".x ", ".y "));
        put(ONE_OF("1 1 ", "3 1 ", "5 2 ", "64 1 ", "10 10 ", "65 1 ", "64 64 "));
    }
    if (pick) { put("(pick "); put_condition(); put(" "); }
    put_tables(s, t);
    for (int n = above + figures + pick; n; n--) put(")");
}
static void put_grant(void) {
    const int pair = one_in(4);
    const char *s = a_stream(), *t = a_stream();
    scope[0] = scope[1] = s;
    if (pair) scope[1] = t;
    put("(grant ");
    put(ONE_OF("r ", "s "));
    put(ONE_OF("read ", "read ", "read ", "min ", "max ", "count ", "avg ", "sum "));
    put("(of "); put(s);
    if (pair) { put(" "); put(t); }
    put(") ");
    if (one_in(2)) put("(show *)"); else put_list("(show", put_column, 1, 2);
    in_grant = 1;
    if (one_in(2)) {
        put(" (when");
        if (pair) { put(" (= "); put(s); put(".x "); put(t); put(ONE_OF(".x)", ".y)")); }
        put_list("", put_condition, 1, 3);
    }
    in_grant = 0;
    if (one_in(8)) { put(" (from "); put_number(); put(")"); }
    if (one_in(8)) { put(" (to "); put(ONE_OF("3", "9", "40", "900")); put(")"); }
    if (one_in(9)) { put(" (window "); put_number(); put(" "); put_number(); put(")"); }
    put(")");
}
static void put_role(void) { put(ONE_OF("r", "s", "t", "u")); }
static void put_caller(void) {
    put("(caller ");
    if (one_in(2)) put("(roles r s)"); else put_list("(roles", put_role, 0, 2);
    if (!one_in(3)) { put(" (self p "); put_number(); put(")"); }
    if (!one_in(3)) { put(" (self q "); put_number(); put(")"); }
    put(")");
}
static void put_row(void) { put("(row "); put(a_stream()); put_list("", put_number, 1, 3); }
static void put_stream_line(void) { put("(stream "); put(ONE_OF("a", "d", "e")); put(ONE_OF(" x)", " x y)", " x y", " x y z)", " x x)", " a b c d e f g)", " time)")); }
/* the text as it is, or with a byte changed, taken off or far too many of them */
static void spoil(void) {
    if (!size || !one_in(30)) return;
    const unsigned at = any(size);
    if (one_in(3)) size = at;
    else if (one_in(4)) while (size <= MALTZIRU_LINE) put(" ");
    else text[at] = "() .a1-=\n"[any(9)];
}

/* ---- calls */

enum kind { STREAM, CLOCK, ROW, ROW_LINE, CLOCK_LINE, CLEAR, CLEAR_LINE, GRANT, CALLER, ASK, LINE };
static void counted(uint32_t refusal) {
    if (refusal < 13) refused[refusal]++;
    said(refusal);
}
static void ledger_is(struct maltziru_ledger_reply r) { counted(r.refusal); it.ledger = r.ledger; }
static void granted_is(struct maltziru_grant_reply r) {
    counted(r.refusal);
    if (!r.refusal) it.grants[it.granted++] = r.grant;
}
static void caller_is(struct maltziru_caller_reply r) { counted(r.refusal); it.caller = r.caller; }
static void replied(struct maltziru_reply r) { counted(r.refusal); said(r.count); }
static void call(enum kind kind) {
    const uint8_t *t = (const uint8_t *)text;
    const uint32_t n = any(12), m = any(3), v = any(6);
    const int32_t row[3] = { (int32_t)v, (int32_t)n - 4, 1 };
    switch (kind) {
    case STREAM: counted(maltziru_stream(it.names, MALTZIRU_NAMES, t, size)); break;
    case CLOCK: ledger_is(maltziru_clock(it.ledger, (int64_t)it.ledger.clock + n - 1)); break;
    case ROW: ledger_is(maltziru_row(it.ledger, it.names, MALTZIRU_NAMES, v ? m : v + n, row, 2 + (n == 0), it.times, MALTZIRU_TIMES, it.values, MALTZIRU_VALUES)); break;
    case ROW_LINE: ledger_is(maltziru_row_line(it.ledger, it.names, MALTZIRU_NAMES, t, size, it.times, MALTZIRU_TIMES, it.values, MALTZIRU_VALUES)); break;
    case CLOCK_LINE: ledger_is(maltziru_clock_line(it.ledger, t, size)); break;
    case CLEAR: ledger_is(maltziru_clear(it.ledger)); break;
    case CLEAR_LINE: ledger_is(maltziru_clear_line(it.ledger, t, size)); break;
    case GRANT: granted_is(maltziru_grant(it.names, MALTZIRU_NAMES, it.granted, t, size, it.words, MALTZIRU_WORDS)); break;
    case CALLER: caller_is(maltziru_caller(it.caller, t, size)); break;
    case ASK:
        replied(maltziru_ask(it.grants, it.granted, it.words, MALTZIRU_WORDS, it.ledger, it.names, MALTZIRU_NAMES, it.times, MALTZIRU_TIMES, it.values, MALTZIRU_VALUES, it.caller, t, size, it.cells,
            n ? CELLS : v));
        break;
    case LINE:
        replied(maltziru_line(it.grants, it.granted, it.words, MALTZIRU_WORDS, it.ledger, it.names, MALTZIRU_NAMES, it.times, MALTZIRU_TIMES, it.values, MALTZIRU_VALUES, it.caller, m + 1, t, size, it.bytes,
            n ? BYTES : 60));
    }
}
static void put_text(enum kind kind) {
    size = 0;
    switch (kind) {
    case STREAM: put_stream_line(); break;
    case ROW_LINE: put_row(); break;
    case CLOCK_LINE: put("(clock "); put_number(); put(")"); break;
    case CLEAR_LINE: put("(clear)"); break;
    case GRANT: put_grant(); break;
    case CALLER: put_caller(); break;
    case ASK: case LINE: put_query(); break;
    default: return;
    }
    spoil();
}
static void done(enum kind kind, const char *line) { size = 0; put(line); call(kind); }
/* three streams, at times one of them nearly full, and at times more grants than a join may have routes */
static void fresh(void) {
    memset(&it, 0, sizeof it);
    it.ledger = maltziru_fresh();
    it.caller = maltziru_nobody();
    done(STREAM, "(stream a x y)");
    done(STREAM, "(stream b x y)");
    done(STREAM, "(stream c x y)");
    done(CALLER, "(caller (roles r s) (self p 1) (self q 2))");
    done(GRANT, "(grant r read (of a) (show *))");
    if (one_in(4)) for (unsigned i = 0; i < 9; i++) done(GRANT, i % 2 ? "(grant r read (of a) (show *))" : "(grant r read (of b) (show *))");
    if (one_in(3)) for (unsigned i = 0; i < 120; i++) done(ROW_LINE, ONE_OF("(row a 1 2)", "(row a 2 3)", "(row a 3 -1)"));
}
/* a word or a bit of what is lent is changed for one call, and then all is as it was before it */
static void damaged_call(enum kind kind) {
    const uint32_t what = any(6), at = any(1000), by = any(300), bit = any(8);
    kept = it;
    switch (what) {
    case 0: it.names[at % MALTZIRU_NAMES] = by; break;
    case 1: it.times[at % MALTZIRU_TIMES] = by < 99 ? by : UINT32_MAX; break;
    case 2: it.words[at % (MALTZIRU_GRANT_WORDS * 4)] ^= 1u << by % 32; break;
    case 3: ((uint8_t *)&it.grants[at % 4])[by % sizeof *it.grants] ^= (uint8_t)(1u << bit); break;
    case 4: it.ledger.rows[at % 4] = by; break;
    default: it.caller.roles = at % 9; it.caller.entries = by % 9;
    }
    call(kind);
    left();
    it = kept;
}

int main(void) {
    static const enum kind kinds[] = { STREAM, CLOCK, CLOCK, ROW, ROW, ROW, ROW, ROW_LINE, CLOCK_LINE, GRANT, GRANT, CALLER, ASK, ASK, ASK, ASK, ASK, ASK, LINE, LINE, LINE };
    for (unsigned n = 0; n < THOUSANDS * 1000; n++) {
        enum kind kind = kinds[any(sizeof kinds / sizeof *kinds)];
        if (one_in(300)) kind = one_in(2) ? CLEAR : CLEAR_LINE;
        if (n % 200 == 0) fresh();
        put_text(kind);
        if (one_in(12)) damaged_call(kind); else call(kind);
        if (n % 8 == 7) left();
        if (n % 1000 == 999) printf("%u calls: %08lx\n", n + 1, (unsigned long)sum);
    }
    int missing = 0;
    for (unsigned i = 0; i < 13; i++) {
        printf("%s%u: %u", i ? ", " : "", i, refused[i]);
        missing |= !refused[i];
    }
    printf(missing ? "\na refusal never came\n" : "\n");
    return missing;
}
