/* The header against the library, which nothing else compares: sizes and places of the structs, the amounts to lend, how many cells an answer has, and the refusals' numbers. */
#include "maltziru.h"
#include <stdio.h>
#include <string.h>

static int checks, failures;
#define CHECK(x) do { checks++; if (!(x)) { printf("layout.c:%d: %s\n", __LINE__, #x); failures++; } } while (0)

#if MALTZIRU_VERSION < 9 || MALTZIRU_VERSION / 1000 != MALTZIRU_VERSION_MAJOR || MALTZIRU_VERSION % 1000 != MALTZIRU_VERSION_MINOR
#error "a program cannot tell the version"
#endif

_Static_assert(sizeof(struct maltziru_ledger) == 20, "ledger");
_Static_assert(sizeof(struct maltziru_grant) == 56, "grant");
_Static_assert(sizeof(struct maltziru_caller) == 96, "caller");
_Static_assert(sizeof(struct maltziru_ledger_reply) == 24, "ledger reply");
_Static_assert(sizeof(struct maltziru_grant_reply) == 64, "grant reply");
_Static_assert(sizeof(struct maltziru_caller_reply) == 104, "caller reply");
_Static_assert(sizeof(struct maltziru_reply) == 8, "reply");

static uint64_t names[MALTZIRU_NAMES];
static uint32_t times[MALTZIRU_TIMES];
static int32_t values[MALTZIRU_VALUES];
static struct maltziru_grant grants[MALTZIRU_GRANTS + 1];
static uint32_t words[MALTZIRU_WORDS];
static int64_t cells[MALTZIRU_ANSWER_CELLS(MALTZIRU_ROUTES, 1 + MALTZIRU_COLUMNS, MALTZIRU_ROWS)];
static uint8_t bytes[4 * MALTZIRU_LINE_BYTES];

static const uint8_t *text(const char *s) { return (const uint8_t *)s; }
static uint32_t stream(const char *s) { return maltziru_stream(names, MALTZIRU_NAMES, text(s), strlen(s)); }
static struct maltziru_grant_reply grant(const char *s, maltziru_len count) { return maltziru_grant(names, MALTZIRU_NAMES, count, text(s), strlen(s), words, MALTZIRU_WORDS); }
static struct maltziru_caller_reply caller(const char *s) { return maltziru_caller(maltziru_nobody(), text(s), strlen(s)); }
/* a name as a number: its bytes, the last lowest */
static uint64_t name(const char *s) { uint64_t n = 0; while (*s) n = n * 256 + (uint8_t)*s++; return n; }

/* every field of what the library returns stands where the header has it */
static void fields(void) {
    struct maltziru_ledger l = maltziru_fresh();
    CHECK(l.clock == 0 && l.rows[0] == 0 && l.rows[1] == 0 && l.rows[2] == 0 && l.rows[3] == 0);
    CHECK(stream("(stream a x y)") == 0 && stream("(stream b x y z)") == 0 && stream("(stream c x)") == 0 && stream("(stream d x)") == 0);
    CHECK(names[0] == name("a") && names[1] == name("b") && names[4] == name("x") && names[5] == name("y") && names[6] == 0 && names[12] == name("z"));
    CHECK(stream("(stream e x)") == MALTZIRU_BOUND);
    struct maltziru_ledger_reply r = maltziru_clock(l, 77);
    CHECK(r.refusal == 0 && r.ledger.clock == 77);
    l = r.ledger;
    for (unsigned s = 0; s < 4; s++) {
        static const int32_t row[3] = { -1, 2, 3 };
        const unsigned width[4] = { 2, 3, 1, 1 };
        for (unsigned k = 0; k <= s; k++) {
            r = maltziru_row(l, names, MALTZIRU_NAMES, s, row, width[s], times, MALTZIRU_TIMES, values, MALTZIRU_VALUES);
            CHECK(r.refusal == 0);
            l = r.ledger;
        }
        CHECK(l.rows[s] == s + 1 && times[s * MALTZIRU_ROWS + s] == 77 && values[(s * MALTZIRU_ROWS + s) * MALTZIRU_COLUMNS] == -1);
    }
    CHECK(maltziru_clock(l, 76).refusal == MALTZIRU_CLOCK_BACK && maltziru_clock(l, -1).refusal == MALTZIRU_BOUND);
    struct maltziru_grant_reply g = grant("(grant keeper max (of b a) (show b.z a.y) (when (= b.x a.x)) (from 3) (to 900) (window 12 34))", 0);
    CHECK(g.refusal == 0 && g.grant.role == name("keeper") && g.grant.right == 2 && g.grant.count == 2 && g.grant.streams[0] == 1 && g.grant.streams[1] == 0);
    CHECK(g.grant.shown == (1u << 8 | 1u << 1) && g.grant.words == 1 && g.grant.from == 3 && g.grant.to == 900 && g.grant.size == 12 && g.grant.offset == 34);
    struct maltziru_caller_reply c = caller("(caller (roles one two three) (self p -5) (self q 6))");
    CHECK(c.refusal == 0 && c.caller.roles == 3 && c.caller.role[0] == name("one") && c.caller.role[2] == name("three") && c.caller.entries == 2);
    CHECK(c.caller.name[0] == name("p") && c.caller.value[0] == -5 && c.caller.name[1] == name("q") && c.caller.value[1] == 6);
    CHECK(maltziru_clear(l).ledger.clock == 77 && maltziru_clear(l).ledger.rows[3] == 0);
}

static struct maltziru_reply ask(maltziru_len g, maltziru_len w, struct maltziru_ledger l, maltziru_len n, maltziru_len t, maltziru_len v, struct maltziru_caller who, const char *q, maltziru_len c) {
    return maltziru_ask(grants, g, words, w, l, names, n, times, t, values, v, who, text(q), strlen(q), cells, c);
}
/* what is asked to be lent is enough, and one less is 12 */
static void amounts(void) {
    struct maltziru_ledger l = maltziru_fresh();
    memset(names, 0, sizeof names);
    CHECK(maltziru_stream(names, MALTZIRU_NAMES - 1, text("(stream a x)"), 12) == MALTZIRU_LENT && stream("(stream a x)") == 0);
    grants[0] = grant("(grant r read (of a) (show *))", 0).grant;
    CHECK(maltziru_grant(names, MALTZIRU_NAMES, 0, text("(grant r read (of a) (show *))"), 30, words, MALTZIRU_WORDS - 1).refusal == MALTZIRU_LENT);
    CHECK(grant("(grant r read (of a) (show *))", MALTZIRU_GRANTS - 1).refusal == 0 && grant("(grant r read (of a) (show *))", MALTZIRU_GRANTS).refusal == MALTZIRU_BOUND);
    struct maltziru_caller who = caller("(caller (roles r))").caller;
    const maltziru_len N = MALTZIRU_NAMES, T = MALTZIRU_TIMES, V = MALTZIRU_VALUES, W = MALTZIRU_WORDS;
    CHECK(ask(1, W, l, N, T, V, who, "(in a)", 64).refusal == 0 && ask(1, W, l, N, T, V, who, "(in a)", 5).count == 5 && ask(1, W, l, N, T, V, who, "(in a)", 4).refusal == MALTZIRU_NO_ROOM);
    CHECK(ask(1, W - 1, l, N, T, V, who, "(in a)", 64).refusal == MALTZIRU_LENT && ask(1, W, l, N - 1, T, V, who, "(in a)", 64).refusal == MALTZIRU_LENT);
    CHECK(ask(1, W, l, N, T - 1, V, who, "(in a)", 64).refusal == MALTZIRU_LENT && ask(1, W, l, N, T, V - 1, who, "(in a)", 64).refusal == MALTZIRU_LENT);
    for (unsigned i = 1; i <= MALTZIRU_GRANTS; i++) grants[i] = grants[0];
    CHECK(ask(MALTZIRU_ROUTES, W, l, N, T, V, who, "(count a.x 1 1 (in a))", 64).refusal == MALTZIRU_NO_ROOM && ask(MALTZIRU_ROUTES + 1, W, l, N, T, V, who, "(in a)", 64).refusal == MALTZIRU_MANY_ROUTES);
    CHECK(ask(MALTZIRU_GRANTS + 1, W, l, N, T, V, who, "(in a)", 64).refusal == MALTZIRU_LENT);
    who.roles = MALTZIRU_ROLES + 1;
    CHECK(ask(1, W, l, N, T, V, who, "(in a)", 64).refusal == MALTZIRU_LENT);
    who.roles = 1;
    who.entries = MALTZIRU_ENTRIES + 1;
    CHECK(ask(1, W, l, N, T, V, who, "(in a)", 64).refusal == MALTZIRU_LENT);
    l.rows[0] = MALTZIRU_ROWS + 1;
    who.entries = 0;
    CHECK(ask(1, W, l, N, T, V, who, "(in a)", 64).refusal == MALTZIRU_LENT);
    /* a line of one byte more, and a seventh column */
    static char line[MALTZIRU_LINE + 2];
    memset(line, 'a', sizeof line - 1);
    CHECK(maltziru_clock_line(maltziru_fresh(), text(line), MALTZIRU_LINE).refusal == MALTZIRU_MALFORMED);
    CHECK(maltziru_clock_line(maltziru_fresh(), text(line), MALTZIRU_LINE + 1).refusal == MALTZIRU_BOUND);
    CHECK(stream("(stream b a b c d e f g)") == MALTZIRU_BOUND && stream("(stream b a b c d e f)") == 0);
    /* nothing lent at all */
    CHECK(maltziru_stream(NULL, 0, NULL, 0) == MALTZIRU_LENT);
    CHECK(maltziru_ask(NULL, 0, NULL, 0, maltziru_fresh(), NULL, 0, NULL, 0, NULL, 0, maltziru_nobody(), NULL, 0, NULL, 0).refusal == MALTZIRU_LENT);
    CHECK(maltziru_line(NULL, 0, NULL, 0, maltziru_fresh(), NULL, 0, NULL, 0, NULL, 0, maltziru_nobody(), 1, NULL, 0, bytes, 64).refusal == MALTZIRU_LENT);
    CHECK(maltziru_clock_line(maltziru_fresh(), NULL, 0).refusal == MALTZIRU_MALFORMED);
}

/* so many cells are an answer's, and with one less it is 11 */
static int has_cells(maltziru_len g, struct maltziru_ledger l, struct maltziru_caller who, const char *q, maltziru_len n) {
    struct maltziru_reply r = ask(g, MALTZIRU_WORDS, l, MALTZIRU_NAMES, MALTZIRU_TIMES, MALTZIRU_VALUES, who, q, n);
    return r.refusal == 0 && r.count == n && ask(g, MALTZIRU_WORDS, l, MALTZIRU_NAMES, MALTZIRU_TIMES, MALTZIRU_VALUES, who, q, n - 1).refusal == MALTZIRU_NO_ROOM;
}
/* the macros for cells: no rows, rows of all columns and of some, joined rows, windows, and routes that differ */
static void answers(void) {
    memset(names, 0, sizeof names);
    CHECK(stream("(stream a u v w x y z)") == 0 && stream("(stream b u)") == 0);
    grants[0] = grant("(grant r read (of a) (show *))", 0).grant;
    grants[1] = grant("(grant r read (of b) (show *))", 1).grant;
    for (unsigned i = 2; i < MALTZIRU_ROUTES; i++) grants[i] = grant("(grant r read (of a) (show a.u) (when (> a.u 99)))", i).grant;
    struct maltziru_caller who = caller("(caller (roles r))").caller;
    struct maltziru_ledger l = maltziru_fresh();
    CHECK(has_cells(2, l, who, "(in a)", MALTZIRU_ANSWER_CELLS(1, 7, 0)));
    for (unsigned i = 0; i < MALTZIRU_ROWS; i++) {
        const int32_t row[6] = { (int32_t)i };
        l = maltziru_clock(l, i).ledger;
        l = maltziru_row(l, names, MALTZIRU_NAMES, 0, row, 6, times, MALTZIRU_TIMES, values, MALTZIRU_VALUES).ledger;
        if (i < 3) l = maltziru_row(l, names, MALTZIRU_NAMES, 1, row, 1, times, MALTZIRU_TIMES, values, MALTZIRU_VALUES).ledger;
    }
    CHECK(has_cells(2, l, who, "(in a)", MALTZIRU_ANSWER_CELLS(1, 7, MALTZIRU_ROWS)));
    CHECK(has_cells(2, l, who, "(keep a.v a.u (pick (< a.u 5) (in a)))", MALTZIRU_ANSWER_CELLS(1, 3, 5)));
    CHECK(has_cells(2, l, who, "(join (= a.u b.u) (in a) (in b))", MALTZIRU_ANSWER_CELLS(1, 1 + 6 + 1, 3)));
    CHECK(has_cells(2, l, who, "(join (= a.v b.u) (in a) (in b))", MALTZIRU_ANSWER_CELLS(1, 1 + 6 + 1, MALTZIRU_ROWS)));
    CHECK(has_cells(2, l, who, "(sum a.u 1 1 (in a))", MALTZIRU_ANSWER_CELLS(1, 2, MALTZIRU_ROWS - 1)));
    CHECK(has_cells(2, maltziru_clock(l, 1000).ledger, who, "(max a.u 64 1 (in a))", MALTZIRU_ANSWER_CELLS(1, 2, MALTZIRU_ROWS)));
    CHECK(has_cells(3, l, who, "(in a)", 1 + MALTZIRU_ROUTE_CELLS(7, MALTZIRU_ROWS) + MALTZIRU_ROUTE_CELLS(2, 28)));
    for (unsigned i = 0; i < MALTZIRU_ROUTES; i++) grants[i] = grants[0];
    CHECK(has_cells(MALTZIRU_ROUTES, l, who, "(in a)", MALTZIRU_ANSWER_CELLS(MALTZIRU_ROUTES, 7, MALTZIRU_ROWS)));
    CHECK(ask(1, MALTZIRU_WORDS, l, MALTZIRU_NAMES, MALTZIRU_TIMES, MALTZIRU_VALUES, who, "(in a)", sizeof cells / sizeof *cells).count == MALTZIRU_ANSWER_CELLS(1, 7, MALTZIRU_ROWS));
}

/* a line has no end mark: with a newline or NUL it is none of the forms */
static void ends(void) {
    static const char *const marks[2] = { "\n", "\0" };
    memset(names, 0, sizeof names);
    CHECK(stream("(stream a x)") == 0);
    grants[0] = grant("(grant r read (of a) (show *))", 0).grant;
    struct maltziru_caller who = caller("(caller (roles r))").caller;
    for (int i = 0; i < 2; i++) {
        char q[] = "(in a)?", c[] = "(clear)?", t[] = "(clock 1)?", s[] = "(stream b x)?", r[] = "(row a 1)?", g[] = "(grant r read (of a) (show *))?", w[] = "(caller (roles r))?";
        char *const lines[] = { q, c, t, s, r, g, w };
        const maltziru_len n[] = { sizeof q - 1, sizeof c - 1, sizeof t - 1, sizeof s - 1, sizeof r - 1, sizeof g - 1, sizeof w - 1 };
        for (int k = 0; k < 7; k++) lines[k][n[k] - 1] = *marks[i];
        const struct maltziru_ledger l = maltziru_fresh();
        CHECK(maltziru_ask(grants, 1, words, MALTZIRU_WORDS, l, names, MALTZIRU_NAMES, times, MALTZIRU_TIMES, values, MALTZIRU_VALUES, who, text(q), n[0], cells, 64).refusal == MALTZIRU_MALFORMED);
        CHECK(maltziru_ask(grants, 1, words, MALTZIRU_WORDS, l, names, MALTZIRU_NAMES, times, MALTZIRU_TIMES, values, MALTZIRU_VALUES, who, text(q), n[0] - 1, cells, 64).refusal == 0);
        CHECK(maltziru_line(grants, 1, words, MALTZIRU_WORDS, l, names, MALTZIRU_NAMES, times, MALTZIRU_TIMES, values, MALTZIRU_VALUES, who, 1, text(q), n[0], bytes, 64).refusal == MALTZIRU_MALFORMED);
        CHECK(maltziru_clear_line(l, text(c), n[1]).refusal == MALTZIRU_MALFORMED && maltziru_clear_line(l, text(c), n[1] - 1).refusal == 0);
        CHECK(maltziru_clock_line(l, text(t), n[2]).refusal == MALTZIRU_MALFORMED && maltziru_clock_line(l, text(t), n[2] - 1).refusal == 0);
        CHECK(maltziru_stream(names, MALTZIRU_NAMES, text(s), n[3]) == MALTZIRU_MALFORMED);
        CHECK(maltziru_row_line(l, names, MALTZIRU_NAMES, text(r), n[4], times, MALTZIRU_TIMES, values, MALTZIRU_VALUES).refusal == MALTZIRU_MALFORMED);
        CHECK(maltziru_row_line(l, names, MALTZIRU_NAMES, text(r), n[4] - 1, times, MALTZIRU_TIMES, values, MALTZIRU_VALUES).refusal == 0);
        CHECK(maltziru_grant(names, MALTZIRU_NAMES, 0, text(g), n[5], words, MALTZIRU_WORDS).refusal == MALTZIRU_MALFORMED);
        CHECK(maltziru_caller(who, text(w), n[6]).refusal == MALTZIRU_MALFORMED && maltziru_caller(who, text(w), n[6] - 1).refusal == 0);
    }
}

static struct maltziru_reply joined_line(maltziru_len room) {
    static const char q[] = "(join (= aaaaaaaa.aaaaaaaa bbbbbbbb.bbbbbbbb) (in aaaaaaaa) (in bbbbbbbb))";
    return maltziru_line(grants, 2, words, MALTZIRU_WORDS, maltziru_fresh(), names, MALTZIRU_NAMES, times, MALTZIRU_TIMES, values, MALTZIRU_VALUES, caller("(caller (roles r))").caller, 1,
        text(q), sizeof q - 1, bytes, room);
}
/* two grants with as many comparisons as their words hold, which no line has room for: not 12, and a line of more than MALTZIRU_LINE_BYTES */
static void long_line(void) {
    memset(names, 0, sizeof names);
    CHECK(stream("(stream aaaaaaaa aaaaaaaa)") == 0 && stream("(stream bbbbbbbb bbbbbbbb)") == 0);
    grants[0] = grant("(grant r read (of aaaaaaaa) (show *) (when (/= aaaaaaaa.aaaaaaaa aaaaaaaa.aaaaaaaa)))", 0).grant;
    grants[1] = grant("(grant r read (of bbbbbbbb) (show *) (when (/= bbbbbbbb.bbbbbbbb bbbbbbbb.bbbbbbbb)))", 1).grant;
    CHECK(joined_line(MALTZIRU_LINE_BYTES).refusal == 0);
    for (unsigned g = 0; g < 2; g++) {
        /* a comparison is one word, whose highest byte says how many words stand before it */
        for (uint32_t k = 1; k < MALTZIRU_GRANT_WORDS; k++) words[g * MALTZIRU_GRANT_WORDS + k] = words[g * MALTZIRU_GRANT_WORDS] + (k << 24);
        grants[g].words = MALTZIRU_GRANT_WORDS;
    }
    CHECK(joined_line(MALTZIRU_LINE_BYTES).refusal == MALTZIRU_NO_ROOM);
    struct maltziru_reply r = joined_line(sizeof bytes);
    CHECK(r.refusal == 0 && r.count > MALTZIRU_LINE_BYTES && joined_line(r.count).refusal == 0 && joined_line(r.count - 1).refusal == MALTZIRU_NO_ROOM);
}

int main(void) {
    fields();
    amounts();
    answers();
    ends();
    long_line();
    for (uint32_t n = 0; n <= 12; n++) CHECK(strcmp(maltziru_refusal_text(n), maltziru_refusal_text(13)) != 0);
    if (!failures) printf("header of version %d.%d: %d checks hold, enums of %d bytes\n", MALTZIRU_VERSION_MAJOR, MALTZIRU_VERSION_MINOR, checks, (int)sizeof(enum maltziru_refusal));
    return failures != 0;
}
