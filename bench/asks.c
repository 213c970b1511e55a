/* Queries and their lines: typical ones, refused ones, and the worst that were found. */
#include "fixtures.h"
enum { BYTES = 4096 };
static uint8_t bytes[BYTES];

static int32_t same(int i, int c) { (void)i; (void)c; return 1; }

static void far_gaps(void) { overlapping(); ledger.clock = 2000000000; rows(0, 128, 1000, 15000000, 1, measure); set("(avg test.volts 15 1 (in test))"); }
static void refused_pick(void) { one_grant(); caller("(caller (roles))"); set("(pick (and (< test.volts 64) (>= test.unit 0) (/= test.lot 200)) (in test))"); }
static void damaged(void) { one_grant(); grants[0].words = UINT32_MAX; set("(in test)"); }
static void nested(const char *open, int n, const char *inside) {
    for (int i = 0; i < n; i++) add(open);
    add(inside);
    for (int i = 0; i < n; i++) add(")");
}
static void nested_picks(void) { one_grant(); set(""); nested("(pick (/= test.lot 200) ", 7, "(in test)"); }
static void many_forms(void) { one_grant(); set(""); nested("(keep test.lot test.unit test.volts ", 7, "(in test)"); }
/* eight brackets, those of the form around it included */
static void deep_condition(void) { one_grant(); set("(pick "); nested("(not ", 6, "(= test.lot 7)"); add(" (in test))"); }
static void deep_pair(void) {
    pairs();
    set("(grant fitter read (of test pack) (show *) (when (= test.unit pack.unit) ");
    nested("(or ", 5, "(= test.lot pack.lot)");
    add("))");
    grants[granted] = maltziru_grant(names, NAMES, granted, text(), size, words, WORDS).grant;
    granted++;
}
static void deep_join(void) { deep_pair(); set("(pick "); nested("(or ", 6, "(/= test.lot pack.lot)"); add(" (join (= test.unit pack.unit) (in test) (in pack)))"); }
static void deep_figures(void) { deep_pair(); set("(avg test.volts 64 1 (pick "); nested("(or ", 5, "(<= time 1100)"); add(" (join (= test.unit pack.unit) (in test) (in pack))))"); }
static void figure_join(void) {
    pairs();
    grant("(grant fitter avg (of test pack) (show *) (when (= test.unit pack.unit)))");
    set("(avg test.volts 64 1 (join (= test.unit pack.unit) (in test) (in pack)))");
}
/* as many grants of a line, each with as many conditions as fit */
static void full_grants(int n, const char *head, const char *when) {
    while (n-- > 0) {
        set(head);
        while (size + 1 + count(when) + 2 <= LINE) { add(" "); add(when); }
        add("))");
        grants[granted] = maltziru_grant(names, NAMES, granted, text(), size, words, WORDS).grant;
        granted++;
    }
}
/* a query with a pick of as many comparisons as fit before a tail of at most 40 bytes */
static void full_pick(const char *head, const char *pick, const char *tail) {
    set(head);
    while (size + 1 + count(pick) + 40 <= LINE) { add(" "); add(pick); }
    add(tail);
}
/* 24 full grants of the dearest conditions to look over, to a caller's last role */
#define COMB "(or (or (or (or (or (= a.a 1))))))"
static void full_catalogue(void) {
    declare("(stream a a b c d e f)");
    declare("(stream b a b c d e f)");
    declare("(stream c a b c d e f)");
    declare("(stream d a b c d e f)");
    ledger.clock = 2000000;
    for (int s = 0; s < 4; s++) rows(s, 128, 0, 1, 1, same);
    caller("(caller (roles a b c d) (self a 1) (self b 1) (self c 1) (self d -2147483648))");
}
static void full_refused(void) { full_catalogue(); full_grants(24, "(grant d max (of a b) (show *) (when (= a.a b.a)", COMB); set("(in a)"); }
static void full_line(void) {
    full_catalogue();
    full_grants(20, "(grant d max (of a) (show *) (when", COMB);
    full_grants(2, "(grant d read (of a) (show *) (when", COMB);
    full_grants(2, "(grant d read (of b) (show *) (when", "(= b.a self.d)");
    full_pick("(pick (and", "(= a.a b.a)", ") (join (= a.a b.a) (in a) (in b)))");
}
/* one stream by as many full grants as have room for their answers, the greatest value in 64 windows of each row */
static void full_windows(void) {
    declare("(stream a a)");
    ledger.clock = 2000000000;
    rows(0, 128, 48, 1, 1, same);
    caller("(caller (roles a))");
    full_grants(10, "(grant a read (of a) (show *) (when", "(> a.a 0)");
    full_pick("(max a.a 64 1 (pick (and", "(> time 0)", ") (in a)))");
}
/* two full streams whose rows are all pairs, by some grants with as many comparisons as fit */
static void all_pairs(int n, const char *grant_head, const char *when) {
    declare("(stream a a)");
    declare("(stream b a)");
    ledger.clock = 2000000;
    rows(0, 128, 0, 0, 1, same);
    rows(1, 128, 0, 1, 1, same);
    caller("(caller (roles a))");
    full_grants(n, grant_head, when);
}
/* by read grants, and a pick with as many comparisons as fit */
static void worst_of(int n, const char *when, const char *pick) {
    all_pairs(n, "(grant a read (of a b) (show *) (when (= a.a b.a)", when);
    full_pick("(max a.a 64 64 (pick (and", pick, ") (join (= a.a b.a) (in a) (in b))))");
}
static void worst_pair(void) { worst_of(16, "(= a.a b.a)", "(= a.a b.a)"); }
static void worst_number(void) { worst_of(16, "(= b.a 1)", "(= b.a 1)"); }
static void worst_right(void) { worst_of(16, "(= b.a b.a)", "(= b.a b.a)"); }
static void worst_time(void) { worst_of(16, "(= b.a b.a)", "(< time 9)"); }
static void worst_same_time(void) { worst_of(16, "(= b.a b.a)", "(= time 9)"); }
static void worst_time_column(void) { worst_of(16, "(= b.a b.a)", "(> time b.a)"); }
static void worst_time_same(void) { worst_of(16, "(= b.a b.a)", "(= time b.a)"); }
static void worst_order(void) { worst_of(16, "(<= b.a b.a)", "(> time b.a)"); }
static void worst_one(void) { worst_of(1, "(<= b.a b.a)", "(> time b.a)"); }
static void worst_rows(void) {
    all_pairs(16, "(grant a read (of a b) (show *) (when (= a.a b.a)", "(<= b.a b.a)");
    full_pick("(pick (and (< b.a 0)", "(> time b.a)", ") (join (= a.a b.a) (in a) (in b)))");
}
static void figure_all(void) {
    all_pairs(0, "", "");
    grant("(grant a read (of a b) (show *) (when (= a.a b.a)))");
    set("(max a.a 64 1 (join (= a.a b.a) (in a) (in b)))");
}
static void worst_figures(void) {
    all_pairs(16, "(grant a max (of a b) (show *) (when (= a.a b.a)", "(<= b.a b.a)");
    set("(max a.a 64 64 (join (= a.a b.a) (in a) (in b)))");
}

struct sample { const char *label; void (*make)(void); int route; };
static const struct sample samples[] = {
    { "nothing", one_grant, -1 },
    { "scan of 128 rows, three comparisons, 64 rows", scan, 0 },
    { "join of two full streams, 100 pairs", joined, 0 },
    { "averages in 64 overlapping windows, 191 answers", overlapping, 0 },
    { "averages in 64 overlapping windows with gaps, 1,954 answers", gaps, 0 },
    { "averages in windows far apart, 1,920 answers", far_gaps, 0 },
    { "sums in tumbling windows, 27 answers", tumbling, 0 },
    { "query refused 9", refused, 0 },
    { "the scan refused 9", refused_pick, 0 },
    { "query refused 12: a grant of too many words", damaged, 0 },
    { "24 grants, sixteen routes", sixteen, 0 },
    { "seven nested picks", nested_picks, 0 },
    { "seven nested keeps", many_forms, 0 },
    { "a condition as deep as may be", deep_condition, 0 },
    { "such conditions over a joined pair", deep_join, 0 },
    { "averages over a joined pair", figure_join, 0 },
    { "averages over a joined pair with such conditions", deep_figures, 0 },
    { "greatest in 64 windows over all pairs of two full streams", figure_all, 0 },
    { "line of the scan", scan, 1 },
    { "line of the join", joined, 1 },
    { "line of sixteen routes, the last", sixteen, 16 },
    { "line of averages over a joined pair", figure_join, 1 },
    { "line of seven nested picks", nested_picks, 1 },
    { "line of such averages", deep_figures, 1 },
    { "24 full grants, query refused 9", full_refused, 0 },
    { "24 full grants, line of a join, four routes", full_line, 4 },
    { "one stream by ten full grants, greatest in 64 windows", full_windows, 0 },
    { "worst: comparisons of left with right", worst_pair, 0 },
    { "worst: comparisons of right with a number", worst_number, 0 },
    { "worst: comparisons of right with right", worst_right, 0 },
    { "worst: comparisons of time with a number", worst_time, 0 },
    { "worst: time the same as a number", worst_same_time, 0 },
    { "worst: comparisons of time with right", worst_time_column, 0 },
    { "worst: time the same as right", worst_time_same, 0 },
    { "worst: order of right with right, time with right", worst_order, 0 },
    { "the same by one grant", worst_one, 0 },
    { "worst: joined rows by such conditions", worst_rows, 0 },
    { "figures granted by sixteen full grants", worst_figures, 0 },
};
enum { SAMPLES = sizeof samples / sizeof *samples };

static void prepare(int k) {
    begin();
    clear(cells, sizeof cells);
    clear(bytes, sizeof bytes);
    granted = 0;
    samples[k].make();
}
__attribute__((noinline)) uint32_t measured(int k) {
    if (samples[k].route < 0) return 0;
    struct maltziru_reply r;
    if (samples[k].route > 0) r = maltziru_line(grants, granted, words, WORDS, ledger, names, NAMES, times, PLACES, values, VALUES, who, samples[k].route, text(), size, bytes, BYTES);
    else r = maltziru_ask(grants, granted, words, WORDS, ledger, names, NAMES, times, PLACES, values, VALUES, who, text(), size, cells, CELLS);
    return r.refusal ? r.refusal : r.count;
}
static uint32_t left(int k) { (void)k; return sum(sum(1, cells, sizeof cells), bytes, sizeof bytes); }
static const char *label(int k) { return samples[k].label; }
#include "main.h"
