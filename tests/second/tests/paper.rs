//! The paper's own examples: cases A to K, and one example of each refusal.

use second::answering;
use second::checks::Refusal;
use second::forms::Query;
use second::lent::{self, Ledger, NAMES, TIMES, VALUES, code_of};
use second::script;
use second::state::State;

const RECORD: &str = "(stream test lot unit volts)
(clock 10)
(row test 7 1 30)
(clock 20)
(row test 7 2 -5)
(row test 8 3 40)
(grant fitter read (of test) (show test.unit test.volts) (when (= test.lot self.lot)))
(grant seller avg (of test) (show test.volts) (window 60 60))
";
const FITTER: &str = "(caller (roles fitter) (self lot 7))";
const SELLER: &str = "(caller (roles seller))";

/// What lines print after these.
fn printed(before: &str, lines: &[&str]) -> Vec<String> {
    let mut state = State::default();
    for line in script::lines(before.as_bytes()) {
        assert_eq!(script::step(&mut state, line).printed(), [""; 0]);
    }
    let said = lines.iter().flat_map(|line| {
        let reply = script::step(&mut state, line.as_bytes());
        reply.printed()
    });
    said.collect()
}

/// What a caller is told of a query at clock 60.
fn asked(caller: &str, query: &str) -> Vec<String> {
    printed(RECORD, &["(clock 60)", caller, &format!("(ask {query})")])
}

#[test]
fn a_a_fitter_reads_the_own_lot() {
    let rows = ["routes 1", "route 1 0 3 2", "10 1 30", "20 2 -5"];
    assert_eq!(asked(FITTER, "(in test)"), rows);
    let line = printed(RECORD, &[FITTER, "(line 1 (in test))"]);
    let plain = "(keep test.unit test.volts (pick (and (= test.lot 7)) (in test)))";
    assert_eq!(line, [plain]);
}

#[test]
fn b_c_a_window_is_answered_once_closed() {
    let query = "(avg test.volts 60 60 (in test))";
    assert_eq!(asked(SELLER, query), ["routes 1", "route 2 0 2 1", "60 21"]);
    let ask = format!("(ask {query})");
    let open = printed(RECORD, &["(clock 59)", SELLER, &ask]);
    assert_eq!(open, ["routes 1", "route 2 0 2 0"]);
}

#[test]
fn d_to_h_have_no_route() {
    let closed = [
        (SELLER, "(avg test.volts 59 60 (in test))"),
        (SELLER, "(avg test.volts 60 59 (in test))"),
        (
            SELLER,
            "(avg test.volts 60 60 (pick (> test.volts 0) (in test)))",
        ),
        (FITTER, "(pick (= test.lot 7) (in test))"),
        ("(caller (roles fitter))", "(in test)"),
    ];
    for (caller, query) in closed {
        assert_eq!(asked(caller, query), ["refused 9"], "{caller} {query}");
    }
}

#[test]
fn i_a_fitter_sums_the_own_lot() {
    let sums = ["routes 1", "route 1 0 2 2", "20 30", "30 -5"];
    assert_eq!(asked(FITTER, "(sum test.volts 10 10 (in test))"), sums);
}

#[test]
fn j_an_average_is_cut_towards_zero() {
    let record = "(stream t v)\n(row t -5)\n(row t 0)\n(clock 1)\n(grant r read (of t) (show *))\n(caller (roles r))\n";
    let average = printed(record, &["(ask (avg t.v 1 1 (in t)))"]);
    assert_eq!(average, ["routes 1", "route 1 0 2 1", "1 -2"]);
}

#[test]
fn k_a_window_is_at_most_64_offsets_long() {
    let fits = asked(SELLER, "(avg test.volts 64 1 (in test))");
    assert_eq!(fits, ["refused 9"]);
    let long = asked(SELLER, "(avg test.volts 65 1 (in test))");
    assert_eq!(long, ["refused 5"]);
}

#[test]
fn each_refusal_of_a_line_has_its_example() {
    let examples = [
        ("(ask (in test)", 1),
        ("(ask (in tset))", 2),
        ("(ask (in abcdefghi))", 3),
        ("(ask (pick (= test.lot 7) (keep test.volts (in test))))", 4),
        ("(ask (avg test.volts 65 1 (in test)))", 5),
        ("(stream test unit)", 6),
        ("(clock 19)", 7),
        ("(ask (in test))", 9),
        ("", 1),
    ];
    for (line, number) in examples {
        assert_eq!(printed(RECORD, &[line]), [format!("refused {number}")]);
    }
}

#[test]
fn the_129th_row_is_refused() {
    let record = "(stream t v)\n".to_string() + &"(row t 1)\n".repeat(128);
    assert_eq!(printed(&record, &["(row t 1)"]), ["refused 8"]);
}

#[test]
fn five_grants_a_side_are_too_many_routes() {
    let grants = "(grant r read (of a) (show *))\n(grant r read (of b) (show *))\n".repeat(5);
    let record = format!("(stream a x)\n(stream b x)\n{grants}(caller (roles r))\n");
    let join = "(ask (join (= a.x b.x) (in a) (in b)))";
    assert_eq!(printed(&record, &[join]), ["refused 10"]);
}

#[test]
fn ten_cells_do_not_hold_case_a() {
    let mut state = State::default();
    for line in script::lines(RECORD.as_bytes()) {
        script::step(&mut state, line);
    }
    script::step(&mut state, FITTER.as_bytes());
    let query = Query::In("test".to_string());
    let answer = |room| answering::ask(&query, &state, room).map(|answer| answer.cells());
    assert_eq!(answer(10), Err(Refusal::NoRoom));
    assert_eq!(answer(11), Ok(vec![1, 1, 0, 3, 2, 10, 1, 30, 20, 2, -5]));
}

#[test]
fn a_row_count_of_129_is_not_sound() {
    let mut names = [0; NAMES];
    (names[0], names[4]) = (code_of("t"), code_of("v"));
    let rows = |count| Ledger {
        clock: 0,
        rows: [count, 0, 0, 0],
    };
    let sound = |count| {
        let (times, values) = ([0; TIMES], [0; VALUES]);
        lent::record_of(&names, &rows(count), &times, &values).is_some()
    };
    assert!(sound(128));
    assert!(!sound(129));
}
