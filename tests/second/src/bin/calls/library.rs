//! The library's calls, declared after its header.

use second::lent::{Caller, Grant, Ledger};

use crate::lending::Lent;

#[repr(C)]
struct LedgerReply {
    refusal: u32,
    ledger: Ledger,
}

#[repr(C)]
struct GrantReply {
    refusal: u32,
    grant: Grant,
}

#[repr(C)]
struct CallerReply {
    refusal: u32,
    caller: Caller,
}

#[repr(C)]
struct Reply {
    refusal: u32,
    count: u32,
}

unsafe extern "C" {
    fn maltziru_stream(names: *mut u64, names_len: u64, line: *const u8, line_len: u64) -> u32;
    fn maltziru_fresh() -> Ledger;
    fn maltziru_clock(ledger: Ledger, time: i64) -> LedgerReply;
    fn maltziru_row(
        ledger: Ledger,
        names: *const u64,
        names_len: u64,
        stream: u64,
        row: *const i32,
        row_len: u64,
        times: *mut u32,
        times_len: u64,
        values: *mut i32,
        values_len: u64,
    ) -> LedgerReply;
    fn maltziru_clear(ledger: Ledger) -> LedgerReply;
    fn maltziru_clock_line(ledger: Ledger, line: *const u8, line_len: u64) -> LedgerReply;
    fn maltziru_row_line(
        ledger: Ledger,
        names: *const u64,
        names_len: u64,
        line: *const u8,
        line_len: u64,
        times: *mut u32,
        times_len: u64,
        values: *mut i32,
        values_len: u64,
    ) -> LedgerReply;
    fn maltziru_clear_line(ledger: Ledger, line: *const u8, line_len: u64) -> LedgerReply;
    fn maltziru_grant(
        names: *const u64,
        names_len: u64,
        count: u64,
        line: *const u8,
        line_len: u64,
        words: *mut u32,
        words_len: u64,
    ) -> GrantReply;
    fn maltziru_nobody() -> Caller;
    fn maltziru_caller(caller: Caller, line: *const u8, line_len: u64) -> CallerReply;
    fn maltziru_ask(
        grants: *const Grant,
        grants_len: u64,
        words: *const u32,
        words_len: u64,
        ledger: Ledger,
        names: *const u64,
        names_len: u64,
        times: *const u32,
        times_len: u64,
        values: *const i32,
        values_len: u64,
        caller: Caller,
        query: *const u8,
        query_len: u64,
        cells: *mut i64,
        cells_len: u64,
    ) -> Reply;
    fn maltziru_line(
        grants: *const Grant,
        grants_len: u64,
        words: *const u32,
        words_len: u64,
        ledger: Ledger,
        names: *const u64,
        names_len: u64,
        times: *const u32,
        times_len: u64,
        values: *const i32,
        values_len: u64,
        caller: Caller,
        route: i64,
        query: *const u8,
        query_len: u64,
        bytes: *mut u8,
        bytes_len: u64,
    ) -> Reply;
}

/// A call with what it takes besides lent memory.
#[derive(Clone, Copy, Debug)]
pub enum Call {
    Stream,
    Fresh,
    Clock(i64),
    Row(u64),
    Clear,
    ClockLine,
    RowLine,
    ClearLine,
    Grant(u64),
    Nobody,
    Caller,
    Ask,
    Line(i64),
}

pub const FUNCTIONS: [&str; 13] = [
    "stream",
    "fresh",
    "clock",
    "row",
    "clear",
    "clock_line",
    "row_line",
    "clear_line",
    "grant",
    "nobody",
    "caller",
    "ask",
    "line",
];

impl Call {
    /// Its place in `FUNCTIONS`.
    pub fn function(self) -> usize {
        match self {
            Call::Stream => 0,
            Call::Fresh => 1,
            Call::Clock(_) => 2,
            Call::Row(_) => 3,
            Call::Clear => 4,
            Call::ClockLine => 5,
            Call::RowLine => 6,
            Call::ClearLine => 7,
            Call::Grant(_) => 8,
            Call::Nobody => 9,
            Call::Caller => 10,
            Call::Ask => 11,
            Call::Line(_) => 12,
        }
    }
}

/// What a call returns: the refusal or 0, and what comes with it.
#[derive(Clone, Copy, PartialEq, Eq, Debug)]
pub enum Outcome {
    Plain(u32),
    Ledger(u32, Ledger),
    Grant(u32, Grant),
    Caller(u32, Caller),
    Count(u32, u32),
}

impl Outcome {
    pub fn refusal(&self) -> u32 {
        match *self {
            Outcome::Plain(refusal)
            | Outcome::Ledger(refusal, _)
            | Outcome::Grant(refusal, _)
            | Outcome::Caller(refusal, _)
            | Outcome::Count(refusal, _) => refusal,
        }
    }
}

impl From<LedgerReply> for Outcome {
    fn from(reply: LedgerReply) -> Outcome {
        Outcome::Ledger(reply.refusal, reply.ledger)
    }
}

impl From<GrantReply> for Outcome {
    fn from(reply: GrantReply) -> Outcome {
        Outcome::Grant(reply.refusal, reply.grant)
    }
}

impl From<CallerReply> for Outcome {
    fn from(reply: CallerReply) -> Outcome {
        Outcome::Caller(reply.refusal, reply.caller)
    }
}

impl From<Reply> for Outcome {
    fn from(reply: Reply) -> Outcome {
        Outcome::Count(reply.refusal, reply.count)
    }
}

/// Makes a call of the library.
pub fn make(call: Call, lent: &mut Lent) -> Outcome {
    let (line, line_len) = lent.text.shared();
    let (ledger, caller) = (lent.ledger, lent.caller);
    // Sound: every pointer goes with the length of a slice that is there, and no two overlap.
    unsafe {
        match call {
            Call::Stream => {
                let (names, names_len) = lent.names.written();
                Outcome::Plain(maltziru_stream(names, names_len, line, line_len))
            }
            Call::Fresh => Outcome::Ledger(0, maltziru_fresh()),
            Call::Clock(time) => maltziru_clock(ledger, time).into(),
            Call::Clear => maltziru_clear(ledger).into(),
            Call::ClockLine => maltziru_clock_line(ledger, line, line_len).into(),
            Call::ClearLine => maltziru_clear_line(ledger, line, line_len).into(),
            Call::Nobody => Outcome::Caller(0, maltziru_nobody()),
            Call::Caller => maltziru_caller(caller, line, line_len).into(),
            Call::Row(stream) => row(stream, lent),
            Call::RowLine => row_line(lent),
            Call::Grant(count) => grant(count, lent),
            Call::Ask => ask(lent),
            Call::Line(route) => self::line(route, lent),
        }
    }
}

unsafe fn row(stream: u64, lent: &mut Lent) -> Outcome {
    let (names, names_len) = lent.names.shared();
    let (row, row_len) = lent.row.shared();
    let (times, times_len) = lent.times.written();
    let (values, values_len) = lent.values.written();
    let reply = unsafe {
        maltziru_row(
            lent.ledger,
            names,
            names_len,
            stream,
            row,
            row_len,
            times,
            times_len,
            values,
            values_len,
        )
    };
    reply.into()
}

unsafe fn row_line(lent: &mut Lent) -> Outcome {
    let (names, names_len) = lent.names.shared();
    let (line, line_len) = lent.text.shared();
    let (times, times_len) = lent.times.written();
    let (values, values_len) = lent.values.written();
    let reply = unsafe {
        maltziru_row_line(
            lent.ledger,
            names,
            names_len,
            line,
            line_len,
            times,
            times_len,
            values,
            values_len,
        )
    };
    reply.into()
}

unsafe fn grant(count: u64, lent: &mut Lent) -> Outcome {
    let (names, names_len) = lent.names.shared();
    let (line, line_len) = lent.text.shared();
    let (words, words_len) = lent.words.written();
    let reply =
        unsafe { maltziru_grant(names, names_len, count, line, line_len, words, words_len) };
    reply.into()
}

unsafe fn ask(lent: &mut Lent) -> Outcome {
    let (grants, grants_len) = lent.grants.shared();
    let (words, words_len) = lent.words.shared();
    let (names, names_len) = lent.names.shared();
    let (times, times_len) = lent.times.shared();
    let (values, values_len) = lent.values.shared();
    let (query, query_len) = lent.text.shared();
    let (cells, cells_len) = lent.cells.written();
    let reply = unsafe {
        maltziru_ask(
            grants,
            grants_len,
            words,
            words_len,
            lent.ledger,
            names,
            names_len,
            times,
            times_len,
            values,
            values_len,
            lent.caller,
            query,
            query_len,
            cells,
            cells_len,
        )
    };
    reply.into()
}

unsafe fn line(route: i64, lent: &mut Lent) -> Outcome {
    let (grants, grants_len) = lent.grants.shared();
    let (words, words_len) = lent.words.shared();
    let (names, names_len) = lent.names.shared();
    let (times, times_len) = lent.times.shared();
    let (values, values_len) = lent.values.shared();
    let (query, query_len) = lent.text.shared();
    let (bytes, bytes_len) = lent.bytes.written();
    let reply = unsafe {
        maltziru_line(
            grants,
            grants_len,
            words,
            words_len,
            lent.ledger,
            names,
            names_len,
            times,
            times_len,
            values,
            values_len,
            lent.caller,
            route,
            query,
            query_len,
            bytes,
            bytes_len,
        )
    };
    reply.into()
}
