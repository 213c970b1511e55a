//! What lent memory stands for, or that calls cannot have made it (refusal 12).

use crate::checks;
use crate::forms::{self, Condition, Function, Name, Number, Operand, Ref, Right, Show};
use crate::limits::{COLUMNS, ENTRIES, GRANTS, LAST_TIME, OF, ROLES, ROWS, STREAMS};
use crate::meaning::Row;
use crate::state::{State, Stream};
use crate::text;

pub const NAMES: usize = STREAMS + STREAMS * COLUMNS;
pub const TIMES: usize = STREAMS * ROWS;
pub const VALUES: usize = TIMES * COLUMNS;
pub const GRANT_WORDS: usize = 95;
pub const WORDS: usize = GRANTS * GRANT_WORDS;
/// A grant's number for no `from` or `to`.
pub const NO_TIME: u32 = u32::MAX;

#[repr(C)]
#[derive(Clone, Copy, PartialEq, Eq, Debug)]
pub struct Ledger {
    pub clock: u32,
    pub rows: [u32; STREAMS],
}

#[repr(C)]
#[derive(Clone, Copy, PartialEq, Eq, Debug, Default)]
pub struct Grant {
    pub role: u64,
    pub right: u32,
    pub count: u32,
    pub streams: [u32; STREAMS],
    pub shown: u32,
    pub words: u32,
    pub from: u32,
    pub to: u32,
    pub size: u32,
    pub offset: u32,
}

#[repr(C)]
#[derive(Clone, Copy, PartialEq, Eq, Debug)]
pub struct Caller {
    pub roles: u32,
    pub role: [u64; ROLES],
    pub entries: u32,
    pub name: [u64; ENTRIES],
    pub value: [i32; ENTRIES],
}

/// A name as a number: its bytes, the last lowest.
pub fn code_of(name: &str) -> u64 {
    name.bytes()
        .fold(0, |code, byte| code << 8 | u64::from(byte))
}

fn name_of(code: u64) -> Option<Name> {
    let bytes = code.to_be_bytes();
    let start = bytes.iter().position(|&byte| byte != 0)?;
    text::name_of(&bytes[start..])
}

fn names_of(codes: &[u64]) -> Option<Vec<Name>> {
    let names: Option<Vec<Name>> = codes.iter().map(|&code| name_of(code)).collect();
    names.filter(|names| checks::distinct(names))
}

/// Names in front, then zeros.
fn filled(codes: &[u64]) -> Option<Vec<Name>> {
    let count = codes.iter().position(|&code| code == 0);
    let (names, rest) = codes.split_at(count.unwrap_or(codes.len()));
    let names = names_of(names)?;
    let reserved = names.iter().any(|name| checks::reserved(name));
    (!reserved && rest.iter().all(|&code| code == 0)).then_some(names)
}

/// The streams that lent names declare, without rows.
pub fn schema_of(names: &[u64]) -> Option<Vec<Stream>> {
    if names.len() < NAMES {
        return None;
    }
    let (streams, columns) = names[..NAMES].split_at(STREAMS);
    let streams = filled(streams)?;
    let mut schema = vec![];
    for (at, codes) in columns.chunks(COLUMNS).enumerate() {
        let columns = filled(codes)?;
        if columns.is_empty() != (at >= streams.len()) {
            return None;
        }
        schema.extend(streams.get(at).map(|name| Stream {
            name: name.clone(),
            columns,
            rows: vec![],
        }));
    }
    Some(schema)
}

pub fn ledger_sound(ledger: &Ledger) -> bool {
    Number::from(ledger.clock) <= LAST_TIME && ledger.rows.iter().all(|&n| n as usize <= ROWS)
}

/// The clock, and the streams with their rows.
pub fn record_of(names: &[u64], ledger: &Ledger, times: &[u32], values: &[i32]) -> Option<State> {
    let mut streams = schema_of(names)?;
    let undeclared = &ledger.rows[streams.len()..];
    let empty = undeclared.iter().all(|&count| count == 0);
    if !ledger_sound(ledger) || !empty || times.len() < TIMES || values.len() < VALUES {
        return None;
    }
    for (at, stream) in streams.iter_mut().enumerate() {
        let places = at * ROWS..at * ROWS + ledger.rows[at] as usize;
        let times = &times[places.clone()];
        let past = times.last().is_some_and(|&last| last > ledger.clock);
        if past || !times.is_sorted() {
            return None;
        }
        let width = stream.columns.len();
        let row = |place: usize| Row {
            time: i64::from(times[place - at * ROWS]),
            values: wide(&values[place * COLUMNS..place * COLUMNS + width]),
        };
        stream.rows = places.map(row).collect();
    }
    Some(State {
        streams,
        clock: i64::from(ledger.clock),
        ..State::default()
    })
}

fn wide(values: &[i32]) -> Vec<i64> {
    values.iter().map(|&value| i64::from(value)).collect()
}

pub fn caller_of(caller: &Caller) -> Option<forms::Caller> {
    let (roles, entries) = (caller.roles as usize, caller.entries as usize);
    let names = names_of(caller.name.get(..entries)?)?;
    let values = caller.value.iter().map(|&value| Number::from(value));
    Some(forms::Caller {
        roles: names_of(caller.role.get(..roles)?)?,
        entries: names.into_iter().zip(values).collect(),
    })
}

pub const RIGHTS: [Right; 6] = [
    Right::Read,
    Right::Figures(Function::Min),
    Right::Figures(Function::Max),
    Right::Figures(Function::Count),
    Right::Figures(Function::Avg),
    Right::Figures(Function::Sum),
];

/// A lent grant whose words hold conditions given by places, as `places_of` gives them.
pub fn grant_of(grant: &Grant, when: &[Condition], streams: &[Stream]) -> Option<forms::Grant> {
    let right = *RIGHTS.get(grant.right as usize)?;
    let count = grant.count as usize;
    if !(1..=OF).contains(&count) || grant.words as usize > GRANT_WORDS {
        return None;
    }
    let numbers: Vec<usize> = grant.streams[..count].iter().map(|&s| s as usize).collect();
    let of: Option<Vec<&Stream>> = numbers.iter().map(|&s| streams.get(s)).collect();
    let window = (Number::from(grant.size), Number::from(grant.offset));
    let windowed = right != Right::Read || window == (0, 0);
    let (from, to) = (limit_of(grant.from)?, limit_of(grant.to)?);
    let ordered = from.zip(to).is_none_or(|(from, to)| from <= to);
    if !windowed || window.0.max(window.1) > LAST_TIME || !ordered || !checks::distinct(&numbers) {
        return None;
    }
    let named: Option<Vec<Condition>> = when.iter().map(|c| named(c, &numbers, streams)).collect();
    Some(forms::Grant {
        role: name_of(grant.role)?,
        right,
        of: of?.iter().map(|stream| stream.name.clone()).collect(),
        show: Show::Listed(shown_of(grant.shown, &numbers, streams)?),
        when: named?,
        from,
        to,
        window: (right != Right::Read).then_some(window),
    })
}

fn limit_of(time: u32) -> Option<Option<Number>> {
    match time {
        NO_TIME => Some(None),
        _ if Number::from(time) <= LAST_TIME => Some(Some(Number::from(time))),
        _ => None,
    }
}

/// The columns of shown bits: at least one, each of a stream of the grant.
fn shown_of(bits: u32, of: &[usize], streams: &[Stream]) -> Option<Vec<Ref>> {
    let places: Vec<usize> = (0..32).filter(|&at| bits >> at & 1 == 1).collect();
    let column = |&place: &usize| {
        let (stream, at) = (place / COLUMNS, place % COLUMNS);
        let header = streams.get(stream).filter(|_| of.contains(&stream))?;
        header.header().get(at).cloned()
    };
    let shown: Option<Vec<Ref>> = places.iter().map(column).collect();
    shown.filter(|shown| !shown.is_empty())
}

/// The bits of shown columns.
pub fn shown_bits(shown: &[Ref], streams: &[Stream]) -> u32 {
    let place = |column: &Ref| {
        let mut headers = streams.iter().map(Stream::header).enumerate();
        let found = headers.find_map(|(at, header)| {
            let place = header.iter().position(|shown| shown == column)?;
            Some(at * COLUMNS + place)
        });
        found.expect("a declared column")
    };
    shown
        .iter()
        .fold(0, |bits, column| bits | 1 << place(column))
}

/// A condition with each column by the numbers of its stream and place, which stay when names change.
pub fn places_of(condition: &Condition, streams: &[Stream]) -> Condition {
    let place = |stream: &Name, column: &Name| {
        let at = streams.iter().position(|s| s.name == *stream)?;
        let place = streams[at].columns.iter().position(|c| c == column)?;
        Some(Ref::Column(at.to_string(), place.to_string()))
    };
    mapped(condition, &place).expect("declared columns")
}

/// The same back, if the columns are of these streams.
fn named(condition: &Condition, of: &[usize], streams: &[Stream]) -> Option<Condition> {
    let name = |stream: &Name, column: &Name| {
        let (stream, column): (usize, usize) = (stream.parse().ok()?, column.parse().ok()?);
        let header = streams.get(stream).filter(|_| of.contains(&stream))?;
        header.header().get(column).cloned()
    };
    mapped(condition, &name)
}

type Renaming<'r> = &'r dyn Fn(&Name, &Name) -> Option<Ref>;

fn mapped(condition: &Condition, column: Renaming) -> Option<Condition> {
    let all = |list: &[Condition]| -> Option<Vec<Condition>> {
        list.iter().map(|inner| mapped(inner, column)).collect()
    };
    let term = |reference: &Ref| match reference {
        Ref::Column(stream, name) => column(stream, name),
        other => Some(other.clone()),
    };
    match condition {
        Condition::And(list) => Some(Condition::And(all(list)?)),
        Condition::Or(list) => Some(Condition::Or(all(list)?)),
        Condition::Not(inner) => Some(Condition::Not(Box::new(mapped(inner, column)?))),
        Condition::Test(sign, a, Operand::Ref(b)) => {
            Some(Condition::Test(*sign, term(a)?, Operand::Ref(term(b)?)))
        }
        Condition::Test(sign, a, b) => Some(Condition::Test(*sign, term(a)?, b.clone())),
    }
}

/// How many words conditions take.
pub fn words_of(conditions: &[Condition]) -> usize {
    let words = |condition: &Condition| match condition {
        Condition::And(list) | Condition::Or(list) => 1 + words_of(list),
        Condition::Not(inner) => 1 + words_of(std::slice::from_ref(inner)),
        Condition::Test(_, _, Operand::Number(_)) => 2,
        Condition::Test(_, _, Operand::Ref(Ref::Own(_))) => 3,
        Condition::Test(..) => 1,
    };
    conditions.iter().map(words).sum()
}
