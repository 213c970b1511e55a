//! What the second implementation says of a call: what it returns, and what every lent place holds afterwards.

use second::answering;
use second::checks::{self, Refusal};
use second::forms::{self, Condition, Line, Query};
use second::lent::{self, Caller, GRANT_WORDS, Grant, Ledger, NO_TIME, RIGHTS, WORDS, code_of};
use second::limits::{COLUMNS, GRANTS, ROWS, STREAMS};
use second::state::State;
use second::text::{self, Written};
use second::views;

use crate::lending::{Lent, nobody};
use crate::library::{Call, Outcome};

/// The conditions of accepted grants, by places, and the words that they were stored in.
pub struct Stored {
    pub whens: Vec<Vec<Condition>>,
    pub words: Vec<u32>,
}

/// Says what a call returns and changes `lent` as it does; nothing where the papers do not tell what lent words stand for.
pub fn expect(call: Call, lent: &mut Lent, stored: &Stored) -> Option<Outcome> {
    match call {
        Call::Fresh => Some(Outcome::Ledger(0, fresh())),
        Call::Nobody => Some(Outcome::Caller(0, nobody())),
        Call::Stream => Some(Outcome::Plain(refusal_of(stream(lent)))),
        Call::Clock(_) | Call::Row(_) | Call::Clear => Some(recorded(lent, |l| record(call, l))),
        Call::ClockLine | Call::RowLine | Call::ClearLine => {
            Some(recorded(lent, |lent| record_line(call, lent)))
        }
        Call::Grant(count) => match grant(count, lent) {
            Ok(grant) => Some(Outcome::Grant(0, grant)),
            Err(refusal) => Some(Outcome::Grant(refusal.number(), Grant::default())),
        },
        Call::Caller => match caller(lent) {
            Ok(caller) => Some(Outcome::Caller(0, caller)),
            Err(refusal) => Some(Outcome::Caller(refusal.number(), lent.caller)),
        },
        Call::Ask => counted(ask(lent, stored).transpose()?),
        Call::Line(route) => counted(line(route, lent, stored).transpose()?),
    }
}

fn fresh() -> Ledger {
    Ledger {
        clock: 0,
        rows: [0; STREAMS],
    }
}

fn refusal_of(result: Result<(), Refusal>) -> u32 {
    result.err().map_or(0, Refusal::number)
}

fn counted(result: Result<usize, Refusal>) -> Option<Outcome> {
    match result {
        Ok(count) => Some(Outcome::Count(0, count as u32)),
        Err(refusal) => Some(Outcome::Count(refusal.number(), 0)),
    }
}

fn recorded(lent: &mut Lent, call: impl Fn(&mut Lent) -> Result<Ledger, Refusal>) -> Outcome {
    match call(lent) {
        Ok(ledger) => Outcome::Ledger(0, ledger),
        Err(refusal) => Outcome::Ledger(refusal.number(), lent.ledger),
    }
}

/// A line that is read and checked on what is lent.
fn checked(lent: &Lent, state: &State, wanted: fn(&Line) -> bool) -> Result<Line, Refusal> {
    let written = checks::read(lent.text.lent(), text::read_line)?;
    if !wanted(&written.form) {
        return Err(Refusal::Malformed);
    }
    checks::check(&written, state)?;
    Ok(written.form)
}

fn stream(lent: &mut Lent) -> Result<(), Refusal> {
    let streams = lent::schema_of(lent.names.lent()).ok_or(Refusal::Lent)?;
    let at = streams.len();
    let state = State {
        streams,
        ..State::default()
    };
    let line = checked(lent, &state, |line| matches!(line, Line::Stream(..)))?;
    let Line::Stream(name, columns) = line else {
        unreachable!("a stream line was wanted");
    };
    lent.names.places[at] = code_of(&name);
    for (place, column) in columns.iter().enumerate() {
        lent.names.places[STREAMS + at * COLUMNS + place] = code_of(column);
    }
    Ok(())
}

/// The clock alone, as calls that are lent the ledger alone know it.
fn clock_of(ledger: &Ledger) -> Result<State, Refusal> {
    if !lent::ledger_sound(ledger) {
        return Err(Refusal::Lent);
    }
    Ok(State {
        clock: i64::from(ledger.clock),
        ..State::default()
    })
}

fn record_of(lent: &Lent) -> Result<State, Refusal> {
    let (names, times) = (lent.names.lent(), lent.times.lent());
    lent::record_of(names, &lent.ledger, times, lent.values.lent()).ok_or(Refusal::Lent)
}

fn record(call: Call, lent: &mut Lent) -> Result<Ledger, Refusal> {
    let (line, state) = match call {
        Call::Row(number) => numbered_row(number, lent)?,
        Call::Clock(time) => (Line::Clock(time.into()), clock_of(&lent.ledger)?),
        _ => (Line::Clear, clock_of(&lent.ledger)?),
    };
    let called = Written {
        form: line,
        depth: 0,
    };
    checks::check(&called, &state)?;
    Ok(effect(&called.form, &state, lent))
}

/// The row line that a row call with a stream's number stands for.
fn numbered_row(number: u64, lent: &Lent) -> Result<(Line, State), Refusal> {
    let state = record_of(lent)?;
    let stream = state.streams.get(number.try_into().unwrap_or(usize::MAX));
    let name = stream.ok_or(Refusal::Undeclared)?.name.clone();
    let values = lent.row.lent().iter().map(|&value| value.into());
    Ok((Line::Row(name, values.collect()), state))
}

fn record_line(call: Call, lent: &mut Lent) -> Result<Ledger, Refusal> {
    let (state, wanted): (State, fn(&Line) -> bool) = match call {
        Call::RowLine => (record_of(lent)?, |line| matches!(line, Line::Row(..))),
        Call::ClockLine => (clock_of(&lent.ledger)?, |line| {
            matches!(line, Line::Clock(_))
        }),
        _ => (clock_of(&lent.ledger)?, |line| matches!(line, Line::Clear)),
    };
    let line = checked(lent, &state, wanted)?;
    Ok(effect(&line, &state, lent))
}

/// The ledger after an accepted line; a row stands in the next place of its stream.
fn effect(line: &Line, state: &State, lent: &mut Lent) -> Ledger {
    let mut ledger = lent.ledger;
    match line {
        Line::Clock(time) => ledger.clock = *time as u32,
        Line::Clear => ledger.rows = [0; STREAMS],
        Line::Row(name, values) => {
            let at = state.streams.iter().position(|s| s.name == *name);
            let at = at.expect("a declared stream");
            let place = at * ROWS + ledger.rows[at] as usize;
            lent.times.places[place] = ledger.clock;
            for (column, value) in values.iter().enumerate() {
                lent.values.places[place * COLUMNS + column] = *value as i32;
            }
            ledger.rows[at] += 1;
        }
        _ => unreachable!("a line of the record"),
    }
    ledger
}

/// The grant; what its words hold is not said, so they are left as they were.
fn grant(count: u64, lent: &Lent) -> Result<Grant, Refusal> {
    let streams = lent::schema_of(lent.names.lent()).ok_or(Refusal::Lent)?;
    if count > GRANTS as u64 || lent.words.len < WORDS {
        return Err(Refusal::Lent);
    }
    let granted = forms::Grant {
        role: String::new(),
        right: forms::Right::Read,
        of: vec![],
        show: forms::Show::All,
        when: vec![],
        from: None,
        to: None,
        window: None,
    };
    let state = State {
        streams,
        grants: vec![granted; count as usize],
        ..State::default()
    };
    let line = checked(lent, &state, |line| matches!(line, Line::Grant(_)))?;
    let Line::Grant(grant) = line else {
        unreachable!("a grant line was wanted");
    };
    Ok(stored_grant(&grant, &state))
}

fn stored_grant(grant: &forms::Grant, state: &State) -> Grant {
    let mut streams = [0; STREAMS];
    for (place, name) in grant.of.iter().enumerate() {
        let at = state.streams.iter().position(|s| s.name == *name);
        streams[place] = at.expect("a declared stream") as u32;
    }
    let right = RIGHTS.iter().position(|right| *right == grant.right);
    let time = |limit: Option<forms::Number>| limit.map_or(NO_TIME, |time| time as u32);
    let (size, offset) = grant.window.unwrap_or((0, 0));
    Grant {
        role: code_of(&grant.role),
        right: right.expect("one of six rights") as u32,
        count: grant.of.len() as u32,
        streams,
        shown: lent::shown_bits(&views::shown(grant, state), &state.streams),
        words: lent::words_of(&grant.when) as u32,
        from: time(grant.from),
        to: time(grant.to),
        size: size as u32,
        offset: offset as u32,
    }
}

fn caller(lent: &Lent) -> Result<Caller, Refusal> {
    let wanted = |line: &Line| matches!(line, Line::Caller(_));
    let line = checked(lent, &State::default(), wanted)?;
    let Line::Caller(named) = line else {
        unreachable!("a caller line was wanted");
    };
    let mut caller = nobody();
    caller.roles = named.roles.len() as u32;
    for (place, role) in named.roles.iter().enumerate() {
        caller.role[place] = code_of(role);
    }
    caller.entries = named.entries.len() as u32;
    for (place, (name, value)) in named.entries.iter().enumerate() {
        caller.name[place] = code_of(name);
        caller.value[place] = *value as i32;
    }
    Ok(caller)
}

/// The state that a query is put to; nothing where it hangs on words of an untold form.
pub fn state_of(lent: &Lent, stored: &Stored) -> Result<Option<State>, Refusal> {
    let mut state = record_of(lent)?;
    state.caller = lent::caller_of(&lent.caller).ok_or(Refusal::Lent)?;
    if lent.words.len < WORDS || lent.grants.len > GRANTS {
        return Err(Refusal::Lent);
    }
    let mut told = true;
    for (place, grant) in lent.grants.lent().iter().enumerate() {
        let when = conditions(place, grant, lent, stored);
        told = told && when.is_some();
        let granted = lent::grant_of(grant, when.unwrap_or(&[]), &state.streams);
        state.grants.push(granted.ok_or(Refusal::Lent)?);
    }
    Ok(told.then_some(state))
}

/// The conditions in a grant's words, if these are as a call stored them.
fn conditions<'s>(
    place: usize,
    grant: &Grant,
    lent: &Lent,
    stored: &'s Stored,
) -> Option<&'s [Condition]> {
    let count = grant.words as usize;
    if count == 0 || count > GRANT_WORDS {
        return Some(&[]);
    }
    let when = stored.whens.get(place)?;
    let places = place * GRANT_WORDS..place * GRANT_WORDS + count;
    let same = lent.words.places[places.clone()] == stored.words[places];
    (same && lent::words_of(when) == count).then_some(when)
}

/// A query's text that is read and checked.
fn asked(lent: &Lent, state: &State) -> Result<Query, Refusal> {
    let written = checks::read(lent.text.lent(), text::read_query)?;
    let asked = Written {
        form: Line::Ask(written.form),
        depth: written.depth,
    };
    checks::check(&asked, state)?;
    match asked.form {
        Line::Ask(query) => Ok(query),
        _ => unreachable!("it was made an ask"),
    }
}

fn ask(lent: &mut Lent, stored: &Stored) -> Result<Option<usize>, Refusal> {
    let Some(state) = state_of(lent, stored)? else {
        return Ok(None);
    };
    let query = asked(lent, &state)?;
    let cells = answering::ask(&query, &state, lent.cells.len)?.cells();
    lent.cells.places[..cells.len()].copy_from_slice(&cells);
    Ok(Some(cells.len()))
}

fn line(route: i64, lent: &mut Lent, stored: &Stored) -> Result<Option<usize>, Refusal> {
    let Some(state) = state_of(lent, stored)? else {
        return Ok(None);
    };
    let query = asked(lent, &state)?;
    let line = answering::line(route.into(), &query, &state, lent.bytes.len)?;
    lent.bytes.places[..line.len()].copy_from_slice(line.as_bytes());
    Ok(Some(line.len()))
}
