//! The refusals that a line meets before routes are looked for, in the order of the table.

use crate::forms::{
    Condition, Equality, Grant, Line, Name, Number, Operand, Query, Ref, Right, Show, tests_of,
};
use crate::limits;
use crate::state::State;
use crate::text::Written;

#[derive(Clone, Copy, PartialEq, Eq, Debug)]
pub enum Refusal {
    Malformed = 1,
    Undeclared = 2,
    Bound = 3,
    Misplaced = 4,
    WindowSize = 5,
    Repeated = 6,
    ClockBack = 7,
    StreamFull = 8,
    NoRoute = 9,
    ManyRoutes = 10,
    NoRoom = 11,
    Lent = 12,
}

impl Refusal {
    pub fn number(self) -> u32 {
        self as u32
    }
}

/// What was read, if it is within the bound of a line and of a stated form.
pub fn read<T>(
    text: &[u8],
    reader: fn(&[u8]) -> Option<Written<T>>,
) -> Result<Written<T>, Refusal> {
    if text.len() > limits::LINE {
        return Err(Refusal::Bound);
    }
    reader(text).ok_or(Refusal::Malformed)
}

/// Refusals 3, 2, 6, 4, 5, 7 and 8.
pub fn check(line: &Written<Line>, state: &State) -> Result<(), Refusal> {
    if line.depth > limits::DEPTH || !bounded(&line.form, state) {
        return Err(Refusal::Bound);
    }
    check_form(&line.form, state)?;
    match &line.form {
        Line::Clock(time) if *time < Number::from(state.clock) => Err(Refusal::ClockBack),
        Line::Row(name, _) if state.declared(name).rows.len() >= limits::ROWS => {
            Err(Refusal::StreamFull)
        }
        _ => Ok(()),
    }
}

type Check = fn(&Line, &State) -> bool;

/// Refusals 2, 6, 4 and 5: no bound is tried, as for a rewritten line.
pub fn check_form(line: &Line, state: &State) -> Result<(), Refusal> {
    let tries: [(Refusal, Check); 4] = [
        (Refusal::Undeclared, declared),
        (Refusal::Repeated, listed_once),
        (Refusal::Misplaced, placed),
        (Refusal::WindowSize, windows_fit),
    ];
    match tries.iter().find(|(_, passes)| !passes(line, state)) {
        Some((refusal, _)) => Err(*refusal),
        None => Ok(()),
    }
}

fn query_of(line: &Line) -> Option<&Query> {
    match line {
        Line::Ask(query) | Line::Line(_, query) => Some(query),
        _ => None,
    }
}

fn bounded(line: &Line, state: &State) -> bool {
    if names(line).iter().any(|name| name.len() > limits::NAME) {
        return false;
    }
    match line {
        Line::Stream(_, columns) => {
            columns.len() <= limits::COLUMNS && state.streams.len() < limits::STREAMS
        }
        Line::Grant(grant) => grant_bounded(grant) && state.grants.len() < limits::GRANTS,
        Line::Clock(time) => limits::is_time(*time),
        Line::Row(_, values) => values.iter().all(|&value| limits::is_value(value)),
        Line::Clear => true,
        Line::Caller(caller) => {
            caller.roles.len() <= limits::ROLES
                && caller.entries.len() <= limits::ENTRIES
                && caller.entries.iter().all(|(_, v)| limits::is_value(*v))
        }
        Line::Ask(query) | Line::Line(_, query) => query_bounded(query),
    }
}

fn grant_bounded(grant: &Grant) -> bool {
    let window = grant.window.map(|(size, offset)| [size, offset]);
    let window = window.into_iter().flatten();
    let mut times = grant.from.into_iter().chain(grant.to).chain(window);
    numbers_bounded(&grant.when) && times.all(limits::is_time)
}

fn query_bounded(query: &Query) -> bool {
    let form_bounded = |form: &Query| match form {
        Query::Pick(condition, _) => numbers_bounded(std::slice::from_ref(condition)),
        Query::Aggregate(a, _) => a.size <= limits::LAST_TIME && a.offset <= limits::LAST_TIME,
        _ => true,
    };
    let forms = query.forms();
    forms.len() <= limits::FORMS && forms.into_iter().all(form_bounded)
}

fn numbers_bounded(conditions: &[Condition]) -> bool {
    tests_of(conditions).iter().all(|(_, b)| match b {
        Operand::Number(number) => limits::is_value(*number),
        Operand::Ref(_) => true,
    })
}

fn names(line: &Line) -> Vec<&Name> {
    match line {
        Line::Stream(name, columns) => columns.iter().chain([name]).collect(),
        Line::Grant(grant) => {
            let named = grant.of.iter().chain([&grant.role]);
            named.chain(ref_names(grant.refs())).collect()
        }
        Line::Row(name, _) => vec![name],
        Line::Clock(_) | Line::Clear => vec![],
        Line::Caller(caller) => {
            let entries = caller.entries.iter().map(|(name, _)| name);
            caller.roles.iter().chain(entries).collect()
        }
        Line::Ask(query) | Line::Line(_, query) => {
            let streams = query.streams().into_iter();
            streams.chain(ref_names(query.refs())).collect()
        }
    }
}

fn ref_names(refs: Vec<&Ref>) -> Vec<&Name> {
    refs.into_iter()
        .flat_map(|reference| match reference {
            Ref::Column(stream, column) => vec![stream, column],
            Ref::Own(name) => vec![name],
            Ref::Time | Ref::Figure => vec![],
        })
        .collect()
}

fn declared(line: &Line, state: &State) -> bool {
    let stream = |name: &Name| state.stream(name).is_some();
    let column = |reference: &Ref| match reference {
        Ref::Column(name, column) => state
            .stream(name)
            .is_some_and(|stream| stream.columns.contains(column)),
        Ref::Own(_) | Ref::Time | Ref::Figure => true,
    };
    match line {
        Line::Grant(grant) => grant.of.iter().all(stream) && grant.refs().into_iter().all(column),
        Line::Row(name, _) => stream(name),
        Line::Ask(query) | Line::Line(_, query) => {
            query.streams().into_iter().all(stream) && query.refs().into_iter().all(column)
        }
        Line::Stream(..) | Line::Clock(_) | Line::Clear | Line::Caller(_) => true,
    }
}

fn listed_once(line: &Line, state: &State) -> bool {
    match line {
        Line::Stream(name, columns) => state.stream(name).is_none() && distinct(columns),
        Line::Grant(grant) => distinct(&grant.of) && show_once(&grant.show),
        Line::Caller(caller) => {
            let entries: Vec<&Name> = caller.entries.iter().map(|(name, _)| name).collect();
            distinct(&caller.roles) && distinct(&entries)
        }
        Line::Ask(query) | Line::Line(_, query) => query.forms().into_iter().all(keeps_once),
        Line::Clock(_) | Line::Row(..) | Line::Clear => true,
    }
}

fn show_once(show: &Show) -> bool {
    match show {
        Show::All => true,
        Show::Listed(refs) => distinct(refs),
    }
}

fn keeps_once(form: &Query) -> bool {
    match form {
        Query::Keep(columns, _) => distinct(columns),
        _ => true,
    }
}

pub fn distinct<T: PartialEq>(items: &[T]) -> bool {
    (1..items.len()).all(|at| !items[..at].contains(&items[at]))
}

pub fn reserved(name: &str) -> bool {
    matches!(name, "self" | "time" | "figure")
}

fn placed(line: &Line, state: &State) -> bool {
    match line {
        Line::Stream(name, columns) => !columns.iter().chain([name]).any(|name| reserved(name)),
        Line::Row(name, values) => values.len() == state.declared(name).columns.len(),
        Line::Grant(grant) => grant_placed(grant),
        Line::Ask(query) | Line::Line(_, query) => header(query, state).is_some(),
        Line::Clock(_) | Line::Clear | Line::Caller(_) => true,
    }
}

fn grant_placed(grant: &Grant) -> bool {
    let within = |reference: &Ref| match reference {
        Ref::Column(stream, _) => grant.of.contains(stream),
        Ref::Own(_) | Ref::Time | Ref::Figure => false,
    };
    let compared = |operand: &Operand| match operand {
        Operand::Number(_) | Operand::Ref(Ref::Own(_)) => true,
        Operand::Ref(reference) => within(reference),
    };
    let shows = match &grant.show {
        Show::All => true,
        Show::Listed(refs) => refs.iter().all(within),
    };
    let mut tests = tests_of(&grant.when).into_iter();
    let ordered = grant.from.zip(grant.to).is_none_or(|(from, to)| from <= to);
    grant.of.len() <= limits::OF
        && shows
        && tests.all(|(a, b)| within(a) && compared(b))
        && (grant.window.is_none() || grant.right != Right::Read)
        && ordered
}

/// The columns of a query over declared streams, if each form stands where it may.
pub fn header(query: &Query, state: &State) -> Option<Vec<Ref>> {
    match query {
        Query::In(name) => Some(state.declared(name).header()),
        Query::Pick(condition, inner) => {
            let columns = header(inner, state)?;
            picks(condition, &columns).then_some(columns)
        }
        Query::Keep(kept, inner) => {
            let columns = header(inner, state)?;
            let within = kept.iter().all(|column| columns.contains(column));
            (within && !inner.has_aggregate()).then(|| kept.clone())
        }
        Query::Join(equality, left, right) => {
            let sides = [left, right];
            if sides.iter().any(|s| s.has_join() || s.has_aggregate()) {
                return None;
            }
            let (l, r) = (header(left, state)?, header(right, state)?);
            let apart = distinct(&query.streams());
            (apart && links(equality, &l, &r)).then(|| [l, r].concat())
        }
        Query::Aggregate(aggregate, inner) => {
            let columns = header(inner, state)?;
            let stands = columns.contains(&aggregate.column) && !inner.has_aggregate();
            stands.then(|| vec![Ref::Figure])
        }
    }
}

fn picks(condition: &Condition, columns: &[Ref]) -> bool {
    condition.tests().into_iter().all(|(a, b)| {
        let compared = match b {
            Operand::Number(_) => true,
            Operand::Ref(reference) => columns.contains(reference),
        };
        compared && (*a == Ref::Time || columns.contains(a))
    })
}

fn links(Equality(a, b): &Equality, left: &[Ref], right: &[Ref]) -> bool {
    left.contains(a) && right.contains(b) || left.contains(b) && right.contains(a)
}

fn windows_fit(line: &Line, _: &State) -> bool {
    let fits = |form: &Query| match form {
        Query::Aggregate(a, _) => {
            a.size >= 1 && a.offset >= 1 && a.size <= limits::OVERLAP * a.offset
        }
        _ => true,
    };
    query_of(line).is_none_or(|query| query.forms().into_iter().all(fits))
}
