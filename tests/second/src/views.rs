//! Whose a grant is, and the view that it gives.

use crate::forms::{Caller, Comparison, Condition, Grant, Name, Number, Operand, Ref, Show};
use crate::meaning::Table;
use crate::state::State;

/// A grant belongs to a caller who has its role and every profile entry it names.
pub fn belongs(grant: &Grant, caller: &Caller) -> bool {
    let has = |reference: &&Ref| match reference {
        Ref::Own(name) => entry(caller, name).is_some(),
        _ => true,
    };
    caller.roles.contains(&grant.role) && grant.refs().iter().all(has)
}

fn entry(caller: &Caller, name: &str) -> Option<Number> {
    let found = caller.entries.iter().find(|(entry, _)| entry == name);
    found.map(|(_, value)| *value)
}

/// The shown columns, streams as in `of`, each in its own order.
pub fn shown(grant: &Grant, state: &State) -> Vec<Ref> {
    let header = |name: &Name| state.declared(name).header();
    let all = grant.of.iter().flat_map(header);
    match &grant.show {
        Show::All => all.collect(),
        Show::Listed(listed) => all.filter(|column| listed.contains(column)).collect(),
    }
}

/// What a row of the view meets: `when` with the caller's values put in, then the times.
pub fn conditions(grant: &Grant, caller: &Caller) -> Vec<Condition> {
    let when = grant.when.iter().map(|c| with_values(c, caller));
    let limit = |comparison, time: Option<Number>| {
        time.map(|time| Condition::Test(comparison, Ref::Time, Operand::Number(time)))
    };
    let from = limit(Comparison::AtLeast, grant.from);
    let to = limit(Comparison::AtMost, grant.to);
    when.chain(from).chain(to).collect()
}

fn with_values(condition: &Condition, caller: &Caller) -> Condition {
    let all = |list: &[Condition]| list.iter().map(|c| with_values(c, caller)).collect();
    match condition {
        Condition::And(list) => Condition::And(all(list)),
        Condition::Or(list) => Condition::Or(all(list)),
        Condition::Not(inner) => Condition::Not(Box::new(with_values(inner, caller))),
        Condition::Test(comparison, a, Operand::Ref(Ref::Own(name))) => {
            let value = entry(caller, name).expect("an entry of the caller");
            Condition::Test(*comparison, a.clone(), Operand::Number(value))
        }
        Condition::Test(..) => condition.clone(),
    }
}

pub fn view(grant: &Grant, state: &State) -> Table {
    let tables = grant.of.iter().map(|name| state.declared(name).table());
    let pairs = tables.reduce(|left, right| left.times(&right));
    let rows = pairs.expect("a stream in `of`");
    rows.pick(&Condition::And(conditions(grant, &state.caller)))
        .keep(&shown(grant, state))
}
