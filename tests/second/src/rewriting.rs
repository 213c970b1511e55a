//! A route as a plain query: each view's definition in its place.

use crate::forms::{Condition, Equality, Grant, Query};
use crate::routes::Route;
use crate::state::State;
use crate::views;

/// The rewritten query of a route of `asked`.
pub fn rewritten(route: &Route, asked: &Query, state: &State) -> Query {
    let joined = asked.forms().into_iter().find_map(|form| match form {
        Query::Join(equality, ..) => Some(equality),
        _ => None,
    });
    defined(&route.query, joined, state)
}

fn defined(query: &Query<usize>, joined: Option<&Equality>, state: &State) -> Query {
    let below = |inner: &Query<usize>| Box::new(defined(inner, joined, state));
    match query {
        Query::In(number) => definition(&state.grants[number - 1], joined, state),
        Query::Pick(condition, inner) => Query::Pick(condition.clone(), below(inner)),
        Query::Keep(columns, inner) => Query::Keep(columns.clone(), below(inner)),
        Query::Join(equality, left, right) => {
            Query::Join(equality.clone(), below(left), below(right))
        }
        Query::Aggregate(aggregate, inner) => Query::Aggregate(aggregate.clone(), below(inner)),
    }
}

/// A view as a query; that of a pair stands over the query's own equality.
fn definition(grant: &Grant, joined: Option<&Equality>, state: &State) -> Query {
    let source = match (grant.of.as_slice(), joined) {
        ([left, right], Some(equality)) => Query::Join(
            equality.clone(),
            Box::new(Query::In(left.clone())),
            Box::new(Query::In(right.clone())),
        ),
        (of, _) => Query::In(of[0].clone()),
    };
    let conditions = views::conditions(grant, &state.caller);
    let picked = match conditions.is_empty() {
        true => source,
        false => Query::Pick(Condition::And(conditions), Box::new(source)),
    };
    Query::Keep(views::shown(grant, state), Box::new(picked))
}
