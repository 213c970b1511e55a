//! The routes by which a caller may be answered: queries over views.

use crate::checks;
use crate::forms::{
    Aggregate, Comparison, Condition, Equality, Grant, Name, Operand, Query, Ref, Right,
};
use crate::state::State;
use crate::views;

/// Which of the paper's three kinds a route is of.
#[derive(Clone, Copy, PartialEq, Eq, Debug)]
pub enum Kind {
    Reads,
    JoinGrant,
    Figures,
}

#[derive(Clone, PartialEq, Eq, Debug)]
pub struct Route {
    pub kind: Kind,
    /// Numbers of the grants, from 1.
    pub grants: Vec<usize>,
    /// The query with a grant's number for each view.
    pub query: Query<usize>,
    /// The columns that are left.
    pub header: Vec<Ref>,
}

/// All routes of a checked query, in order.
pub fn routes(query: &Query, state: &State) -> Vec<Route> {
    let mut routes = ways(query, state);
    routes.retain(|route| !route.header.is_empty());
    routes
}

fn ways(query: &Query, state: &State) -> Vec<Route> {
    match query {
        Query::In(stream) => stream_ways(stream, state),
        Query::Pick(condition, inner) => {
            let ways = ways(inner, state).into_iter();
            ways.filter_map(|way| way.pick(condition)).collect()
        }
        Query::Keep(columns, inner) => {
            let ways = ways(inner, state).into_iter();
            ways.map(|way| way.keep(columns)).collect()
        }
        Query::Join(equality, left, right) => {
            let mut all = pair_ways(equality, &ways(left, state), &ways(right, state));
            all.extend(join_ways(query, state));
            all
        }
        Query::Aggregate(aggregate, inner) => {
            let below = ways(inner, state).into_iter();
            let mut all: Vec<Route> = below.filter_map(|way| way.sum(aggregate)).collect();
            all.extend(figure_ways(aggregate, inner, state));
            all
        }
    }
}

impl Route {
    fn over(kind: Kind, number: usize, grant: &Grant, state: &State) -> Route {
        Route {
            kind,
            grants: vec![number],
            query: Query::In(number),
            header: views::shown(grant, state),
        }
    }

    fn shows(&self, reference: &Ref) -> bool {
        *reference == Ref::Time || self.header.contains(reference)
    }

    /// Columns that a pick names must be shown.
    fn pick(self, condition: &Condition) -> Option<Route> {
        if !condition.refs().into_iter().all(|r| self.shows(r)) {
            return None;
        }
        let query = Query::Pick(condition.clone(), Box::new(self.query));
        Some(Route { query, ..self })
    }

    /// Withheld columns are missing.
    fn keep(self, columns: &[Ref]) -> Route {
        let left = columns.iter().filter(|column| self.header.contains(column));
        let header: Vec<Ref> = left.cloned().collect();
        Route {
            query: Query::Keep(header.clone(), Box::new(self.query)),
            header,
            ..self
        }
    }

    fn sum(self, aggregate: &Aggregate) -> Option<Route> {
        if !self.shows(&aggregate.column) {
            return None;
        }
        Some(Route {
            query: Query::Aggregate(aggregate.clone(), Box::new(self.query)),
            header: vec![Ref::Figure],
            ..self
        })
    }
}

/// The caller's grants of a right on just these streams, with their numbers.
fn held<'s>(right: Right, of: &[&Name], state: &'s State) -> Vec<(usize, &'s Grant)> {
    let opens = |(_, grant): &(usize, &Grant)| {
        grant.right == right
            && grant.of.iter().collect::<Vec<_>>() == of
            && views::belongs(grant, &state.caller)
    };
    let numbered = (1..).zip(&state.grants);
    numbered.filter(opens).collect()
}

fn stream_ways(stream: &Name, state: &State) -> Vec<Route> {
    let grants = held(Right::Read, &[stream], state).into_iter();
    grants
        .map(|(number, grant)| Route::over(Kind::Reads, number, grant, state))
        .collect()
}

/// Kind 1 of a join: both sides' columns of the equality must be shown.
fn pair_ways(equality: &Equality, lefts: &[Route], rights: &[Route]) -> Vec<Route> {
    let Equality(a, b) = equality;
    let mut pairs = vec![];
    for left in lefts {
        for right in rights {
            let header = [left.header.as_slice(), &right.header].concat();
            if !header.contains(a) || !header.contains(b) {
                continue;
            }
            let (l, r) = (Box::new(left.query.clone()), Box::new(right.query.clone()));
            pairs.push(Route {
                kind: Kind::Reads,
                grants: [left.grants.as_slice(), &right.grants].concat(),
                query: Query::Join(equality.clone(), l, r),
                header,
            });
        }
    }
    pairs
}

/// Grants on the streams of a join that hold its equality.
fn held_on_join<'s>(right: Right, join: &Query, state: &'s State) -> Vec<(usize, &'s Grant)> {
    let Query::Join(equality, ..) = join else {
        return vec![];
    };
    let mut grants = held(right, &join.streams(), state);
    grants.retain(|(_, grant)| grant.when.iter().any(|c| is_equality(c, equality)));
    grants
}

fn is_equality(condition: &Condition, Equality(a, b): &Equality) -> bool {
    match condition {
        Condition::Test(Comparison::Equal, x, Operand::Ref(y)) => {
            (x, y) == (a, b) || (x, y) == (b, a)
        }
        _ => false,
    }
}

/// Kind 2. A view of pairs carries only the joined time, so a pick on `time` below the join closes it.
fn join_ways(join: &Query, state: &State) -> Vec<Route> {
    let picks = picks_below(join);
    let on_time = |condition: &Condition| condition.refs().contains(&&Ref::Time);
    if picks.iter().any(on_time) {
        return vec![];
    }
    let columns = checks::header(join, state).expect("a checked query");
    let grants = held_on_join(Right::Read, join, state).into_iter();
    grants
        .filter_map(|(number, grant)| {
            let view = Route::over(Kind::JoinGrant, number, grant, state);
            let picked = picks.iter().try_fold(view, |way, pick| way.pick(pick))?;
            Some(picked.keep(&columns))
        })
        .collect()
}

/// The picks of a join's sides, left before right, inner first.
fn picks_below(join: &Query) -> Vec<Condition> {
    let inner_first = |side: &Query| {
        let mut conditions: Vec<Condition> = side.conditions().into_iter().cloned().collect();
        conditions.reverse();
        conditions
    };
    join.inside().into_iter().flat_map(inner_first).collect()
}

/// Kind 3: grants of the aggregate's right whose window its own passes.
fn figure_ways(aggregate: &Aggregate, below: &Query, state: &State) -> Vec<Route> {
    if !below.conditions().is_empty() {
        return vec![];
    }
    let right = Right::Figures(aggregate.function);
    let mut grants = match below.has_join() {
        true => held_on_join(right, join_in(below), state),
        false => held(right, &below.streams(), state),
    };
    grants.retain(|(_, grant)| wide_enough(aggregate, grant));
    let ways = grants.into_iter().filter_map(|(number, grant)| {
        let view = Route::over(Kind::Figures, number, grant, state);
        let kept = match below.has_join() {
            true => keep_around(below, view, state),
            false => view,
        };
        kept.sum(aggregate)
    });
    ways.collect()
}

fn wide_enough(aggregate: &Aggregate, grant: &Grant) -> bool {
    let (size, offset) = grant.window.unwrap_or((0, 0));
    aggregate.size >= size && aggregate.offset >= offset
}

/// The join below keeps alone.
fn join_in(query: &Query) -> &Query {
    match query {
        Query::Keep(_, inner) => join_in(inner),
        join => join,
    }
}

/// The keeps down to the join put around its view, and within them the one of what the sides keep.
fn keep_around(query: &Query, view: Route, state: &State) -> Route {
    match query {
        Query::Keep(columns, inner) => keep_around(inner, view, state).keep(columns),
        join => view.keep(&checks::header(join, state).expect("a checked query")),
    }
}
