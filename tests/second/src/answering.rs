//! Queries answered, and the line of a route: refusals 9, 10 and 11.

use crate::checks::{self, Refusal};
use crate::forms::{Line, Number, Query};
use crate::limits;
use crate::meaning::{self, Row, Table};
use crate::printing;
use crate::rewriting;
use crate::routes::{self, Kind, Route};
use crate::state::State;
use crate::text;
use crate::views;

pub struct Answer {
    pub routes: Vec<RouteRows>,
}

pub struct RouteRows {
    pub kind: Kind,
    grants: Vec<usize>,
    width: usize,
    rows: Vec<Row>,
}

impl RouteRows {
    /// Two grant numbers, width and row count.
    pub fn header_cells(&self) -> Vec<i64> {
        let grant = |at: usize| self.grants.get(at).copied().unwrap_or(0);
        let cells = [grant(0), grant(1), self.width, self.rows.len()];
        cells.map(|cell| cell as i64).to_vec()
    }

    pub fn row_cells(&self) -> Vec<Vec<i64>> {
        let cells = |row: &Row| [&[row.time], row.values.as_slice()].concat();
        self.rows.iter().map(cells).collect()
    }
}

impl Answer {
    pub fn cells(&self) -> Vec<i64> {
        let of_route = |route: &RouteRows| {
            let mut cells = route.header_cells();
            cells.extend(route.row_cells().concat());
            cells
        };
        let mut cells = vec![self.routes.len() as i64];
        cells.extend(self.routes.iter().flat_map(of_route));
        cells
    }
}

/// The answer to a checked query.
///
/// # Panics
/// If a route's rewritten line, run with no grants, gives other rows.
pub fn ask(query: &Query, state: &State, room: usize) -> Result<Answer, Refusal> {
    let routes = routes::routes(query, state);
    if routes.is_empty() {
        return Err(Refusal::NoRoute);
    }
    if routes.len() > limits::ROUTES {
        return Err(Refusal::ManyRoutes);
    }
    let answer = Answer {
        routes: routes.iter().map(|route| rows(route, state)).collect(),
    };
    if answer.cells().len() > room {
        return Err(Refusal::NoRoom);
    }
    for (route, answered) in routes.iter().zip(&answer.routes) {
        let line = printing::query(&rewriting::rewritten(route, query, state));
        let plain = run(&line, state);
        assert!(plain.rows == answered.rows, "other rows of {line}");
    }
    Ok(answer)
}

/// The plain meaning over the granted views.
fn rows(route: &Route, state: &State) -> RouteRows {
    let view = |number: &usize| views::view(&state.grants[number - 1], state);
    let table = meaning::evaluate(&route.query, &view, state.clock);
    RouteRows {
        kind: route.kind,
        grants: route.grants.clone(),
        width: 1 + route.header.len(),
        rows: table.rows,
    }
}

/// A rewritten line run with no grants: bounds on what people write are not tried.
fn run(line: &str, state: &State) -> Table {
    let read = text::read_query(line.as_bytes()).expect("a line of the stated forms");
    let asked = Line::Ask(read.form);
    assert_eq!(checks::check_form(&asked, state), Ok(()), "{line}");
    let Line::Ask(query) = asked else {
        unreachable!("it was made an ask");
    };
    let stream = |name: &String| state.declared(name).table();
    meaning::evaluate(&query, &stream, state.clock)
}

/// The line of a checked query's route of a number, from 1.
pub fn line(number: Number, query: &Query, state: &State, room: usize) -> Result<String, Refusal> {
    let routes = routes::routes(query, state);
    if number < 1 || number > routes.len() as Number {
        return Err(Refusal::NoRoute);
    }
    if routes.len() > limits::ROUTES {
        return Err(Refusal::ManyRoutes);
    }
    let route = &routes[number as usize - 1];
    let line = printing::query(&rewriting::rewritten(route, query, state));
    if line.len() > room {
        return Err(Refusal::NoRoom);
    }
    Ok(line)
}
