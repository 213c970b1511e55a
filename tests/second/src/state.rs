//! What calls leave: schema, record, catalogue and caller.

use crate::forms::{Caller, Grant, Line, Name, Number, Ref};
use crate::meaning::{Row, Table};

#[derive(Clone, PartialEq, Eq, Debug)]
pub struct Stream {
    pub name: Name,
    pub columns: Vec<Name>,
    pub rows: Vec<Row>,
}

#[derive(Clone, PartialEq, Eq, Debug, Default)]
pub struct State {
    pub streams: Vec<Stream>,
    pub clock: i64,
    pub grants: Vec<Grant>,
    pub caller: Caller,
}

impl Stream {
    pub fn header(&self) -> Vec<Ref> {
        let column = |name: &Name| Ref::Column(self.name.clone(), name.clone());
        self.columns.iter().map(column).collect()
    }

    pub fn table(&self) -> Table {
        Table {
            header: self.header(),
            rows: self.rows.clone(),
        }
    }
}

impl State {
    pub fn stream(&self, name: &str) -> Option<&Stream> {
        self.streams.iter().find(|stream| stream.name == name)
    }

    /// The stream of a name that was found declared.
    pub fn declared(&self, name: &str) -> &Stream {
        self.stream(name).expect("a declared stream")
    }

    /// What an accepted line changes.
    pub fn accept(&mut self, line: Line) {
        match line {
            Line::Stream(name, columns) => self.streams.push(Stream {
                name,
                columns,
                rows: vec![],
            }),
            Line::Grant(grant) => self.grants.push(grant),
            Line::Clock(time) => self.clock = small(time),
            Line::Row(name, values) => self.add_row(&name, &values),
            Line::Clear => self.streams.iter_mut().for_each(|s| s.rows.clear()),
            Line::Caller(caller) => self.caller = caller,
            Line::Ask(_) | Line::Line(..) => {}
        }
    }

    fn add_row(&mut self, name: &str, values: &[Number]) {
        let row = Row {
            time: self.clock,
            values: values.iter().map(|&value| small(value)).collect(),
        };
        let named = self.streams.iter_mut().find(|stream| stream.name == name);
        named.expect("a declared stream").rows.push(row);
    }
}

/// A number that its range was tried of.
pub fn small(number: Number) -> i64 {
    i64::try_from(number).expect("a number within its range")
}
