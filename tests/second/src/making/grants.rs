//! Grant lines.

use super::{Maker, ODD_REFS, columns_of};
use crate::random::Random;
use crate::state::{State, Stream};

const FUNCTIONS: [&str; 5] = ["min", "max", "count", "avg", "sum"];

impl Maker {
    pub fn grant(&mut self, state: &State) -> String {
        let (role, of) = (self.role(), self.granted_streams(state));
        let right = match self.random.below(100) < self.habits.reading {
            true => "read",
            false => self.function(),
        };
        let right = match self.slips() {
            true => "all",
            false => right,
        };
        let columns: Vec<String> = of.iter().flat_map(|stream| columns_of(stream)).collect();
        let names: Vec<String> = of.iter().map(|stream| self.named(&stream.name)).collect();
        let (show, when) = (self.show(&columns), self.when(&of, &columns));
        let (limits, window) = (self.limits(state), self.grant_window(right));
        format!(
            "(grant {role} {right} (of {}) (show {show}){when}{limits}{window})",
            names.join(" ")
        )
    }

    /// The first ones most often, so that grants and queries meet.
    pub(super) fn function(&mut self) -> &'static str {
        let count = self.habits.functions;
        let (one, other) = (self.random.below(count), self.random.below(count));
        FUNCTIONS[one.min(other)]
    }

    /// One or two different streams, now and then three or the same twice.
    fn granted_streams<'s>(&mut self, state: &'s State) -> Vec<&'s Stream> {
        let Some(first) = self.some_stream(state) else {
            return vec![];
        };
        if self.random.one_in(60) {
            return state.streams.iter().take(3).collect();
        }
        if self.random.one_in(100) {
            return vec![first, first];
        }
        match self.random.one_in(2) {
            true => self.pair(state).map_or(vec![], Vec::from),
            false => vec![first],
        }
    }

    /// Two streams, most of the time the first two, so that grants and queries meet.
    pub(super) fn pair<'s>(&mut self, state: &'s State) -> Option<[&'s Stream; 2]> {
        let [first, second, ..] = state.streams.as_slice() else {
            return None;
        };
        if !self.random.one_in(4) {
            return Some([first, second]);
        }
        let (left, right) = (self.some_stream(state)?, self.some_stream(state)?);
        match left.name != right.name || self.random.one_in(10) {
            true => Some([left, right]),
            false => Some([second, first]),
        }
    }

    fn show(&mut self, columns: &[String]) -> String {
        if !self.random.one_in(3) {
            return "*".to_string();
        }
        let mut shown = self.random.some_of(columns);
        if self.slips() {
            shown.push(self.random.choose(&ODD_REFS).to_string());
        }
        if self.slips() {
            shown.extend_from_within(..1.min(shown.len()));
        }
        shown.join(" ")
    }

    fn when(&mut self, of: &[&Stream], columns: &[String]) -> String {
        let mut conditions = vec![];
        if of.len() == 2 && !self.random.one_in(6) {
            conditions.push(self.equality(&columns_of(of[0]), &columns_of(of[1])));
        }
        for _ in 0..self.random.below(5) / 2 {
            let depth = self.nesting();
            conditions.push(self.condition(columns, true, false, depth));
        }
        match conditions.is_empty() {
            true => String::new(),
            false => format!(" (when {})", conditions.join(" ")),
        }
    }

    fn limits(&mut self, state: &State) -> String {
        let mut text = String::new();
        let near = |random: &mut Random| (state.clock + random.between(-40, 9)).max(0);
        if self.random.one_in(6) {
            let from = near(&mut self.random) / 2;
            text += &format!(" (from {})", self.number_or_odd(from));
        }
        if self.random.one_in(6) {
            let to = near(&mut self.random);
            text += &format!(" (to {})", self.number_or_odd(to));
        }
        text
    }

    fn grant_window(&mut self, right: &str) -> String {
        if right == "read" && !self.slips() || self.random.one_in(2) {
            return String::new();
        }
        let (size, offset) = (self.random.between(0, 9), self.random.between(0, 9));
        let (size, offset) = (self.number_or_odd(size), self.number_or_odd(offset));
        format!(" (window {size} {offset})")
    }
}
