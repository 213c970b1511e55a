//! Conditions, and the equalities of joins.

use super::{ENTRIES, Maker, ODD_REFS};

const SIGNS: [&str; 6] = ["=", "/=", "<", "<=", ">", ">="];

impl Maker {
    /// The same columns most of the time, so that grants hold the equalities of queries.
    pub(super) fn equality(&mut self, left: &[String], right: &[String]) -> String {
        let (mut a, mut b) = match self.random.one_in(4) {
            true => (self.random.choose(left), self.random.choose(right)),
            false => (&left[0], &right[0]),
        };
        if self.random.one_in(4) {
            (a, b) = (b, a);
        }
        if self.slips() {
            return format!("(= {a} {})", self.random.choose(&ODD_REFS));
        }
        let sign = if self.slips() { "<" } else { "=" };
        format!("({sign} {a} {b})")
    }

    pub(super) fn nesting(&mut self) -> usize {
        match self.random.below(10) {
            0 => self.random.below(9),
            1 | 2 => 2,
            3 | 4 => 1,
            _ => 0,
        }
    }

    /// A condition on columns, nested up to a depth.
    pub(super) fn condition(
        &mut self,
        columns: &[String],
        own: bool,
        time: bool,
        depth: usize,
    ) -> String {
        if depth == 0 || self.random.one_in(6) {
            return self.comparison(columns, own, time);
        }
        let head = *self.random.choose(&["and", "or", "not"]);
        let count = match head {
            "not" if !self.slips() => 1,
            _ if depth > 2 => 1,
            _ => self.random.below(3) + usize::from(!self.slips()),
        };
        let mut text = format!("({head}");
        for _ in 0..count {
            text += &format!(" {}", self.condition(columns, own, time, depth - 1));
        }
        text + ")"
    }

    pub(super) fn comparison(&mut self, columns: &[String], own: bool, time: bool) -> String {
        let sign = match self.slips() {
            true => "==",
            false => *self.random.choose(&SIGNS),
        };
        let a = match self.random.one_in(8) && time || columns.is_empty() {
            true => "time".to_string(),
            false => self.random.choose(columns).clone(),
        };
        let a = match self.slips() {
            true => self.random.choose(&ODD_REFS).to_string(),
            false => a,
        };
        let value = self.value();
        let b = match self.random.below(6) {
            0 if own => format!("self.{}", self.random.choose(&ENTRIES[..3])),
            2 if !columns.is_empty() => self.random.choose(columns).clone(),
            _ if self.slips() => self.random.choose(&ODD_REFS).to_string(),
            _ if a == "time" => self.random.between(0, 60).to_string(),
            _ => self.number_or_odd(value),
        };
        format!("({sign} {a} {b})")
    }
}
