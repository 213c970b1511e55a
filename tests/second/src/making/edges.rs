//! Lines and answers at the edge of a bound.

use super::{COLUMNS, Maker};
use crate::random::Random;
use crate::state::State;

impl Maker {
    pub(super) fn long_line(&mut self, state: &State) -> String {
        let target = self.random.between(508, 515) as usize;
        match self.random.below(2) {
            0 => self.long_grant(state, target),
            _ => format!("(ask {})", self.long_query(state, target - "(ask )".len())),
        }
    }

    /// A grant line of a length, with as many words of conditions as may be if they name profile entries.
    pub fn long_grant(&mut self, state: &State, target: usize) -> String {
        let (role, right) = (self.role(), self.function());
        let right = if self.random.one_in(3) { right } else { "read" };
        let Some(stream) = self.some_stream(state) else {
            return "x".repeat(target);
        };
        let (name, column) = (&stream.name, self.random.choose(&stream.columns));
        let head = format!("(grant {role} {right} (of {name}) (show *) (when");
        let comparison = match self.random.one_in(2) {
            true => format!(" (<= {name}.{column} self.n)"),
            false => format!(" (/= {name}.{column} 1)"),
        };
        self.stretched(&head, &comparison, "))", target)
    }

    pub fn long_query(&mut self, state: &State, target: usize) -> String {
        let Some(stream) = self.some_stream(state) else {
            return "x".repeat(target);
        };
        let (name, column) = (&stream.name, self.random.choose(&stream.columns));
        let comparison = format!(" (= {name}.{column} 1)");
        let tail = format!(") (in {name}))");
        self.stretched("(pick (or", &comparison, &tail, target)
    }

    /// A comparison between two texts so many times that all has a length, the last with a longer number; shorter if that cannot be.
    fn stretched(&mut self, head: &str, comparison: &str, tail: &str, target: usize) -> String {
        let mut text = head.to_string();
        while text.len() + tail.len() + comparison.len() <= target {
            let room = target - text.len() - tail.len() - comparison.len();
            let digits = match room {
                0..9 => room,
                _ => self.random.below(2),
            };
            text += &comparison.replace("1)", &format!("1{})", "0".repeat(digits)));
        }
        text + tail
    }
}

/// A script whose one answer has 4,096 or 4,097 cells, give or take a row, or 17 routes.
pub fn full_script(random: &mut Random) -> Vec<Vec<u8>> {
    const FULL: (usize, usize, usize) = (7, 6, 83);
    const OVER: [(usize, usize, usize); 4] = [(16, 3, 63), (16, 6, 36), (16, 1, 126), (17, 1, 2)];
    let (grants, columns, rows) = match random.one_in(2) {
        true => FULL,
        false => *random.choose(&OVER),
    };
    let rows = rows + random.below(3) - 1;
    let stream = format!("(stream s {})", COLUMNS[..columns].join(" "));
    let row = format!("(row s{})", " 1".repeat(columns));
    let mut lines = vec![stream];
    lines.extend(vec![row; rows]);
    lines.extend(vec!["(grant r read (of s) (show *))".to_string(); grants]);
    lines.push("(caller (roles r))".to_string());
    lines.push("(ask (in s))".to_string());
    lines.into_iter().map(String::into_bytes).collect()
}
