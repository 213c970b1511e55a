//! Queries.

use super::{LAST_TIME, Maker, ODD_REFS, columns_of};
use crate::state::{State, Stream};

/// A query's text and the columns it has.
struct Part {
    text: String,
    columns: Vec<String>,
}
impl Maker {
    pub fn query(&mut self, state: &State) -> String {
        let Some(first) = self.some_stream(state) else {
            return "(in nosuch)".to_string();
        };
        if self.random.one_in(25) {
            let depth = 1 + self.random.below(4);
            return self.wild(state, first, depth).text;
        }
        let pair = self.pair(state).filter(|_| self.random.one_in(2));
        let bare = self.random.one_in(4);
        let part = match pair {
            Some([left, right]) if self.random.one_in(20) => return self.bushy(left, right).text,
            Some([left, right]) if bare => self.bare_join(left, right),
            Some([left, right]) => self.join(left, right),
            None if bare => self.bare(first),
            None => self.side(first),
        };
        let part = if bare { part } else { self.layered(part) };
        match bare || self.random.one_in(4) {
            true => self.aggregate(part).text,
            false => part.text,
        }
    }

    /// Forms put together with no regard to where they may stand.
    fn wild(&mut self, state: &State, stream: &Stream, depth: usize) -> Part {
        if depth == 0 {
            return self.bare(stream);
        }
        let part = self.wild(state, stream, depth - 1);
        match self.random.below(4) {
            0 => self.layer(part),
            1 => self.aggregate(part),
            _ => {
                let other = self.random.choose(&state.streams);
                let below = self.random.below(depth);
                let side = self.wild(state, other, below);
                match self.random.one_in(2) {
                    true => self.joined(part, side),
                    false => self.joined(side, part),
                }
            }
        }
    }

    fn layers(&mut self) -> usize {
        match self.random.below(12) {
            0..6 => 0,
            6..9 => 1,
            9 | 10 => 2,
            _ => self.random.below(6),
        }
    }

    fn bare(&mut self, stream: &Stream) -> Part {
        Part {
            text: format!("(in {})", self.named(&stream.name)),
            columns: columns_of(stream),
        }
    }

    fn layered(&mut self, mut part: Part) -> Part {
        for _ in 0..self.layers() {
            part = self.layer(part);
        }
        part
    }

    fn side(&mut self, stream: &Stream) -> Part {
        let part = self.bare(stream);
        self.layered(part)
    }

    fn join(&mut self, left: &Stream, right: &Stream) -> Part {
        let (left, right) = (self.side(left), self.side(right));
        self.joined(left, right)
    }

    /// A join with at most keeps in and around it, as aggregate grants want it.
    fn bare_join(&mut self, left: &Stream, right: &Stream) -> Part {
        let (mut left, mut right) = (self.bare(left), self.bare(right));
        if self.random.one_in(3) {
            left = self.keep(left);
        }
        if self.random.one_in(3) {
            right = self.keep(right);
        }
        let joined = self.joined(left, right);
        match self.random.one_in(3) {
            true => self.keep(joined),
            false => joined,
        }
    }

    /// A join of about as many forms as a query may have, within the bound of brackets.
    fn bushy(&mut self, left: &Stream, right: &Stream) -> Part {
        let (left, right) = (self.bare(left), self.bare(right));
        let left = self.thinly_layered(left, 4);
        let right = self.thinly_layered(right, 4);
        let joined = self.joined(left, right);
        self.thinly_layered(joined, 1)
    }

    /// So many layers or one more, each of two brackets at the most.
    fn thinly_layered(&mut self, mut part: Part, count: usize) -> Part {
        for _ in 0..count + self.random.below(2) {
            if self.random.one_in(2) {
                part = self.keep(part);
                continue;
            }
            let condition = self.comparison(&part.columns, false, false);
            part.text = format!("(pick {condition} {})", part.text);
        }
        part
    }

    fn joined(&mut self, left: Part, right: Part) -> Part {
        let equality = self.equality(&left.columns, &right.columns);
        Part {
            text: format!("(join {equality} {} {})", left.text, right.text),
            columns: [left.columns, right.columns].concat(),
        }
    }

    fn layer(&mut self, part: Part) -> Part {
        match self.random.one_in(2) {
            true => self.pick(part),
            false => self.keep(part),
        }
    }

    fn keep(&mut self, part: Part) -> Part {
        let mut columns = self.random.some_of(&part.columns);
        if !self.random.one_in(3) && !columns.contains(&part.columns[0]) {
            columns.push(part.columns[0].clone());
        }
        let mut listed = columns.clone();
        if self.slips() {
            listed.push(self.random.choose(&ODD_REFS).to_string());
        }
        if self.slips() {
            listed.extend_from_within(..1);
        }
        Part {
            text: format!("(keep {} {})", listed.join(" "), part.text),
            columns,
        }
    }

    fn pick(&mut self, part: Part) -> Part {
        let depth = self.nesting();
        let condition = self.condition(&part.columns, false, true, depth);
        Part {
            text: format!("(pick {condition} {})", part.text),
            ..part
        }
    }

    fn aggregate(&mut self, part: Part) -> Part {
        let function = self.function();
        let column = match self.slips() {
            true => self.random.choose(&ODD_REFS).to_string(),
            false => self.random.choose(&part.columns).clone(),
        };
        let (size, offset) = self.window();
        let (size, offset) = (self.number_or_odd(size), self.number_or_odd(offset));
        let mut above = Part {
            text: format!("({function} {column} {size} {offset} {})", part.text),
            columns: vec!["figure".to_string()],
        };
        for _ in 0..self.layers() {
            above = match self.slips() {
                true => self.layer(above),
                false => self.pick(above),
            };
        }
        above
    }

    fn window(&mut self) -> (i64, i64) {
        let scale = if self.habits.stride > 1000 {
            10_000_000
        } else {
            1
        };
        let offset = self.random.between(1, 12) * scale;
        match self.random.below(40) {
            0 => (64 * offset, offset),
            1 => (64 * offset + 1, offset),
            2 => (0, offset),
            3 => (1, -offset),
            4 => (LAST_TIME, LAST_TIME),
            5 => (LAST_TIME + 1, LAST_TIME),
            6 => (1, LAST_TIME),
            7..12 => (self.random.between(1, 9), offset),
            _ => (offset * self.random.between(1, 3), offset),
        }
    }
}
