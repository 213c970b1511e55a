//! Lent memory grown by accepted calls, and the next call to make on it.

use second::forms::Line;
use second::lent;
use second::limits::{CELLS, LINE_BYTES};
use second::making::Maker;
use second::random::Random;
use second::state::State;
use second::text;

use crate::damage::damage;
use crate::expecting::{self, Stored};
use crate::lending::{Lent, Slice};
use crate::library::{Call, Outcome};

pub struct World {
    pub lent: Lent,
    pub stored: Stored,
    state: State,
    maker: Maker,
    random: Random,
    /// Of a hundred calls so many add rows.
    rows: usize,
}

/// A call and what it is lent.
pub struct Attempt {
    pub call: Call,
    pub lent: Lent,
    /// Nothing of the world was changed for it, so what an accepted call leaves is the world's.
    clean: bool,
}

impl World {
    pub fn new(seed: u64) -> World {
        let mut random = Random::new(!seed);
        let lent = Lent::fresh(&mut random);
        World {
            stored: Stored {
                whens: vec![],
                words: lent.words.places.clone(),
            },
            lent,
            state: State::default(),
            maker: Maker::new(seed),
            rows: *random.choose(&[20, 20, 20, 65]),
            random,
        }
    }

    pub fn attempt(&mut self) -> Attempt {
        let call = self.call();
        let mut lent = self.lent.clone();
        lent.text = Slice::of(&self.text(call));
        lent.row = Slice::of(&self.row_values(call));
        (lent.text.null, lent.row.null) = (self.random.one_in(2), self.random.one_in(2));
        let clean = !self.random.one_in(4);
        if !clean {
            damage(call, &mut lent, &mut self.random);
        }
        if matches!(call, Call::Ask | Call::Line(_)) {
            self.room(call, &mut lent);
        }
        Attempt { call, lent, clean }
    }

    fn call(&mut self) -> Call {
        if self.state.streams.len() < 2 {
            return Call::Stream;
        }
        if self.random.below(100) < self.rows {
            return match self.random.one_in(2) {
                true => Call::Row(self.stream_number()),
                false => Call::RowLine,
            };
        }
        match self.random.below(100) {
            0..2 => Call::Stream,
            2 => *self.random.choose(&[Call::Fresh, Call::Nobody]),
            3..15 => Call::Clock(self.time()),
            15..22 => Call::ClockLine,
            22 if self.random.below(60) > self.rows => {
                *self.random.choose(&[Call::Clear, Call::ClearLine])
            }
            22..40 => Call::Grant(self.grant_count()),
            40..50 => Call::Caller,
            50..80 => Call::Ask,
            _ => Call::Line(self.route()),
        }
    }

    fn stream_number(&mut self) -> u64 {
        match self.random.below(40) {
            0 => self.random.bits(),
            1 => self.random.below(6) as u64,
            2..30 if self.rows > 50 => 0,
            _ => self.random.below(self.state.streams.len()) as u64,
        }
    }

    fn time(&mut self) -> i64 {
        match self.random.below(60) {
            0 => self.random.bits() as i64,
            1 => 2_147_483_648,
            2 => self.state.clock - 1,
            3 => -1,
            _ => self.state.clock + self.random.between(0, 8),
        }
    }

    fn grant_count(&mut self) -> u64 {
        match self.random.below(40) {
            0 => self.random.bits(),
            1 => self.random.below(28) as u64,
            _ => self.lent.grants.len as u64,
        }
    }

    fn route(&mut self) -> i64 {
        match self.random.below(12) {
            0 => self.random.bits() as i64,
            1 => self.random.between(-1, 20),
            _ => self.random.between(1, 2),
        }
    }

    fn text(&mut self, call: Call) -> Vec<u8> {
        let call = match self.random.one_in(50) {
            true => *self
                .random
                .choose(&[Call::Stream, Call::RowLine, Call::Ask, Call::Caller]),
            false => call,
        };
        let long = self.random.one_in(20);
        let length = self.random.between(500, 514) as usize;
        let text = match call {
            Call::Stream => self.maker.stream(&self.state),
            Call::ClockLine => self.maker.clock(&self.state),
            Call::RowLine => self.maker.row(&self.state),
            Call::ClearLine => "(clear)".to_string(),
            Call::Grant(_) if long => self.maker.long_grant(&self.state, length),
            Call::Ask | Call::Line(_) if long => self.maker.long_query(&self.state, length),
            Call::Grant(_) => self.maker.grant(&self.state),
            Call::Caller => self.maker.caller(),
            Call::Ask | Call::Line(_) => self.maker.query(&self.state),
            Call::Fresh | Call::Clock(_) | Call::Row(_) | Call::Clear | Call::Nobody => {
                String::new()
            }
        };
        match self.random.below(60) {
            0 => self.noise(),
            1 | 2 => self.maker.damaged(text.into_bytes()),
            _ => text.into_bytes(),
        }
    }

    fn noise(&mut self) -> Vec<u8> {
        let length = *self.random.choose(&[0, 1, 9, 511, 512, 513, 600]);
        (0..length).map(|_| self.random.bits() as u8).collect()
    }

    fn row_values(&mut self, call: Call) -> Vec<i32> {
        let Call::Row(number) = call else {
            return vec![];
        };
        let stream = self.state.streams.get(number as usize);
        let mut count = stream.map_or(1, |stream| stream.columns.len());
        if self.random.one_in(30) {
            count = self.random.below(9);
        }
        (0..count).map(|_| self.maker.value() as i32).collect()
    }

    /// Room for the answer: all, some, or just as much as it needs or one less.
    fn room(&mut self, call: Call, lent: &mut Lent) {
        let needed = match self.random.below(12) {
            0 | 1 => expecting::expect(call, &mut lent.clone(), &self.stored),
            2 => Some(Outcome::Count(0, self.random.below(60) as u32)),
            _ => None,
        };
        let Some(Outcome::Count(0, needed)) = needed else {
            return;
        };
        let room = (needed as usize).saturating_sub(self.random.below(2));
        (lent.cells.len, lent.bytes.len) = (room.min(CELLS), room.min(LINE_BYTES));
        (lent.cells.null, lent.bytes.null) = (true, true);
    }

    /// Takes over what an accepted call returned and left.
    pub fn adopt(&mut self, attempt: Attempt, outcome: Outcome) -> Result<(), String> {
        let refused = outcome.refusal() != 0;
        let unadopted = matches!(attempt.call, Call::Fresh | Call::Nobody);
        if refused || unadopted || !attempt.clean {
            return Ok(());
        }
        let (lent, world) = (attempt.lent, &mut self.lent);
        match (attempt.call, outcome) {
            (Call::Grant(count), Outcome::Grant(_, grant)) if count == world.grants.len as u64 => {
                world.grants.places[world.grants.len] = grant;
                world.grants.len += 1;
                self.stored.words = lent.words.places.clone();
                world.words = lent.words;
                self.remember(lent.text.lent());
            }
            (_, Outcome::Plain(_)) => world.names = lent.names,
            (_, Outcome::Ledger(_, ledger)) => {
                world.ledger = ledger;
                world.times = lent.times;
                world.values = lent.values;
            }
            (_, Outcome::Caller(_, caller)) => world.caller = caller,
            _ => return Ok(()),
        }
        self.refresh()
    }

    fn remember(&mut self, line: &[u8]) {
        let read = text::read_line(line).map(|written| written.form);
        let Some(Line::Grant(grant)) = read else {
            panic!("an accepted grant line is read");
        };
        let streams = &self.state.streams;
        let when = grant.when.iter().map(|c| lent::places_of(c, streams));
        self.stored.whens.push(when.collect());
    }

    fn refresh(&mut self) -> Result<(), String> {
        match expecting::state_of(&self.lent, &self.stored) {
            Ok(Some(state)) => {
                self.state = state;
                Ok(())
            }
            _ => Err("what accepted calls left is not sound".to_string()),
        }
    }
}
