//! Random lines of scripts: most fit the state they are made for, some are odd in one place, some are damaged.

mod conditions;
mod edges;
mod grants;
mod queries;

pub use edges::full_script;

use crate::random::Random;
use crate::state::{State, Stream};

const STREAMS: [&str; 7] = ["a", "test", "pack", "b2", "in", "label", "volts9ab"];
const COLUMNS: [&str; 9] = [
    "x", "lot", "unit", "volts", "y", "and", "k8888888", "test", "z",
];
const ROLES: [&str; 6] = ["fitter", "seller", "r", "time", "keeper", "q1"];
const ENTRIES: [&str; 5] = ["lot", "n", "self", "unit", "box"];
const ODD_NAMES: [&str; 9] = [
    "self",
    "time",
    "figure",
    "nosuch",
    "ninechars",
    "Upper",
    "9x",
    "x_y",
    "waytoolongname",
];
const ODD_REFS: [&str; 14] = [
    "time",
    "figure",
    "self.lot",
    "self.ninechars",
    "self",
    "nosuch.x",
    "a.nosuch",
    "a",
    "a.b.c",
    "a.",
    ".x",
    "test.lot",
    "pack.ninechars",
    "7",
];
const ODD_NUMBERS: [&str; 14] = [
    "-0",
    "007",
    "+1",
    "1_0",
    "",
    "-",
    "2147483648",
    "-2147483649",
    "4294967296",
    "99999999999999999999999999999999999999999999999",
    "-99999999999999999999999999999999999999999999999",
    "-1",
    "0",
    "x",
];
const LAST_TIME: i64 = 2_147_483_647;

/// What the lines of one script have in common.
#[derive(Clone, Copy)]
struct Habits {
    /// One place in so many is odd.
    slip: usize,
    /// One line in so many is damaged.
    damage: usize,
    roles: usize,
    /// Values go from 0 to this.
    spread: i64,
    /// How far the clock goes at a time.
    stride: i64,
    /// Lines of rows and clocks before anything is asked.
    filling: usize,
    grants: usize,
    /// How many grants of a hundred give the right to read.
    reading: usize,
    /// How many of the aggregate functions are in use.
    functions: usize,
}

/// How most scripts are made.
const COMMON: Habits = Habits {
    slip: 200,
    damage: 40,
    roles: 2,
    spread: 4,
    stride: 8,
    filling: 36,
    grants: 9,
    reading: 50,
    functions: 5,
};

impl Habits {
    fn any(random: &mut Random) -> Habits {
        match random.below(10) {
            0 | 1 => Habits {
                filling: 215,
                spread: 1,
                stride: 3,
                slip: 500,
                ..COMMON
            },
            2 | 3 => Habits {
                roles: 1,
                grants: 25,
                reading: 80,
                slip: 500,
                ..COMMON
            },
            4 => Habits {
                slip: 30,
                damage: 8,
                ..COMMON
            },
            5 => Habits {
                stride: 90_000_000,
                ..COMMON
            },
            6 => Habits { slip: 60, ..COMMON },
            7 => Habits {
                grants: 15,
                reading: 20,
                functions: 2,
                ..COMMON
            },
            _ => COMMON,
        }
    }
}

pub struct Maker {
    pub random: Random,
    habits: Habits,
}

impl Maker {
    pub fn new(seed: u64) -> Maker {
        let mut random = Random::new(seed);
        let habits = Habits::any(&mut random);
        Maker { random, habits }
    }

    /// The lines that a script begins with, each made for what those before it leave.
    pub fn opening(&self) -> usize {
        3 + self.habits.filling + self.habits.grants
    }

    /// Line number `at` of a script.
    pub fn line(&mut self, at: usize, state: &State) -> Vec<u8> {
        let filled = 3 + self.habits.filling;
        let text = match at {
            0..3 => self.stream(state),
            _ if at < filled && self.random.one_in(4) => self.clock(state),
            _ if at < filled => self.row(state),
            _ if at < self.opening() => self.grant(state),
            _ if at == self.opening() => self.caller(),
            _ => self.any(state),
        };
        if self.random.one_in(self.habits.damage) {
            return self.damaged(text.into_bytes());
        }
        text.into_bytes()
    }

    fn any(&mut self, state: &State) -> String {
        match self.random.below(100) {
            0..20 => self.row(state),
            20..30 => self.clock(state),
            30..60 => format!("(ask {})", self.query(state)),
            60..78 => format!("(line {} {})", self.route(), self.query(state)),
            78..88 => self.caller(),
            88..96 => self.grant(state),
            96..98 => self.stream(state),
            98 => "(clear)".to_string(),
            _ => self.long_line(state),
        }
    }

    fn slips(&mut self) -> bool {
        self.random.one_in(self.habits.slip)
    }

    fn route(&mut self) -> String {
        if self.random.one_in(12) {
            return self.random.choose(&ODD_NUMBERS).to_string();
        }
        let highest = if self.habits.grants > 20 { 18 } else { 2 };
        self.random.between(1, highest).to_string()
    }

    /// Some bytes changed, dropped, put in or put twice.
    pub fn damaged(&mut self, mut text: Vec<u8>) -> Vec<u8> {
        for _ in 0..=self.random.below(3) {
            let at = self.random.below(text.len() + 1);
            let byte = self.byte();
            match self.random.below(5) {
                0 => text.insert(at, byte),
                1 => text.truncate(at),
                2 if at < text.len() => text[at] = byte,
                3 if at < text.len() => drop(text.remove(at)),
                _ => text.extend_from_within(at..),
            }
        }
        if self.random.one_in(20) {
            text.resize(self.random.between(500, 530) as usize, b'x');
        }
        text
    }

    fn byte(&mut self) -> u8 {
        match self.random.below(2) {
            0 => *self.random.choose(b"() .-*09az=</>\r\0\x7f"),
            _ => self.random.bits() as u8,
        }
    }

    pub fn stream(&mut self, state: &State) -> String {
        let declared = |name: &str| state.stream(name).is_some();
        let new: Vec<&str> = STREAMS.into_iter().filter(|name| !declared(name)).collect();
        let name = match self.random.one_in(30) {
            true => *self.random.choose(&STREAMS),
            false => *self.random.choose(&new),
        };
        let mut columns = self.random.some_of(&COLUMNS[..6]);
        if self.random.one_in(30) {
            columns.push(*self.random.choose(&COLUMNS));
        }
        let mut names: Vec<String> = vec![self.named(name)];
        names.extend(columns.into_iter().map(|column| self.named(column)));
        format!("(stream {})", names.join(" "))
    }

    fn named(&mut self, name: &str) -> String {
        match self.slips() {
            true => self.random.choose(&ODD_NAMES).to_string(),
            false => name.to_string(),
        }
    }

    fn some_stream<'s>(&mut self, state: &'s State) -> Option<&'s Stream> {
        match state.streams.is_empty() {
            true => None,
            false => Some(self.random.choose(&state.streams)),
        }
    }

    pub fn clock(&mut self, state: &State) -> String {
        let time = match self.random.below(300) {
            0..4 => state.clock - 1,
            4..8 => state.clock / 2,
            8 => LAST_TIME + self.random.between(-1, 1),
            9..12 => -1,
            _ => state.clock + self.random.between(0, self.habits.stride),
        };
        format!("(clock {})", self.number_or_odd(time))
    }

    fn number_or_odd(&mut self, number: i64) -> String {
        match self.slips() {
            true => self.random.choose(&ODD_NUMBERS).to_string(),
            false => number.to_string(),
        }
    }

    pub fn value(&mut self) -> i64 {
        match self.random.below(60) {
            0 => i64::from(i32::MIN),
            1 => i64::from(i32::MAX),
            2..8 => self.random.between(-9, -1),
            _ => self.random.between(0, self.habits.spread),
        }
    }

    pub fn row(&mut self, state: &State) -> String {
        let Some(stream) = self.some_stream(state) else {
            return "(row nosuch 1 2)".to_string();
        };
        let stream = match self.habits.filling > 100 && !self.random.one_in(4) {
            true => &state.streams[0],
            false => stream,
        };
        let mut values = stream.columns.len();
        if self.slips() {
            values = 1 + self.random.below(8);
        }
        let mut text = format!("(row {}", self.named(&stream.name));
        for _ in 0..values {
            let value = self.value();
            text += &format!(" {}", self.number_or_odd(value));
        }
        text + ")"
    }

    fn role(&mut self) -> String {
        let role = *self.random.choose(&ROLES[..self.habits.roles]);
        self.named(role)
    }

    pub fn caller(&mut self) -> String {
        let mut roles = ROLES[..self.habits.roles].to_vec();
        if self.random.one_in(3) {
            roles = self.random.some_of(&ROLES[..self.habits.roles + 1]);
        }
        if self.random.one_in(20) {
            roles.clear();
        }
        if self.random.one_in(30) {
            roles.extend(self.random.some_of(&ROLES));
        }
        let mut entries = ENTRIES[..3].to_vec();
        if self.random.one_in(4) {
            entries = self.random.some_of(&entries);
        }
        if self.random.one_in(30) {
            entries.extend(self.random.some_of(&ENTRIES));
        }
        let mut text = "(caller (roles".to_string();
        for role in roles {
            text += &format!(" {}", self.named(role));
        }
        text += ")";
        for entry in entries {
            let value = self.value();
            let (entry, value) = (self.named(entry), self.number_or_odd(value));
            text += &format!(" (self {entry} {value})");
        }
        text + ")"
    }
}

fn columns_of(stream: &Stream) -> Vec<String> {
    let name = &stream.name;
    stream
        .columns
        .iter()
        .map(|c| format!("{name}.{c}"))
        .collect()
}
