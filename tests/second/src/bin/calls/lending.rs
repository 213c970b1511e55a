//! Memory to lend: slices with guard places behind them.

use second::lent::{Caller, Grant, Ledger, NAMES, TIMES, VALUES, WORDS};
use second::limits::{CELLS, GRANTS, LINE_BYTES};
use second::random::Random;

/// Places behind the longest that is lent.
pub const GUARD: usize = 40;

#[derive(Clone, PartialEq, Eq)]
pub struct Slice<T> {
    /// What is lent, and behind it what no call may touch.
    pub places: Vec<T>,
    pub len: usize,
    /// A slice of no length is lent as null.
    pub null: bool,
}

impl<T> Slice<T> {
    pub fn new(len: usize, mut place: impl FnMut() -> T) -> Slice<T> {
        Slice {
            places: (0..len + GUARD).map(|_| place()).collect(),
            len,
            null: false,
        }
    }

    pub fn lent(&self) -> &[T] {
        &self.places[..self.len]
    }

    pub fn shared(&self) -> (*const T, u64) {
        match self.null && self.len == 0 {
            true => (std::ptr::null(), 0),
            false => (self.places.as_ptr(), self.len as u64),
        }
    }

    pub fn written(&mut self) -> (*mut T, u64) {
        match self.null && self.len == 0 {
            true => (std::ptr::null_mut(), 0),
            false => (self.places.as_mut_ptr(), self.len as u64),
        }
    }
}

impl<T: Clone + Default> Slice<T> {
    pub fn of(items: &[T]) -> Slice<T> {
        let mut places = items.to_vec();
        places.resize(items.len() + GUARD, T::default());
        Slice {
            places,
            len: items.len(),
            null: items.is_empty(),
        }
    }
}

/// All that calls are lent.
#[derive(Clone, PartialEq, Eq)]
pub struct Lent {
    pub names: Slice<u64>,
    pub times: Slice<u32>,
    pub values: Slice<i32>,
    pub grants: Slice<Grant>,
    pub words: Slice<u32>,
    pub ledger: Ledger,
    pub caller: Caller,
    pub text: Slice<u8>,
    pub row: Slice<i32>,
    pub cells: Slice<i64>,
    pub bytes: Slice<u8>,
}

impl Lent {
    /// Memory as a program has it at first: zeros for names, anything elsewhere.
    pub fn fresh(random: &mut Random) -> Lent {
        let mut names = Slice::new(NAMES, || 0);
        names.places[NAMES..].fill(random.bits());
        let mut grants = Slice::new(GRANTS, || any_grant(random));
        grants.len = 0;
        Lent {
            names,
            times: Slice::new(TIMES, || random.bits() as u32),
            values: Slice::new(VALUES, || random.bits() as i32),
            grants,
            words: Slice::new(WORDS, || random.bits() as u32),
            ledger: Ledger {
                clock: 0,
                rows: [0; 4],
            },
            caller: nobody(),
            text: Slice::of(b""),
            row: Slice::of(&[]),
            cells: Slice::new(CELLS, || random.bits() as i64),
            bytes: Slice::new(LINE_BYTES, || random.bits() as u8),
        }
    }
}

pub fn nobody() -> Caller {
    Caller {
        roles: 0,
        role: [0; 4],
        entries: 0,
        name: [0; 4],
        value: [0; 4],
    }
}

pub fn any_grant(random: &mut Random) -> Grant {
    let mut number = || random.bits() as u32;
    Grant {
        right: number(),
        count: number(),
        streams: [number(), number(), number(), number()],
        shown: number(),
        words: number(),
        from: number(),
        to: number(),
        size: number(),
        offset: number(),
        role: u64::from(number()),
    }
}
