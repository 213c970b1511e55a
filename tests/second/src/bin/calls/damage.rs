//! Lent memory changed in one place, or lent too short or longer.

use second::lent::{Caller, Grant, Ledger, RIGHTS, code_of};
use second::limits::GRANTS;
use second::random::Random;

use crate::lending::{GUARD, Lent, Slice, any_grant};
use crate::library::Call;

/// Names that may, and numbers that may not stand for one.
const NAMES: [&str; 9] = [
    "a", "test", "lot", "x", "self", "time", "figure", "Upper", "9x",
];

pub fn damage(call: Call, lent: &mut Lent, random: &mut Random) {
    let record: &[fn(&mut Lent, &mut Random)] = &[names, ledger, times, values];
    match call {
        Call::Stream => names(lent, random),
        Call::Clock(_) | Call::Clear | Call::ClockLine | Call::ClearLine => ledger(lent, random),
        Call::Row(_) | Call::RowLine => random.choose(record)(lent, random),
        Call::Grant(_) => random.choose(&[names, words])(lent, random),
        Call::Caller => caller(lent, random),
        Call::Ask | Call::Line(_) => {
            let catalogue: &[fn(&mut Lent, &mut Random)] = &[caller, words, grants, grants];
            random.choose(&[record, catalogue].concat())(lent, random);
        }
        Call::Fresh | Call::Nobody => {}
    }
}

/// Lends another length than the one that is there.
fn length<T>(slice: &mut Slice<T>, random: &mut Random) {
    let longest = slice.places.len() - GUARD / 2;
    slice.len = match random.below(4) {
        0 => slice.len.saturating_sub(1),
        1 => 0,
        2 => random.below(longest),
        _ => longest,
    };
    slice.null = random.one_in(2);
}

fn code(random: &mut Random) -> u64 {
    match random.below(8) {
        0 => 0,
        1 => random.bits(),
        2 => random.bits() >> 32,
        _ => code_of(random.choose::<&str>(&NAMES)),
    }
}

fn number(random: &mut Random) -> u32 {
    let any = random.bits() as u32;
    match random.below(7) {
        0 => any,
        1 => any >> 1,
        2 => u32::MAX,
        3 => 2_147_483_647 + any % 2,
        _ => any % 140,
    }
}

fn names(lent: &mut Lent, random: &mut Random) {
    if random.one_in(5) {
        return length(&mut lent.names, random);
    }
    let places = &mut lent.names.places[..lent.names.len];
    let (one, other) = (random.below(places.len()), random.below(places.len()));
    match random.below(3) {
        0 => places.swap(one, other),
        1 => places[one] = places[other],
        _ => places[one] = code(random),
    }
}

fn ledger(lent: &mut Lent, random: &mut Random) {
    let Ledger { clock, rows } = &mut lent.ledger;
    let stream = random.below(rows.len());
    match random.below(5) {
        0 => *clock = number(random),
        1 => *clock = clock.wrapping_sub(random.below(9) as u32),
        2 => rows[stream] = number(random),
        3 => rows[stream] = rows[stream].wrapping_add(1),
        _ => rows[stream] = rows[stream].wrapping_sub(1),
    }
}

/// Most of the time a place that counts.
fn times(lent: &mut Lent, random: &mut Random) {
    if random.one_in(5) {
        return length(&mut lent.times, random);
    }
    let stream = random.below(lent.ledger.rows.len());
    let rows = lent.ledger.rows[stream] as usize;
    let place = stream * 128 + random.below(rows + 1).min(127);
    let time = &mut lent.times.places[place];
    *time = match random.below(4) {
        0 => number(random),
        1 => lent.ledger.clock,
        2 => time.wrapping_add(1),
        _ => time.wrapping_sub(1),
    };
}

fn values(lent: &mut Lent, random: &mut Random) {
    if random.one_in(2) {
        return length(&mut lent.values, random);
    }
    let place = random.below(60);
    lent.values.places[place] = random.bits() as i32;
}

fn words(lent: &mut Lent, random: &mut Random) {
    if random.one_in(4) {
        return length(&mut lent.words, random);
    }
    let place = random.below(lent.grants.len.max(1)) * 95 + random.below(6);
    let word = &mut lent.words.places[place];
    *word = match random.below(3) {
        0 => random.bits() as u32,
        1 => *word ^ 1 << random.below(32),
        _ => number(random),
    };
}

fn grants(lent: &mut Lent, random: &mut Random) {
    let count = lent.grants.len;
    if count == 0 || random.one_in(8) {
        return other_count(lent, random);
    }
    let (one, other) = (random.below(count), random.below(count));
    match random.below(6) {
        0 => lent.grants.places.swap(one, other),
        1 => lent.grants.places[one] = any_grant(random),
        _ => field(&mut lent.grants.places[one], random),
    }
}

/// Fewer grants, or more: what stands behind those accepted, or grants with no condition.
fn other_count(lent: &mut Lent, random: &mut Random) {
    let count = lent.grants.len;
    lent.grants.len = random.below(GRANTS + 4);
    if count == 0 || random.one_in(3) {
        return;
    }
    let free = Grant {
        words: 0,
        ..lent.grants.places[0]
    };
    let longer = count.max(lent.grants.len);
    lent.grants.places[count..longer].fill(free);
}

fn word_count(random: &mut Random) -> u32 {
    match random.below(40) {
        0 => number(random),
        1..10 => random.bits() as u32 >> 12,
        _ => random.below(110) as u32,
    }
}

fn field(grant: &mut Grant, random: &mut Random) {
    let place = random.below(grant.streams.len());
    match random.below(11) {
        0 => grant.role = code(random),
        1 => grant.right = random.below(RIGHTS.len() + 1) as u32,
        2 => grant.count = random.below(4) as u32,
        3 => grant.streams[place] = random.below(5) as u32,
        4 => grant.shown ^= 1 << random.below(26),
        5 => grant.shown = random.bits() as u32 >> random.below(33).min(31),
        6 => grant.words = word_count(random),
        7 => grant.from = number(random),
        8 => grant.to = number(random),
        9 => grant.size = number(random),
        _ => grant.offset = number(random),
    }
}

fn caller(lent: &mut Lent, random: &mut Random) {
    let Caller {
        roles,
        role,
        entries,
        name,
        value,
    } = &mut lent.caller;
    let place = random.below(role.len());
    match random.below(7) {
        0 => *roles = number(random) % 7,
        1 => *roles = number(random),
        2 => role[place] = code(random),
        3 => *entries = number(random) % 7,
        4 => *entries = number(random),
        5 => name[place] = code(random),
        _ => value[place] = random.bits() as i32,
    }
}
