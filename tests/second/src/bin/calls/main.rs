//! Holds the library's calls for C against the second implementation: random calls on random states, sound and damaged.
//!
//! `calls SEED COUNT`: the first difference is printed, and exits 1.

mod damage;
mod expecting;
mod lending;
mod library;
mod world;

use std::process::ExitCode;
use std::time::{Duration, Instant};

use second::lent::GRANT_WORDS;

use lending::Lent;
use library::{Call, FUNCTIONS, Outcome};
use world::{Attempt, World};

/// Calls on one state before a new one is begun.
const EPISODE: usize = 400;

#[derive(Default)]
struct Tally {
    functions: [usize; FUNCTIONS.len()],
    accepted: [usize; FUNCTIONS.len()],
    refusals: [usize; 12],
    untold: usize,
    longest: Duration,
}

impl Tally {
    fn add(&mut self, call: Call, refusal: u32, time: Duration) {
        self.longest = self.longest.max(time);
        self.functions[call.function()] += 1;
        match refusal {
            0 => self.accepted[call.function()] += 1,
            _ => self.refusals[refusal as usize - 1] += 1,
        }
    }

    fn counts(&self) -> Vec<(String, usize)> {
        let mut counts = vec![];
        for (at, name) in FUNCTIONS.iter().enumerate() {
            counts.push((format!("calls of {name}"), self.functions[at]));
            counts.push(("  accepted".to_string(), self.accepted[at]));
        }
        for (at, count) in self.refusals.iter().enumerate() {
            counts.push((format!("refused {}", at + 1), *count));
        }
        counts.push(("on words of an untold form".to_string(), self.untold));
        counts
    }
}

/// One call, made and compared.
fn step(world: &mut World, tally: &mut Tally) -> Result<(), String> {
    let mut attempt = world.attempt();
    let before = attempt.lent.clone();
    let start = Instant::now();
    let outcome = library::make(attempt.call, &mut attempt.lent);
    let time = start.elapsed();
    let mut expected_lent = before.clone();
    let expected = expecting::expect(attempt.call, &mut expected_lent, &world.stored);
    let fault = match expected {
        Some(expected) => {
            settle(&expected, &attempt, &mut expected_lent);
            compared(&outcome, &expected, &attempt.lent, &expected_lent)
        }
        None => {
            tally.untold += 1;
            kept_within(&outcome, &attempt, &before)
        }
    };
    if let Some(fault) = fault {
        return Err(told(&attempt, &before, &fault));
    }
    tally.add(attempt.call, outcome.refusal(), time);
    world.adopt(attempt, outcome)
}

/// The words of a grant that is to be accepted may hold anything.
fn settle(expected: &Outcome, attempt: &Attempt, after: &mut Lent) {
    if let (Call::Grant(count), Outcome::Grant(0, grant)) = (attempt.call, expected) {
        let start = count as usize * GRANT_WORDS;
        let own = start..start + grant.words as usize;
        let written = &attempt.lent.words.places[own.clone()];
        after.words.places[own].copy_from_slice(written);
    }
}

fn compared(outcome: &Outcome, expected: &Outcome, lent: &Lent, after: &Lent) -> Option<String> {
    if plain(*outcome) != plain(*expected) {
        return Some(format!("returned {outcome:?}\nexpected {expected:?}"));
    }
    (lent != after).then(|| format!("lent memory differs: {}", where_differs(lent, after)))
}

/// Without what stands free: places past the counts of an accepted grant or caller.
fn plain(outcome: Outcome) -> Outcome {
    match outcome {
        Outcome::Grant(0, mut grant) => {
            let used = grant.streams.len().min(grant.count as usize);
            grant.streams[used..].fill(0);
            Outcome::Grant(0, grant)
        }
        Outcome::Caller(0, mut caller) => {
            let roles = caller.role.len().min(caller.roles as usize);
            let entries = caller.name.len().min(caller.entries as usize);
            caller.role[roles..].fill(0);
            caller.name[entries..].fill(0);
            caller.value[entries..].fill(0);
            Outcome::Caller(0, caller)
        }
        other => other,
    }
}

/// What holds of a query whatever its grants' words say: refused, nothing is changed; answered, nothing past the answer.
fn kept_within(outcome: &Outcome, attempt: &Attempt, before: &Lent) -> Option<String> {
    let Outcome::Count(refusal @ 0..=12, count) = *outcome else {
        return Some(format!("returned {outcome:?}"));
    };
    let (lent, count) = (&attempt.lent, count as usize);
    let room = match (refusal, attempt.call) {
        (0, Call::Ask) => before.cells.len,
        (0, _) => before.bytes.len,
        _ => 0,
    };
    if count > room {
        return Some(format!("{count} is beyond the room"));
    }
    let mut after = before.clone();
    match attempt.call {
        Call::Ask => after.cells.places[..count].copy_from_slice(&lent.cells.places[..count]),
        _ => after.bytes.places[..count].copy_from_slice(&lent.bytes.places[..count]),
    }
    (*lent != after).then(|| format!("lent memory differs: {}", where_differs(lent, &after)))
}

fn where_differs(lent: &Lent, expected: &Lent) -> String {
    let differs = [
        ("names", lent.names != expected.names),
        ("times", lent.times != expected.times),
        ("values", lent.values != expected.values),
        ("grants", lent.grants != expected.grants),
        ("words", lent.words != expected.words),
        ("cells", lent.cells != expected.cells),
        ("bytes", lent.bytes != expected.bytes),
        ("text", lent.text != expected.text),
        ("row", lent.row != expected.row),
    ];
    let names = differs.iter().filter(|(_, differs)| *differs);
    names.map(|(name, _)| *name).collect::<Vec<_>>().join(", ")
}

fn told(attempt: &Attempt, before: &Lent, fault: &str) -> String {
    let text = String::from_utf8_lossy(before.text.lent()).into_owned();
    format!(
        "{:?} of {text:?}\n{fault}\nledger {:?}\ncaller {:?}\nnames {:x?}\ngrants {:?}\nrow {:?}\nlengths: words {}, times {}, values {}, cells {}, bytes {}",
        attempt.call,
        before.ledger,
        before.caller,
        before.names.lent(),
        before.grants.lent(),
        before.row.lent(),
        before.words.len,
        before.times.len,
        before.values.len,
        before.cells.len,
        before.bytes.len,
    )
}

fn run(seed: u64, count: usize, tally: &mut Tally) -> Result<(), String> {
    let mut world = World::new(seed);
    for number in 0..count {
        let episode = seed.wrapping_add((number / EPISODE) as u64);
        if number % EPISODE == 0 {
            world = World::new(episode);
        }
        let place = format!("seed {episode}, call {}", number % EPISODE);
        step(&mut world, tally).map_err(|fault| format!("{place}: {fault}"))?;
    }
    Ok(())
}

fn main() -> ExitCode {
    let arguments: Vec<String> = std::env::args().collect();
    let numbers: Vec<u64> = arguments[1..]
        .iter()
        .flat_map(|text| text.parse())
        .collect();
    let [seed, count] = numbers.as_slice() else {
        eprintln!("usage: calls SEED COUNT");
        return ExitCode::FAILURE;
    };
    let mut tally = Tally::default();
    if let Err(fault) = run(*seed, *count as usize, &mut tally) {
        println!("{fault}");
        return ExitCode::FAILURE;
    }
    for (what, count) in tally.counts() {
        println!("{what}: {count}");
    }
    let missing = tally.counts().iter().any(|(_, count)| *count == 0);
    let end = if missing {
        "a count is 0"
    } else {
        "no difference"
    };
    println!("longest call: {} ms", tally.longest.as_millis());
    println!("{count} calls: {end}");
    match missing {
        true => ExitCode::FAILURE,
        false => ExitCode::SUCCESS,
    }
}
