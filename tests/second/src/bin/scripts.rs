//! Holds a script program against the second implementation on random scripts.
//!
//! `scripts PROGRAM SEED COUNT`: the first difference is printed with the script's file, and exits 1.

use std::fs::{self, File};
use std::io;
use std::path::PathBuf;
use std::process::{Command, ExitCode};

use second::making::{self, Maker};
use second::routes::Kind;
use second::script::{self, Reply};
use second::state::State;

/// What the scripts have met.
#[derive(Default)]
struct Tally {
    refusals: [usize; 11],
    answers: usize,
    lines: usize,
    kinds: [usize; 3],
}

impl Tally {
    fn add(&mut self, reply: &Reply) {
        match reply {
            Reply::Quiet => {}
            Reply::Refused(refusal) => self.refusals[refusal.number() as usize - 1] += 1,
            Reply::Line(_) => self.lines += 1,
            Reply::Answer(answer) => {
                self.answers += 1;
                for route in &answer.routes {
                    self.kinds[kind_place(route.kind)] += 1;
                }
            }
        }
    }

    fn counts(&self) -> Vec<(String, usize)> {
        let refused = |(at, &count): (usize, &usize)| (format!("refused {}", at + 1), count);
        let opened = |(at, &count): (usize, &usize)| (format!("routes of kind {}", at + 1), count);
        let mut counts: Vec<(String, usize)> =
            self.refusals.iter().enumerate().map(refused).collect();
        counts.push(("answers".to_string(), self.answers));
        counts.push(("lines".to_string(), self.lines));
        counts.extend(self.kinds.iter().enumerate().map(opened));
        counts
    }
}

fn kind_place(kind: Kind) -> usize {
    match kind {
        Kind::Reads => 0,
        Kind::JoinGrant => 1,
        Kind::Figures => 2,
    }
}

/// The script of a seed.
struct Script {
    text: Vec<u8>,
    /// What the second implementation prints of it.
    printed: Vec<String>,
    state: State,
}

impl Script {
    /// Adds a line, which may hold line feeds.
    fn add(&mut self, line: &[u8], tally: &mut Tally) {
        let start = self.text.len();
        self.text.extend(line);
        self.text.push(b'\n');
        for line in script::lines(&self.text[start..]) {
            let reply = script::step(&mut self.state, line);
            tally.add(&reply);
            self.printed.extend(reply.printed());
        }
    }

    /// A last line may stand without a line feed, unless it is empty.
    fn cut(&mut self) {
        if !self.text.ends_with(b"\n\n") {
            self.text.pop();
        }
    }
}

fn made(seed: u64, tally: &mut Tally) -> Script {
    let mut made = Script {
        text: vec![],
        printed: vec![],
        state: State::default(),
    };
    let mut maker = Maker::new(seed);
    if maker.random.one_in(25) {
        for line in making::full_script(&mut maker.random) {
            made.add(&line, tally);
        }
        return made;
    }
    for at in 0..maker.opening() + 5 + maker.random.below(40) {
        let line = maker.line(at, &made.state);
        made.add(&line, tally);
    }
    if maker.random.one_in(2) {
        made.cut();
    }
    made
}

/// The first line that differs, from 1, with what the program and the second implementation print there.
fn difference(said: &[u8], expected: &[String]) -> Option<(usize, String, String)> {
    let said = script::lines(said);
    let count = said.len().max(expected.len());
    let at = (0..count)
        .find(|&at| said.get(at).copied() != expected.get(at).map(|line| line.as_bytes()))?;
    let theirs = said
        .get(at)
        .map(|line| String::from_utf8_lossy(line).into_owned());
    let nothing = || "nothing".to_string();
    let ours = expected.get(at).cloned().unwrap_or_else(nothing);
    Some((at + 1, theirs.unwrap_or_else(nothing), ours))
}

/// Whether the program agrees on a script.
fn agrees(program: &str, file: &PathBuf, expected: &[String]) -> io::Result<bool> {
    let output = Command::new(program).stdin(File::open(file)?).output()?;
    let file = file.display();
    if !output.status.success() {
        println!("{program} ended with {} on {file}", output.status);
        return Ok(false);
    }
    let Some((at, theirs, ours)) = difference(&output.stdout, expected) else {
        return Ok(true);
    };
    println!("output line {at} differs on {file}\n  {program}: {theirs}\n  second: {ours}");
    Ok(false)
}

fn compare(program: &str, seed: u64, count: u64) -> io::Result<bool> {
    let mut tally = Tally::default();
    let file = std::env::temp_dir().join(format!("maltziru-script-{}.txt", std::process::id()));
    for number in 0..count {
        let script = made(seed.wrapping_add(number), &mut tally);
        fs::write(&file, script.text)?;
        if !agrees(program, &file, &script.printed)? {
            println!("seed {}", seed.wrapping_add(number));
            return Ok(false);
        }
    }
    fs::remove_file(&file)?;
    for (what, count) in tally.counts() {
        println!("{what}: {count}");
    }
    let missing = tally.counts().iter().any(|(_, count)| *count == 0);
    println!(
        "{count} scripts: {}",
        if missing {
            "a count is 0"
        } else {
            "no difference"
        }
    );
    Ok(!missing)
}

fn main() -> ExitCode {
    let arguments: Vec<String> = std::env::args().collect();
    let [_, program, seed, count] = arguments.as_slice() else {
        eprintln!("usage: scripts PROGRAM SEED COUNT");
        return ExitCode::FAILURE;
    };
    let (Ok(seed), Ok(count)) = (seed.parse(), count.parse()) else {
        eprintln!("SEED and COUNT are numbers");
        return ExitCode::FAILURE;
    };
    match compare(program, seed, count) {
        Ok(true) => ExitCode::SUCCESS,
        Ok(false) => ExitCode::FAILURE,
        Err(error) => {
            eprintln!("{program}: {error}");
            ExitCode::FAILURE
        }
    }
}
