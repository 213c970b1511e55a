//! Runs a script from standard input and prints what the script program must print.

use std::io::{self, Read, Write};

use second::script;
use second::state::State;

fn main() -> io::Result<()> {
    let mut text = vec![];
    io::stdin().read_to_end(&mut text)?;
    let mut out = io::BufWriter::new(io::stdout().lock());
    let mut state = State::default();
    for line in script::lines(&text) {
        for printed in script::step(&mut state, line).printed() {
            writeln!(out, "{printed}")?;
        }
    }
    out.flush()
}
