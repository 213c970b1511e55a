//! The script program.

use crate::answering::{self, Answer};
use crate::checks::{self, Refusal};
use crate::forms::Line;
use crate::limits;
use crate::printing;
use crate::state::State;
use crate::text;

pub enum Reply {
    Quiet,
    Refused(Refusal),
    Answer(Answer),
    Line(String),
}

impl Reply {
    pub fn printed(&self) -> Vec<String> {
        match self {
            Reply::Quiet => vec![],
            Reply::Refused(refusal) => vec![format!("refused {}", refusal.number())],
            Reply::Answer(answer) => printing::answer(answer),
            Reply::Line(line) => vec![line.clone()],
        }
    }
}

/// One line of a script, without its line feed.
pub fn step(state: &mut State, text: &[u8]) -> Reply {
    taken(state, text).unwrap_or_else(Reply::Refused)
}

fn taken(state: &mut State, text: &[u8]) -> Result<Reply, Refusal> {
    let written = checks::read(text, text::read_line)?;
    checks::check(&written, state)?;
    match written.form {
        Line::Ask(query) => {
            let answer = answering::ask(&query, state, limits::CELLS)?;
            Ok(Reply::Answer(answer))
        }
        Line::Line(number, query) => {
            let line = answering::line(number, &query, state, limits::LINE_BYTES)?;
            Ok(Reply::Line(line))
        }
        line => {
            state.accept(line);
            Ok(Reply::Quiet)
        }
    }
}

/// The lines of a script: nothing after a last line feed is no line.
pub fn lines(script: &[u8]) -> Vec<&[u8]> {
    let mut lines: Vec<&[u8]> = script.split(|&byte| byte == b'\n').collect();
    if lines.last().is_some_and(|last| last.is_empty()) {
        lines.pop();
    }
    lines
}
