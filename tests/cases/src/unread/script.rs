//! Scripts to try the clauses on.

use std::fmt;

use model::State;

use super::array;
use crate::case::{Case, Line, Outcome};
use crate::literal::{bytes_text, line_text, state_text};
use crate::size;

/// An accepted script, and what it was given with.
pub struct Script {
    pub state: State,
    pub wp_high: bool,
    pub bytes: Vec<u8>,
    /// How many bytes its frames show.
    pub shown: usize,
}

impl Script {
    /// That of a case, if it is a run and was accepted.
    pub fn of(case: &Case, outcome: &Outcome) -> Option<Self> {
        match case {
            Case::Run { on, script, line } if outcome.number() == 0 => Some(Self {
                state: on.state,
                wp_high: on.wp_high,
                bytes: script.clone(),
                shown: line.output,
            }),
            _ => None,
        }
    }
}

/// As Rust text that can be pasted.
impl fmt::Display for Script {
    fn fmt(&self, to: &mut fmt::Formatter<'_>) -> fmt::Result {
        writeln!(to, "{}", state_text(&self.state))?;
        writeln!(to, "let wp_high = {};", self.wp_high)?;
        writeln!(to, "{}", array::text(size(self.state.chip)))?;
        writeln!(to, "let script = {};", bytes_text(&self.bytes))?;
        writeln!(to, "{}", line_text(&Line::of(self.shown)))?;
        write!(to, "Library::run(state, wp_high, &mut array, &script, &mut output, &mut driven);")
    }
}
