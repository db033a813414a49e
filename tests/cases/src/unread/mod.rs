//! Nothing turns unread by itself (02, A14): the clauses, tried on accepted scripts. One party gives
//! the states, and with them the premises, another the arrays: in a copy of the model that keeps
//! WEL too long, WEL is 1 by its own states, and these would excuse all that it writes.

mod array;
mod clause;
mod cycles;
mod premises;
mod script;
mod shown;
mod tested;

use std::fmt;

use model::{Calls, Ran, State};

use crate::case::footprint;
use crate::{scripts, size, CHIPS, F25L008A};
use array::{Array, ByteChange, Change, Changed};
pub use clause::{Breach, Clause, Extent};
use cycles::cycles;
pub use cycles::Cycle;
use premises::{Premises, Step};
pub use script::Script;
use shown::Shown;
use tested::tested;

/// Somebody's call that runs a script.
type Run = fn(State, bool, &mut [u8], &[u8], &mut [u8], &mut [u8]) -> Ran;

/// Runs scripts, and tries the clauses on them.
pub struct Unread {
    /// Who gives the states, and an array for it: no state hangs on what that holds.
    states: Run,
    elsewhere: Vec<u8>,
    /// Who gives the arrays, and the array of each chip.
    arrays: Run,
    chips: [Array; 2],
    /// What the frames show, run whole and in parts.
    whole: Shown,
    parts: Shown,
}

/// What a script showed.
pub struct Found {
    /// The clauses that the whole script put to the test.
    pub tested: Vec<Clause>,
    /// What it did with status writes that take time.
    pub cycles: Vec<Cycle>,
    pub breaches: Vec<Breach>,
    /// Whether both parties have the same state before each record, and the script shows and ends the
    /// same run whole and record by record.
    pub agrees: bool,
}

/// The state and the array in which a script ends.
type End = (State, Vec<Changed>);

impl Unread {
    /// `S` gives the states, `A` the arrays.
    pub fn new<S: Calls, A: Calls>() -> Self {
        Self {
            states: S::run,
            elsewhere: vec![0xFF; size(F25L008A)],
            arrays: A::run,
            chips: CHIPS.map(|chip| Array::new(size(chip))),
            whole: Shown::new(),
            parts: Shown::new(),
        }
    }

    /// Runs a script, and tries the clauses on it and on its parts.
    pub fn run(&mut self, script: &Script) -> Found {
        let steps = self.steps(script);
        self.whole.clear(script.shown, 0xA5);
        self.parts.clear(script.shown, 0x5A);
        let premises = steps.iter().fold(Premises::at(&script.state), Premises::and);
        let (state, changed) = self.run_whole(script);
        let tested = tested(&premises, &steps, script.wp_high, !changed.is_empty());
        let cycles = cycles(&steps, &state, script.wp_high);
        let mut found = Found { tested, cycles, breaches: Vec::new(), agrees: true };
        let array = &self.chips[usize::from(script.state.chip != F25L008A)];
        for stretch in &changed {
            let change = array.change(stretch);
            found.breaches.extend(change.breaches(&premises, Extent::Script));
        }
        let in_parts = self.run_in_parts(script, &steps, &mut found);
        found.agrees &= in_parts == (state, changed);
        found.agrees &= self.whole.lent(0, script.shown) == self.parts.lent(0, script.shown);
        found
    }

    /// The records of a script, each with the state before it.
    fn steps<'a>(&mut self, script: &'a Script) -> Vec<Step<'a>> {
        let array = &mut self.elsewhere[..size(script.state.chip)];
        let mut state = script.state;
        let step = |record| {
            let step = Step { state, record };
            let [output, driven] = self.parts.lent(0, step.frame().len());
            state = (self.states)(state, script.wp_high, array, record, output, driven).state;
            step
        };
        scripts::records(&script.bytes).into_iter().map(step).collect()
    }

    fn run_whole(&mut self, script: &Script) -> End {
        let array = &mut self.chips[usize::from(script.state.chip != F25L008A)];
        let [output, driven] = self.whole.lent(0, script.shown);
        let Script { state, wp_high, bytes, .. } = script;
        let ran = (self.arrays)(*state, *wp_high, array.lent(), bytes, output, driven);
        (ran.state, array.put_back())
    }

    /// The same record by record, with a look at where each can write. A part of a script is a
    /// script too, from the chip behind the records before it.
    fn run_in_parts(&mut self, script: &Script, steps: &[Step], found: &mut Found) -> End {
        let array = &mut self.chips[usize::from(script.state.chip != F25L008A)];
        let mut state = script.state;
        let mut premises = Premises::at(&state);
        let mut shown = 0;
        for step in steps {
            found.agrees &= state == step.state;
            let [window, _] = footprint(&step.state, step.frame());
            let before = array.lent()[window.clone()].to_vec();
            let [output, driven] = self.parts.lent(shown, step.frame().len());
            let (wp_high, lent) = (script.wp_high, array.lent());
            state = (self.arrays)(state, wp_high, lent, step.record, output, driven).state;
            shown += step.frame().len();
            premises = premises.of_parts(step);
            if !window.is_empty() {
                let after = &array.lent()[window.clone()];
                let change = Change { from: window.start, before: &before, after };
                found.breaches.extend(change.breaches(&premises, Extent::Part));
            }
        }
        (state, array.put_back())
    }
}

impl Found {
    pub fn is_good(&self) -> bool {
        self.breaches.is_empty() && self.agrees
    }
}

/// What is bad.
impl fmt::Display for Found {
    fn fmt(&self, to: &mut fmt::Formatter<'_>) -> fmt::Result {
        for Breach { clause, extent, byte } in &self.breaches {
            let ByteChange { address, before, after } = byte;
            writeln!(to, "{clause:?}, {extent:?}: at {address:#X} {before:#04X} to {after:#04X}")?;
        }
        if !self.agrees {
            writeln!(to, "the states differ, or what the script shows or how it ends, in parts")?;
        }
        Ok(())
    }
}
