//! The status writes of a plan's steps 1 and 4, where they take time (02, A4), and what the chip's bits
//! are behind a cut of one.

use cases::F25L05PA;
use model::State;

/// What a power-off leaves of BP, TB and BPL, in their places in the status register.
#[derive(Clone, Copy, Debug, PartialEq, Eq)]
pub struct Bits(u8);

/// Which of the two it is: the first takes BP away.
#[derive(Clone, Copy, Debug, PartialEq, Eq, PartialOrd, Ord)]
pub enum Step {
    Unprotects,
    Protects,
}

impl Bits {
    pub fn of(state: &State) -> Self {
        Self(state.bp << 2 | u8::from(state.tb) << 5 | u8::from(state.bpl) << 7)
    }

    /// What a write brings that is pending.
    pub fn pending(state: &State) -> Self {
        Self(state.pending_bits)
    }

    /// What a chip that keeps its bits has to come up with; the other loses them.
    pub fn check(self, state: &State) -> Result<(), String> {
        let rest = State { bp: state.bp, tb: state.tb, bpl: state.bpl, ..at_rest(state.chip) };
        match state.chip == F25L05PA && (Self::of(state) != self || *state != rest) {
            true => Err(format!("other bits than {self:02X?} behind a cut: {state:?}")),
            false => Ok(()),
        }
    }
}

fn at_rest(chip: u8) -> State {
    State { chip, ..State::default() }
}

/// A plan's frame that is one: which, and the bits that it brings.
pub fn write(chip: u8, frame: &[u8]) -> Option<(Step, Bits)> {
    match *frame {
        [0x01, byte] if chip == F25L05PA => Some((step(byte), Bits(byte))),
        _ => None,
    }
}

/// Which one is pending.
pub fn running(state: &State) -> Option<Step> {
    state.pending.then_some(step(state.pending_bits))
}

fn step(byte: u8) -> Step {
    match byte >> 2 & 7 {
        0 => Step::Unprotects,
        _ => Step::Protects,
    }
}
