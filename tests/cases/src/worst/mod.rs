//! How long a save can take (02, A8): the limits of a chip's accepted plans, the plans that reach
//! them, and random ones, which must keep them.

mod amounts;
mod reached;
mod saves;

use std::fmt;

use model::{Calls, Planned, State, Surveyed};

pub use amounts::{Amounts, Limit};
pub use reached::failing;
pub use saves::Save;
use saves::Saves;

/// The refusal for want of room.
const ROOM: u32 = 10;
/// More room than any plan takes, that of a wrong copy too.
const AMPLE: usize = 65_536;

/// What is wrong with a plan that has the room of its chip's longest.
#[derive(Clone, Copy, Debug, PartialEq, Eq, PartialOrd, Ord)]
pub enum Breach {
    /// It is refused for want of room.
    Short,
    /// Its script has other frames or microseconds than it says.
    Miscounted,
    /// It passes a limit.
    Above(Limit),
}

/// What a plan showed.
pub struct Found {
    pub number: u32,
    pub amounts: Amounts,
    pub breaches: Vec<Breach>,
}

/// Somebody's calls.
type Plan = fn(State, bool, &[u8], usize, &[u8], &mut [u8]) -> Planned;
type Survey = fn(&[u8]) -> Surveyed;

/// Plans random saves of a chip.
pub struct Planner {
    chip: u8,
    saves: Saves,
    buffer: Vec<u8>,
    plan: Plan,
    survey: Survey,
}

impl Planner {
    pub fn new<C: Calls>(chip: u8, seed: u64) -> Self {
        let saves = Saves::new(chip, seed);
        Self { chip, saves, buffer: vec![0; AMPLE], plan: C::plan, survey: C::survey }
    }

    /// Plans one more save.
    pub fn plan(&mut self) -> (Save, Found) {
        let save = self.saves.draw();
        let room = &mut self.buffer[..room(self.chip)];
        let planned = self.saves.plan(self.plan, &save, room);
        let mut breaches = Vec::new();
        if !is_counted(self.survey, &planned, room) {
            breaches.push(Breach::Miscounted);
        }
        let mut amounts = Amounts::of(&planned);
        if planned.number == ROOM {
            breaches.push(Breach::Short);
            // Only with more room does it say what it comes to.
            amounts = Amounts::of(&self.saves.plan(self.plan, &save, &mut self.buffer));
        }
        let above = Limit::ALL.into_iter().filter(|limit| limit.is_passed_by(self.chip, &amounts));
        breaches.extend(above.map(Breach::Above));
        (save, Found { number: planned.number, amounts, breaches })
    }

    /// The save that was just planned, as Rust text that can be pasted.
    pub fn text(&self, save: &Save) -> String {
        self.saves.text(save, room(self.chip))
    }
}

/// What the chip's longest plan takes, and not a byte more.
fn room(chip: u8) -> usize {
    Amounts::worst(chip).bytes as usize
}

/// Whether a plan's script has the frames and the microseconds that the plan says: of a refused one
/// none.
fn is_counted(survey: Survey, planned: &Planned, buffer: &[u8]) -> bool {
    buffer.get(..planned.length as usize).is_some_and(|script| {
        let surveyed = survey(script);
        surveyed.number == 0
            && surveyed.frames == planned.frames
            && surveyed.microseconds == u64::from(planned.microseconds)
    })
}

impl fmt::Display for Found {
    fn fmt(&self, to: &mut fmt::Formatter<'_>) -> fmt::Result {
        let Self { number, amounts, breaches } = self;
        write!(to, "number {number}, {amounts}: {breaches:?}")
    }
}
