//! The status write that takes time (02, A4), written out: sessions, interrupted frames, states, and
//! the plans that wait for it.

mod cuts;
mod plans;
mod sessions;
mod soundness;

use model::{Calls, State};

use crate::chip::Chip;
use crate::F25L05PA;

/// How long it takes: 004, "Erase and programming performance", T_W, typical.
const TIME: u32 = 5_000;

/// A name, and whether it holds.
type Sample = (&'static str, fn() -> bool);

/// The names of the samples that fail.
pub fn failing<C: Calls>() -> Vec<String> {
    let samples = [sessions::samples::<C>(), soundness::samples::<C>(), plans::samples::<C>()];
    let failing = samples.concat().into_iter().filter(|(_, holds)| !holds());
    let failing = failing.map(|(name, _)| format!("status write: {name}"));
    failing.chain(cuts::failing::<C>()).collect()
}

/// An 05PA with this level and nothing else, erased.
fn at_level<C: Calls>(bp: u8) -> Chip<C> {
    let mut chip = Chip::new(F25L05PA);
    chip.state = State { bp, ..chip.state };
    chip
}

/// An 05PA with this level, in which a status write of this byte has just begun.
fn begun<C: Calls>(bp: u8, byte: u8) -> Chip<C> {
    let mut chip = at_level(bp);
    chip.is_silent(&[0x06]);
    chip.is_silent(&[0x01, byte]);
    chip
}
