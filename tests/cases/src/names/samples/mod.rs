//! Flags by name written out, with their answers: each on both chips.

mod lists;
mod marks;
mod on_chip;
mod order;

use model::{Calls, State};

use crate::{CHIPS, F25L008A};

/// A name, and whether it holds on a chip.
type Sample = (&'static str, fn(u8) -> bool);

/// The names of the samples that fail.
pub fn failing<C: Calls>() -> Vec<String> {
    let samples = [marks::samples::<C>(), lists::samples::<C>(), order::samples::<C>()].concat();
    let mut failing = Vec::new();
    for chip in CHIPS {
        let own = samples.iter().filter(|(_, holds)| !holds(chip));
        failing.extend(own.map(|(name, _)| format!("chip {chip}, names: {name}")));
    }
    failing
}

/// Busy, and in AAI or in power-down.
fn not_at_rest(chip: u8) -> [State; 2] {
    let wel = State { chip, wel: true, ..State::default() };
    let busy = State { left: 5, ..wel };
    match chip {
        F25L008A => [busy, State { aai: true, next: 2, ..wel }],
        _ => [busy, State { power_down: true, ..wel }],
    }
}
