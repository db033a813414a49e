//! What one side of a comparison is lent beside the array, with margins that nobody may touch.

use crate::board::MARGIN;
use crate::case::{Case, Outcome, Slices};
use crate::Rng;

/// Somebody's call of a case.
pub type Run = fn(&Case, &mut [u8], Slices) -> Outcome;

/// Where outputs and scripts go, and beside an output whether the chip drove its bytes.
#[derive(Default)]
pub struct Side {
    buffer: Vec<u8>,
    driven: Vec<u8>,
}

/// What stands behind a call in what it was lent to write to.
#[derive(Clone, Copy)]
pub struct Written<'a> {
    pub buffer: &'a [u8],
    pub driven: &'a [u8],
}

impl Side {
    /// As it stands before a case: one byte throughout the buffer, and in the second slice any bytes
    /// but 00 and 01, so that one that isn't written shows.
    pub fn fill(&mut self, case: &Case, index: usize) {
        self.buffer.clear();
        self.buffer.resize(case.buffer() + 2 * MARGIN, 0xA5 ^ index as u8);
        self.driven.resize(case.driven() + 2 * MARGIN, 0);
        Rng::new(index as u64).fill(&mut self.driven);
        self.driven.iter_mut().for_each(|byte| *byte |= 0x02);
    }

    /// Becomes the same as another.
    pub fn copy_from(&mut self, other: &Self) {
        self.buffer.clone_from(&other.buffer);
        self.driven.clone_from(&other.driven);
    }

    pub fn call(&mut self, run: Run, case: &Case, array: &mut [u8]) -> Outcome {
        let buffer = &mut self.buffer[MARGIN..][..case.buffer()];
        let driven = &mut self.driven[MARGIN..][..case.driven()];
        run(case, array, Slices { buffer, driven })
    }

    /// What stands behind a case in what it was lent.
    pub fn written(&self, case: &Case) -> Written<'_> {
        let buffer = &self.buffer[MARGIN..][..case.buffer()];
        let driven = &self.driven[MARGIN..][..case.driven()];
        Written { buffer, driven }
    }

    /// The first byte that isn't as the right one, margins included.
    pub fn difference(&self, right: &Self) -> Option<String> {
        differs("buffer", &self.buffer, &right.buffer)
            .or_else(|| differs("driven", &self.driven, &right.driven))
    }

    /// What no call may do, if this one did it, the right model or not: write where nothing is to be
    /// written, say of a byte something else than 00 or 01, or show a silent one as anything but FF.
    pub fn wrong(&self, before: &Self, case: &Case, outcome: &Outcome) -> Option<String> {
        let accepted = outcome.number() == 0;
        let buffer = match outcome {
            _ if !accepted => 0,
            Outcome::Planned(planned) => planned.length as usize,
            _ => case.buffer(),
        };
        let driven = if accepted { case.driven() } else { 0 };
        let shown = self.buffer[MARGIN..].iter().zip(&self.driven[MARGIN..][..driven]);
        if !is_kept_around(&self.buffer, &before.buffer, buffer)
            || !is_kept_around(&self.driven, &before.driven, driven)
        {
            Some("both sides wrote where nothing is to be written".into())
        } else if shown.clone().any(|(_, driven)| *driven > 1) {
            Some("both sides left a byte neither driven nor silent".into())
        } else if shown.clone().any(|(byte, driven)| *driven == 0 && *byte != 0xFF) {
            Some("both sides show a silent byte that isn't FF".into())
        } else {
            None
        }
    }
}

/// Whether a buffer is as before but for so many bytes behind its margin.
fn is_kept_around(buffer: &[u8], before: &[u8], written: usize) -> bool {
    let behind = MARGIN + written;
    buffer[..MARGIN] == before[..MARGIN] && buffer[behind..] == before[behind..]
}

/// The first byte at which a buffer isn't as the right one.
fn differs(name: &str, given: &[u8], right: &[u8]) -> Option<String> {
    if given == right {
        return None;
    }
    let at = given.iter().zip(right).position(|(given, right)| given != right)?;
    let place = at as isize - MARGIN as isize;
    Some(format!("{name} byte {place}: {:#04X}, right {:#04X}", given[at], right[at]))
}
