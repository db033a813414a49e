//! The clauses' premises, by the state before each record.

use model::State;

use crate::{first_protected, size};

/// A record of a script and the state before it.
pub struct Step<'a> {
    pub state: State,
    pub record: &'a [u8],
}

impl<'a> Step<'a> {
    /// The record's frame; of a wait nothing.
    pub fn frame(&self) -> &'a [u8] {
        match self.record {
            [0x5A, 0x46, _, _, frame @ ..] => frame,
            _ => &[],
        }
    }

    /// Whether the record is an erase frame and taken (01, "Frames").
    fn erases(&self) -> bool {
        let State { chip, bp, wel, aai, power_down, left, .. } = self.state;
        let target = match *self.frame() {
            [0x20 | 0xD8, high, middle, low] => {
                u32::from_be_bytes([0, high, middle, low]) as usize % size(chip)
            }
            // Taken only where nothing is protected, and so where the last byte isn't.
            [0x60 | 0xC7] => size(chip) - 1,
            _ => return false,
        };
        let at_rest = left == 0 && !aai && !power_down;
        at_rest && wel && target < first_protected(chip, bp)
    }
}

/// What the clauses ask of a run.
#[derive(Clone, Copy)]
pub struct Premises {
    /// Whether an erase frame is taken.
    pub erases: bool,
    /// The bytes from here up are protected before every record.
    pub protected_from: usize,
    /// Whether WEL is 0 at the start and no 06 frame follows.
    pub disabled: bool,
}

impl Premises {
    /// Of no records.
    pub fn at(state: &State) -> Self {
        Self { erases: false, protected_from: 0, disabled: !state.wel }
    }

    /// Of one record more.
    pub fn and(self, step: &Step) -> Self {
        let State { chip, bp, .. } = step.state;
        Self {
            erases: self.erases || step.erases(),
            protected_from: self.protected_from.max(first_protected(chip, bp)),
            disabled: self.disabled && step.frame() != [0x06],
        }
    }

    /// Of the parts of a script that end with this record, from those that end before it. Two of
    /// the clauses follow from those of single records, so that for them the part is the record;
    /// for the third it begins where WEL was 0, if there was no 06 since.
    pub fn of_parts(self, step: &Step) -> Self {
        let alone = Self::at(&step.state);
        Self { disabled: self.disabled || alone.disabled, ..alone }.and(step)
    }
}
