//! What a frame does to the array, whole or cut short.

use core::ops::Range;

use crate::chip::{Chip, Kind, BLOCK, PAGE, SECTOR};
use crate::fault::Fault;
use crate::frame::{address, word_address};
use crate::state::refusal;
use crate::State;

/// Data to program from an address up.
pub struct Piece<'a> {
    at: usize,
    data: &'a [u8],
}

/// What a frame does to the array. A page write that wraps has two pieces, `low` the one of the
/// lower addresses; otherwise `low` is empty.
pub enum Effect<'a> {
    Nothing,
    Program { low: Piece<'a>, high: Piece<'a> },
    Erase(Range<usize>),
}

impl<'a> Effect<'a> {
    /// The effect of a taken frame; the state is the one before it.
    #[inline(always)]
    pub fn of<const FAULT: u8>(chip: &Chip, state: &State, kind: Kind, frame: &'a [u8]) -> Self {
        match kind {
            Kind::EraseSector => Self::erase(address(chip, frame), SECTOR),
            Kind::EraseBlock => Self::erase(address(chip, frame), BLOCK),
            Kind::EraseChip => Self::erase(0, chip.size),
            Kind::Program if chip.pages => {
                Self::page::<FAULT>(chip, address(chip, frame), &frame[4..])
            }
            Kind::Program => Self::wrapping(0..chip.size, address(chip, frame), &frame[4..]),
            Kind::WordProgram => {
                // Only a wrong copy's word can wrap, or lie beyond the top.
                let at = chip.reduced(word_address::<FAULT>(chip, state, frame));
                Self::wrapping(0..chip.size, at, &frame[frame.len() - 2..])
            }
            _ => Effect::Nothing,
        }
    }

    /// Programs the data from `at` up, wrapping in the window; `at` lies in it and the data is
    /// no longer than it.
    #[inline(always)]
    fn wrapping(window: Range<usize>, at: usize, data: &'a [u8]) -> Self {
        let (high, low) = data.split_at(data.len().min(window.end - at));
        Effect::Program {
            low: Piece { at: window.start, data: low },
            high: Piece { at, data: high },
        }
    }

    /// A page write: of bytes for the same offset the last counts, so the last 256 bytes are all
    /// that does.
    fn page<const FAULT: u8>(chip: &Chip, address: usize, data: &'a [u8]) -> Self {
        if Fault::PageRunsOn.within(FAULT) {
            return Self::wrapping(0..chip.size, address, data);
        }
        let page = address - address % PAGE;
        let passed = data.len().saturating_sub(PAGE);
        if Fault::FirstPageByteCounts.within(FAULT) {
            return Self::wrapping(page..page + PAGE, address, &data[..data.len() - passed]);
        }
        let at = page + (address + passed) % PAGE;
        Self::wrapping(page..page + PAGE, at, &data[passed..])
    }

    fn erase(address: usize, length: usize) -> Self {
        let start = address - address % length;
        Effect::Erase(start..start + length)
    }

    /// How many bytes are programmed or erased: the mask's length.
    pub fn length(&self) -> usize {
        match self {
            Effect::Nothing => 0,
            Effect::Program { low, high } => low.data.len() + high.data.len(),
            Effect::Erase(range) => range.len(),
        }
    }

    /// Whether it may be cut with this mask.
    pub fn accept_mask(&self, mask: &[u8]) -> Result<(), u32> {
        match mask.len() == self.length() {
            true => Ok(()),
            false => Err(refusal::MASK),
        }
    }

    #[inline(always)]
    pub fn apply<const FAULT: u8>(&self, array: &mut [u8]) {
        match self {
            Effect::Nothing => {}
            Effect::Program { low, high } => {
                low.program::<FAULT>(array);
                high.program::<FAULT>(array);
            }
            Effect::Erase(range) => array[range.clone()].fill(0xFF),
        }
    }

    /// The same, each bit changing only where the mask has 1; the mask goes by rising address.
    pub fn apply_cut<const FAULT: u8>(&self, array: &mut [u8], mask: &[u8]) {
        match self {
            Effect::Nothing => {}
            Effect::Program { low, high } => {
                let (first, second) =
                    if Fault::MaskInSentOrder.within(FAULT) { (high, low) } else { (low, high) };
                let (first_mask, second_mask) = mask.split_at(first.data.len());
                first.program_cut::<FAULT>(array, first_mask);
                second.program_cut::<FAULT>(array, second_mask);
            }
            Effect::Erase(range) => {
                for (byte, mask) in array[range.clone()].iter_mut().zip(mask) {
                    *byte |= mask;
                }
            }
        }
    }
}

impl Piece<'_> {
    #[inline(always)]
    fn program<const FAULT: u8>(&self, array: &mut [u8]) {
        let bytes = &mut array[self.at..][..self.data.len()];
        for (byte, data) in bytes.iter_mut().zip(self.data) {
            *byte = programmed::<FAULT>(*byte, *data);
        }
    }

    fn program_cut<const FAULT: u8>(&self, array: &mut [u8], mask: &[u8]) {
        let bytes = &mut array[self.at..][..self.data.len()];
        for ((byte, data), mask) in bytes.iter_mut().zip(self.data).zip(mask) {
            *byte = *byte & !mask | programmed::<FAULT>(*byte, *data) & mask;
        }
    }
}

fn programmed<const FAULT: u8>(old: u8, data: u8) -> u8 {
    if Fault::ByteStored.within(FAULT) {
        data
    } else {
        old & data
    }
}
