//! The line from the chip while a frame is sent: what each byte reads as, and whether the chip drove it
//! (02, A10).

use core::mem;

use crate::fault::Fault;

/// What a byte that the chip doesn't drive reads as.
const PULL_UP: u8 = 0xFF;

/// All bytes that are left.
pub const REST: usize = usize::MAX;

/// What stands in the second slice.
const SILENT: u8 = 0;
const DRIVEN: u8 = 1;

/// The two lent slices, or what is left of them behind the bytes that were shown. Only in a wrong
/// copy their lengths differ.
pub struct Line<'a> {
    pub output: &'a mut [u8],
    pub driven: &'a mut [u8],
}

// Inlined, as the compiler did it by itself with one slice: the library is measured against the model.
impl<'a> Line<'a> {
    /// Shows the same in the next bytes, so many or as many as are left: nothing, or a byte that the
    /// chip drives.
    #[inline(always)]
    pub fn show<const FAULT: u8>(&mut self, count: usize, shown: Option<u8>) {
        let silent = if Fault::SilentReadsZero.within(FAULT) { 0x00 } else { PULL_UP };
        let next = self.next(count);
        next.output.fill(shown.unwrap_or(silent));
        next.driven.fill(mark::<FAULT>(shown));
    }

    /// The chip drives these bytes, all or as many as are left.
    #[inline(always)]
    pub fn drive<const FAULT: u8>(&mut self, bytes: &[u8]) {
        let next = self.next(bytes.len());
        next.output.copy_from_slice(&bytes[..next.output.len()]);
        for (driven, byte) in next.driven.iter_mut().zip(bytes) {
            *driven = mark::<FAULT>(Some(*byte));
        }
    }

    /// The chip is silent in the next bytes, so many or as many as are left; a wrong copy marks them
    /// driven.
    #[inline(always)]
    pub fn silent<const FAULT: u8>(&mut self, count: usize, wrong: Fault) {
        self.show::<FAULT>(count, wrong.within(FAULT).then_some(PULL_UP));
    }

    /// The next bytes, so many or as many as are left; they are left no longer.
    #[inline(always)]
    pub fn next(&mut self, count: usize) -> Line<'a> {
        Line { output: front(&mut self.output, count), driven: front(&mut self.driven, count) }
    }

    /// Whether bytes are left.
    pub fn goes_on(&self) -> bool {
        !self.output.is_empty() || !self.driven.is_empty()
    }
}

/// What the second slice says of a byte.
fn mark<const FAULT: u8>(shown: Option<u8>) -> u8 {
    match shown {
        None => SILENT,
        Some(PULL_UP) if Fault::DrivenErasedSilent.within(FAULT) => SILENT,
        Some(_) if Fault::DrivenIsFf.within(FAULT) => 0xFF,
        Some(_) => DRIVEN,
    }
}

#[inline(always)]
fn front<'a>(slice: &mut &'a mut [u8], count: usize) -> &'a mut [u8] {
    let whole = mem::take(slice);
    let (front, rest) = whole.split_at_mut(count.min(whole.len()));
    *slice = rest;
    front
}
