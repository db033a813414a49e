//! Runs of AAI words.

use crate::chip::WORD_TIME;
use crate::fault::Fault;
use crate::records::Records;

/// An aligned word with a byte in the region.
pub struct Word {
    pub address: usize,
    pub bytes: [u8; 2],
    pub changes: bool,
}

/// Writes runs of AAI words as the words come by.
pub struct Runs<'a, R> {
    to: &'a mut R,
    open: bool,
    /// Only in a wrong copy: an unchanged word that a run may go on over.
    gap: Option<Word>,
}

impl<'a, R: Records> Runs<'a, R> {
    pub fn new(to: &'a mut R) -> Self {
        Self { to, open: false, gap: None }
    }

    pub fn word<const FAULT: u8>(&mut self, word: Word) {
        if word.changes {
            if let Some(gap) = self.gap.take() {
                self.put::<FAULT>(&gap);
            }
            self.put::<FAULT>(&word);
        } else if Fault::GapBridged.within(FAULT) && self.open && self.gap.is_none() {
            self.gap = Some(word);
        } else {
            self.close();
        }
    }

    #[inline(always)] // as the compiler does where it has no faults: the library is measured against it
    fn put<const FAULT: u8>(&mut self, word: &Word) {
        if Fault::RunNeverContinued.within(FAULT) {
            self.close();
        }
        if self.open {
            self.to.frame(&[0xAD], &word.bytes);
        } else {
            let [_, high, middle, low] = (word.address as u32).to_be_bytes();
            self.to.frame(&[0x06], &[]);
            self.to.frame(&[0xAD, high, middle, low], &word.bytes);
        }
        let times = if Fault::WordWaitsTwice.within(FAULT) { 2 } else { 1 };
        self.to.wait(times * WORD_TIME);
        self.open = true;
    }

    /// Ends the run, if one is open.
    pub fn close(&mut self) {
        if self.open {
            self.to.frame(&[0x04], &[]);
        }
        self.open = false;
        self.gap = None;
    }
}
