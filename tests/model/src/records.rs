//! Where the records of a plan go.

use crate::chip::Chip;
use crate::fault::Fault;

/// Takes a plan's records: first they are only counted, then written.
pub trait Records {
    /// A frame, given in two parts.
    fn frame(&mut self, head: &[u8], data: &[u8]);
    fn wait(&mut self, microseconds: u32);
}

/// What the records come to.
#[derive(Default)]
pub struct Totals {
    pub length: usize,
    pub frames: u32,
    pub microseconds: u32,
}

impl Totals {
    /// Only a wrong copy leaves out what steps 1 and 4 come to: their frames, or a part of their waits.
    pub fn forget<const FAULT: u8>(&mut self, chip: &Chip) {
        let waits = if chip.status_time > 0 { 2 } else { 0 };
        if Fault::StepsNotCounted.within(FAULT) {
            self.frames -= 4;
        }
        if Fault::StatusWaitsNotTimed.within(FAULT) {
            self.microseconds -= waits * chip.status_time;
        }
        if Fault::StatusWaitsNotMeasured.within(FAULT) {
            self.length -= 6 * waits as usize;
        }
    }
}

impl Records for Totals {
    fn frame(&mut self, head: &[u8], data: &[u8]) {
        self.length += 4 + head.len() + data.len();
        self.frames += 1;
    }

    fn wait(&mut self, microseconds: u32) {
        self.length += 6;
        self.microseconds += microseconds;
    }
}

/// The part of the buffer not yet written; long enough for all that comes.
pub struct Writer<'a>(pub &'a mut [u8]);

impl Writer<'_> {
    #[inline(always)]
    fn put(&mut self, bytes: &[u8]) {
        let (here, later) = core::mem::take(&mut self.0).split_at_mut(bytes.len());
        here.copy_from_slice(bytes);
        self.0 = later;
    }
}

impl Records for Writer<'_> {
    #[inline(always)]
    fn frame(&mut self, head: &[u8], data: &[u8]) {
        let [high, low] = ((head.len() + data.len()) as u16).to_be_bytes();
        self.put(&[0x5A, 0x46, high, low]);
        self.put(head);
        self.put(data);
    }

    #[inline(always)]
    fn wait(&mut self, microseconds: u32) {
        let [a, b, c, d] = microseconds.to_be_bytes();
        self.put(&[0x5A, 0x57, a, b, c, d]);
    }
}
