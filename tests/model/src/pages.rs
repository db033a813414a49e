//! Programs of pages.

use core::ops::{Range, RangeInclusive};

use crate::chip::PAGE;
use crate::fault::Fault;
use crate::records::Records;

/// A page's bytes in the region, as they are and as they are wanted.
pub struct Page<'a> {
    pub address: usize,
    pub old: &'a [u8],
    pub wanted: &'a [u8],
}

impl Page<'_> {
    /// From its first changing byte to its last, if it has one.
    pub fn changing(&self) -> Option<RangeInclusive<usize>> {
        let first = first_change(self.old, self.wanted)?;
        let last = last_change(self.old, self.wanted)?;
        Some(first..=last)
    }

    /// Programs these bytes of it.
    pub fn program<const FAULT: u8>(
        &self,
        changing: RangeInclusive<usize>,
        time: u32,
        to: &mut impl Records,
    ) {
        if Fault::WholePageSent.within(FAULT) {
            self.send_whole(time, to);
        } else if Fault::StretchesSentApart.within(FAULT) {
            self.send_stretches(time, to);
        } else {
            send(self.address + changing.start(), &self.wanted[changing], time, to);
        }
    }

    /// Only in a wrong copy.
    fn send_whole(&self, time: u32, to: &mut impl Records) {
        let mut bytes = [0xFF; PAGE];
        let offset = self.address % PAGE;
        bytes[offset..][..self.wanted.len()].copy_from_slice(self.wanted);
        send(self.address - offset, &bytes, time, to);
    }

    /// Only in a wrong copy.
    fn send_stretches(&self, time: u32, to: &mut impl Records) {
        let mut from = 0;
        while let Some(stretch) = self.stretch(from) {
            from = stretch.end;
            send(self.address + stretch.start, &self.wanted[stretch], time, to);
        }
    }

    /// The first changing bytes from here on that have no other between them.
    fn stretch(&self, from: usize) -> Option<Range<usize>> {
        let start = from + first_change(&self.old[from..], &self.wanted[from..])?;
        let mut rest = self.old[start..].iter().zip(&self.wanted[start..]);
        let length = rest.position(|(old, wanted)| old == wanted);
        Some(start..length.map_or(self.wanted.len(), |length| start + length))
    }
}

fn send(address: usize, bytes: &[u8], time: u32, to: &mut impl Records) {
    let [_, high, middle, low] = (address as u32).to_be_bytes();
    to.frame(&[0x06], &[]);
    to.frame(&[0x02, high, middle, low], bytes);
    to.wait(time);
}

fn first_change(old: &[u8], wanted: &[u8]) -> Option<usize> {
    old.iter().zip(wanted).position(|(old, wanted)| old != wanted)
}

pub fn last_change(old: &[u8], wanted: &[u8]) -> Option<usize> {
    old.iter().zip(wanted).rposition(|(old, wanted)| old != wanted)
}
