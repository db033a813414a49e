//! Plans (01, "Scripts and plans").

use crate::chip::{Chip, PAGE};
use crate::fault::Fault;
use crate::pages::{last_change, Page};
use crate::records::{Records, Totals, Writer};
use crate::state::refusal;
use crate::words::{Runs, Word};
use crate::{Planned, State};

pub const LONGEST_REGION: usize = 4_096;

/// What is to become of the region.
struct Update<'a> {
    chip: &'a Chip,
    state: State,
    array: &'a [u8],
    start: usize,
    old: &'a [u8],
    wanted: &'a [u8],
    /// Whether step 1 comes, and with it step 4.
    unprotects: bool,
}

pub fn plan<const FAULT: u8>(
    state: State,
    wp_high: bool,
    array: &[u8],
    start: usize,
    wanted: &[u8],
    buffer: &mut [u8],
) -> Result<Planned, u32> {
    let chip = state.sound_chip::<FAULT>().ok_or(refusal::STATE)?;
    if array.len() != chip.size {
        return Err(refusal::ARRAY_LENGTH);
    }
    if wanted.len() > LONGEST_REGION || start > chip.size || wanted.len() > chip.size - start {
        return Err(refusal::REGION);
    }
    if !state.at_rest() && !(state.pending && Fault::PlannedWhilePending.within(FAULT)) {
        return Err(refusal::NOT_AT_REST);
    }
    let old = &array[start..][..wanted.len()];
    let touched = if Fault::UnchangedByteUnprotected.within(FAULT) {
        old.len().checked_sub(1)
    } else {
        last_change(old, wanted)
    };
    let border = state.first_protected::<FAULT>(chip) as usize;
    let unprotects = touched.is_some_and(|last| start + last >= border);
    let locked = unprotects && state.bpl && !wp_high;
    if Fault::LockCheckedBeforeBits.within(FAULT) && locked {
        return Err(refusal::LOCKED);
    }
    let mut bytes = old.iter().zip(wanted);
    if bytes.any(|(old, wanted)| wanted & !old != 0) {
        return Err(refusal::NEEDS_ERASE);
    }
    if locked {
        return Err(refusal::LOCKED);
    }

    let update = Update { chip, state, array, start, old, wanted, unprotects };
    let mut totals = Totals::default();
    update.records::<FAULT>(&mut totals);
    if totals.length > buffer.len() {
        return Err(refusal::ROOM);
    }
    update.records::<FAULT>(&mut Writer(buffer));
    if unprotects {
        totals.forget::<FAULT>(chip);
    }
    Ok(Planned {
        number: 0,
        state,
        length: totals.length as u32,
        frames: totals.frames,
        microseconds: totals.microseconds,
    })
}

impl Update<'_> {
    fn records<const FAULT: u8>(&self, to: &mut impl Records) {
        if self.old == self.wanted {
            return;
        }
        self.unprotect::<FAULT>(to);
        if self.chip.aai {
            self.word_runs::<FAULT>(to);
        } else {
            self.pages::<FAULT>(to);
        }
        self.protect::<FAULT>(to);
    }

    /// Step 1, where it comes.
    fn unprotect<const FAULT: u8>(&self, to: &mut impl Records) {
        if self.unprotects {
            let State { tb, bpl, .. } = self.state;
            let register = State { bp: 0, tb, bpl, ..State::default() };
            self.status_write::<FAULT>(register, Fault::NoWaitAfterStep1, to);
        }
    }

    /// Step 4, where step 1 comes.
    fn protect<const FAULT: u8>(&self, to: &mut impl Records) {
        if self.unprotects {
            let State { bp, tb, bpl, .. } = self.state;
            let bpl = bpl && !Fault::LockNotRestored.within(FAULT);
            let register = State { bp, tb, bpl, ..State::default() };
            self.status_write::<FAULT>(register, Fault::NoWaitAfterStep4, to);
        }
    }

    /// Steps 1 and 4: arm, write what the status register is to hold, and wait where that takes time
    /// (02, A4); a wrong copy doesn't.
    fn status_write<const FAULT: u8>(
        &self,
        register: State,
        unawaited: Fault,
        to: &mut impl Records,
    ) {
        let time = match self.chip.status_time::<FAULT>() {
            0 => 0,
            _ if Fault::StatusWait15000.within(FAULT) => 15_000,
            time => time,
        };
        let waits = time > 0 || Fault::StatusWaitOn008a.within(FAULT);
        let waits = waits && !unawaited.within(FAULT);
        to.frame(&[if self.chip.aai { 0x50 } else { 0x06 }], &[]);
        if waits && Fault::WaitBefore01.within(FAULT) {
            to.wait(time);
        }
        to.frame(&[0x01, register.status()], &[]);
        if waits && !Fault::WaitBefore01.within(FAULT) {
            to.wait(time);
        }
    }

    /// Step 2: the aligned words holding a changing byte, in runs of neighbours.
    fn word_runs<const FAULT: u8>(&self, to: &mut impl Records) {
        let mut runs = Runs::new(to);
        self.words::<FAULT>().for_each(|word| runs.word::<FAULT>(word));
        runs.close();
    }

    /// The aligned words of the region, as wanted; a byte outside the region is FF.
    fn words<const FAULT: u8>(&self) -> impl Iterator<Item = Word> + '_ {
        let outside = move |address: usize| match Fault::OutsideByteFromArray.within(FAULT) {
            true => self.array[address],
            false => 0xFF,
        };
        let single = |wanted: &[u8], old: &[u8]| match (wanted, old) {
            ([wanted], [old]) => Some((*wanted, wanted != old)),
            _ => None,
        };
        let odd = (self.start % 2).min(self.wanted.len());
        let (first_old, old) = self.old.split_at(odd);
        let (first_wanted, wanted) = self.wanted.split_at(odd);
        let (pairs_old, last_old) = old.as_chunks::<2>();
        let (pairs, last_wanted) = wanted.as_chunks::<2>();

        let first = single(first_wanted, first_old).map(|(byte, changes)| {
            let address = self.start - 1;
            Word { address, bytes: [outside(address), byte], changes }
        });
        let middle = pairs.iter().zip(pairs_old).enumerate();
        let middle = middle.map(move |(index, (wanted, old))| Word {
            address: self.start + odd + 2 * index,
            bytes: *wanted,
            changes: wanted != old,
        });
        let last = single(last_wanted, last_old).map(|(byte, changes)| {
            let address = self.start + self.wanted.len() - 1;
            Word { address, bytes: [byte, outside(address + 1)], changes }
        });
        first.into_iter().chain(middle).chain(last)
    }

    /// Step 3: each page with a changing byte, from its first to its last.
    fn pages<const FAULT: u8>(&self, to: &mut impl Records) {
        let mut from = 0;
        let mut first = true;
        while from < self.wanted.len() {
            let page_end = PAGE - (self.start + from) % PAGE;
            let until = self.wanted.len().min(from + page_end);
            let (old, wanted) = (&self.old[from..until], &self.wanted[from..until]);
            let page = Page { address: self.start + from, old, wanted };
            if let Some(changing) = page.changing() {
                if Fault::PagesUnprotectedApart.within(FAULT) && !first {
                    self.protect::<FAULT>(to);
                    self.unprotect::<FAULT>(to);
                }
                page.program::<FAULT>(changing, self.chip.program_time, to);
                first = false;
            }
            from = until;
        }
    }
}
