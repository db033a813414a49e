//! Status writes that take time (02, A4): what is pending, what comes of it at the end, and what of a
//! cut one.

use crate::chip::Chip;
use crate::fault::Fault;
use crate::state::refusal;
use crate::State;

/// The bits that a status write sets: BP, TB and BPL.
const WRITABLE: u8 = 0b1011_1100;

/// What a cut status write's one mask byte may be: the bits stay as they were, or are all written.
const KEPT: u8 = 0x00;
const WRITTEN: u8 = 0xFF;

impl Chip {
    /// How long a status write takes; 0 where it is done at once.
    #[inline(always)]
    pub(crate) fn status_time<const FAULT: u8>(&self) -> u32 {
        match self.status_time {
            _ if Fault::StatusCycleOn008a.within(FAULT) => crate::chip::STATUS_TIME,
            0 => 0,
            _ if Fault::StatusAtOnceOn05pa.within(FAULT) => 0,
            _ if Fault::StatusTime15000.within(FAULT) => 15_000,
            _ if Fault::StatusTime40000.within(FAULT) => 40_000,
            time => time,
        }
    }
}

impl State {
    /// With BP and BPL from a status write's byte, and TB where the chip has it.
    #[inline(always)]
    pub(crate) fn with_bits(&self, chip: &Chip, byte: u8) -> State {
        State { bp: byte >> 2 & 7, tb: chip.tb && byte & 0x20 != 0, bpl: byte & 0x80 != 0, ..*self }
    }

    /// Behind a taken status write of this byte: done at once, or begun.
    #[inline(always)]
    pub(crate) fn status_written<const FAULT: u8>(&self, chip: &Chip, byte: u8) -> State {
        let left = chip.status_time::<FAULT>();
        let written = self.with_bits(chip, byte);
        if left == 0 {
            return State { wel: self.wel && Fault::StatusWriteLeavesWel.within(FAULT), ..written };
        }
        let kept = match () {
            () if Fault::PendingBitsRaw.within(FAULT) => 0xFF,
            () if Fault::TbNotPending.within(FAULT) => WRITABLE & !0x20,
            () => WRITABLE,
        };
        State {
            bp: if Fault::BpAtOnce.within(FAULT) { written.bp } else { self.bp },
            tb: if Fault::TbAtOnce.within(FAULT) { written.tb } else { self.tb },
            bpl: if Fault::BplAtOnce.within(FAULT) { written.bpl } else { self.bpl },
            wel: self.wel && !Fault::StatusCycleClearsWel.within(FAULT),
            pending: true,
            pending_bits: byte & kept,
            left,
            ..*self
        }
    }

    /// When a pending status write's time is over: the new bits, and nothing pending.
    pub(crate) fn status_ended<const FAULT: u8>(&self, chip: &Chip) -> State {
        let bits_kept = Fault::PendingBitsKept.within(FAULT);
        let wel = Fault::StatusCycleLeavesWel.within(FAULT) || Fault::WelKept.within(FAULT);
        State {
            left: 0,
            wel: self.wel && wel,
            pending: Fault::PendingKept.within(FAULT),
            pending_bits: if bits_kept { self.pending_bits } else { 0 },
            ..self.with_bits(chip, self.pending_bits)
        }
    }

    /// Whether what is pending is sound: "pending bits join the state and its soundness, and it is then
    /// busy"; only where status writes take time, only bits that one sets, and none where none is
    /// pending.
    #[inline(always)]
    pub(crate) fn is_pending_sound<const FAULT: u8>(&self, chip: &Chip) -> bool {
        let takes_time = chip.status_time::<FAULT>() > 0;
        let others = self.pending_bits & !WRITABLE;
        let in_time = !Fault::PendingBounded.within(FAULT) || self.left <= chip.status_time;
        let something = !Fault::PendingNothingUnsound.within(FAULT) || self.pending_bits != 0;
        let pending = (self.left > 0 || Fault::PendingAtRestSound.within(FAULT))
            && (takes_time || Fault::PendingOn008aSound.within(FAULT))
            && in_time
            && something;
        let none = self.pending_bits == 0 || Fault::BitsWithoutPendingSound.within(FAULT);
        (others == 0 || Fault::PendingBitsUnmasked.within(FAULT))
            && if self.pending { pending } else { none }
    }

    /// The status register's bits while a write is pending; only a wrong copy shows what is to come.
    pub(crate) fn shown<const FAULT: u8>(&self, chip: &Chip) -> State {
        match self.pending && Fault::PendingShown.within(FAULT) {
            true => self.with_bits(chip, self.pending_bits),
            false => *self,
        }
    }
}

/// Cuts a status write that the whole frame has begun: it ends at once, or stays pending and is lost
/// when the power comes back. The state before the frame and the array matter only to wrong copies.
pub fn cut<const FAULT: u8>(
    chip: &Chip,
    begun: &mut State,
    old: &State,
    array: &mut [u8],
    mask: &[u8],
) {
    let byte = mask.first().copied().unwrap_or(KEPT);
    if Fault::CutStatusTouchesArray.within(FAULT) {
        array[0] ^= 0x01;
    }
    if Fault::StatusMaskBitwise.within(FAULT) {
        begun.pending_bits = (old.status() & !byte | begun.pending_bits & byte) & WRITABLE;
    }
    let written = match () {
        () if Fault::StatusMaskBitwise.within(FAULT) => true,
        () if Fault::StatusMaskNonzero.within(FAULT) => byte != KEPT,
        () if Fault::StatusMask00Writes.within(FAULT) => true,
        () if Fault::StatusMaskFfKeeps.within(FAULT) => false,
        () => byte == WRITTEN,
    };
    if written {
        *begun = begun.status_ended::<FAULT>(chip);
    }
}

/// Only in a wrong copy: the power is back, and the write that is done still takes its time.
pub fn still_busy(chip: &Chip, state: State, mask: &[u8]) -> State {
    match mask {
        [WRITTEN] => State { wel: true, left: chip.status_time, ..state },
        _ => state,
    }
}

/// Whether it may be cut with this mask: one byte, of two.
pub fn accept_mask<const FAULT: u8>(mask: &[u8]) -> Result<(), u32> {
    let any_value =
        Fault::StatusMaskBitwise.within(FAULT) || Fault::StatusMaskNonzero.within(FAULT);
    match *mask {
        [KEPT | WRITTEN] => Ok(()),
        [_] if any_value => Ok(()),
        [] if Fault::EmptyStatusMask.within(FAULT) => Ok(()),
        [KEPT | WRITTEN, _] if Fault::TwoByteStatusMask.within(FAULT) => Ok(()),
        _ => Err(refusal::MASK),
    }
}
