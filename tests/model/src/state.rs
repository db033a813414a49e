//! Soundness, status, power and time (01, "State").

use crate::chip::{Chip, SECTOR, WORD_TIME};
use crate::fault::Fault;
use crate::State;

/// Refusal numbers (01, "Refusal numbers, in the order checked"; from 12 on 02: A1, 15 A2,
/// from 18 on and the second 6 A7).
pub mod refusal {
    pub const STATE: u32 = 1;
    pub const ARRAY_LENGTH: u32 = 2;
    pub const FRAME_LENGTH: u32 = 3;
    pub const OUTPUT_LENGTH: u32 = 4;
    pub const MASK: u32 = 5;
    pub const REGION: u32 = 6;
    pub const SAME_SECTOR: u32 = 6;
    pub const NOT_AT_REST: u32 = 7;
    pub const NEEDS_ERASE: u32 = 8;
    pub const LOCKED: u32 = 9;
    pub const ROOM: u32 = 10;
    pub const SCRIPT_LENGTH: u32 = 11;
    pub const UNKNOWN_MARK: u32 = 12;
    pub const RECORD_LENGTH: u32 = 13;
    pub const CUT_SHORT: u32 = 14;
    pub const WRONG_BOOK: u32 = 15;
    pub const BAD_NAME: u32 = 18;
    pub const NAME_TWICE: u32 = 19;
    pub const FULL: u32 = 20;
}

impl State {
    pub(crate) fn new(chip: &Chip) -> State {
        State { chip: chip.number, bp: if chip.tb { 0 } else { 7 }, ..State::default() }
    }

    pub(crate) fn powered_up<const FAULT: u8>(&self, chip: &Chip) -> State {
        if !chip.tb || Fault::ProtectionForgotten.within(FAULT) {
            return State::new(chip);
        }
        let State { bp, tb, bpl, pending, pending_bits, .. } =
            match self.pending && Fault::PowerUpTakesPending.within(FAULT) {
                true => self.status_ended::<FAULT>(chip),
                false => *self,
            };
        let new = State { bp, tb, bpl, ..State::new(chip) };
        match Fault::PowerUpStaysPending.within(FAULT) {
            true => State { pending, pending_bits, ..new },
            false => new,
        }
    }

    /// The first protected address; the size where nothing is protected. BP is at most 7.
    pub(crate) fn first_protected<const FAULT: u8>(&self, chip: &Chip) -> u32 {
        if Fault::Bp2Protects05pa.within(FAULT) && chip.tb && self.bp >= 4 {
            return 0;
        }
        let bp = match self.pending && Fault::PendingProtectsAtOnce.within(FAULT) {
            true => self.with_bits(chip, self.pending_bits).bp,
            false => self.bp,
        };
        let first = chip.first_at::<FAULT>(bp & 7);
        if Fault::FirstSectorUnprotected.within(FAULT) && first < chip.size as u32 {
            return first + SECTOR as u32;
        }
        first
    }

    /// The chip, if the state is sound.
    pub(crate) fn sound_chip<const FAULT: u8>(&self) -> Option<&'static Chip> {
        let chip = Chip::numbered(self.chip)?;
        let own_bits = if chip.aai {
            !self.tb && !self.power_down
        } else {
            !self.aai && (!self.armed || self.wel)
        };
        let busy = self.left > 0;
        let sound = own_bits
            && self.bp <= 7
            && self.left <= chip.chip_time
            && (!busy || self.wel && !self.armed && !self.power_down)
            && !(self.armed && self.power_down)
            && self.is_pending_sound::<FAULT>(chip)
            && if self.aai { self.sound_in_aai::<FAULT>(chip) } else { self.next == 0 };
        sound.then_some(chip)
    }

    fn sound_in_aai<const FAULT: u8>(&self, chip: &Chip) -> bool {
        let border = self.first_protected::<FAULT>(chip);
        self.wel
            && !self.armed
            && self.left <= WORD_TIME
            && self.next.is_multiple_of(2)
            && self.next >= 2
            && (self.next < border || self.next == border && self.left > 0)
    }

    pub(crate) fn at_rest(&self) -> bool {
        self.left == 0 && !self.aai && !self.power_down
    }

    /// The status register. TB and AAI are never set on the chip without them.
    pub(crate) fn status(&self) -> u8 {
        u8::from(self.left > 0)
            | u8::from(self.wel) << 1
            | self.bp << 2
            | u8::from(self.tb) << 5
            | u8::from(self.aai) << 6
            | u8::from(self.bpl) << 7
    }

    /// The state when so many microseconds have passed.
    pub(crate) fn after<const FAULT: u8>(&self, chip: &Chip, microseconds: u32) -> State {
        if Fault::NoTimePasses.within(FAULT) {
            return *self;
        }
        let left = self.left.saturating_sub(microseconds);
        if self.left == 0 || left > 0 {
            return State { left, ..*self };
        }
        if self.pending {
            return self.status_ended::<FAULT>(chip);
        }
        let goes_on =
            Fault::AaiPassesBorder.within(FAULT) || self.next < self.first_protected::<FAULT>(chip);
        if self.aai && goes_on {
            let wel = !Fault::WelClearedInAai.within(FAULT);
            return State { left, wel, ..*self };
        }
        State { left, wel: Fault::WelKept.within(FAULT), aai: false, next: 0, ..*self }
    }
}
