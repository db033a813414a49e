//! What a plan comes to, and what it comes to at most.

use std::fmt;

use model::Planned;

use crate::F25L008A;

/// What a plan comes to.
#[derive(Clone, Copy, Debug, Default, PartialEq, Eq)]
pub struct Amounts {
    pub bytes: u32,
    pub frames: u32,
    pub microseconds: u32,
}

/// Something of which an accepted plan has only so much.
#[derive(Clone, Copy, Debug, PartialEq, Eq, PartialOrd, Ord)]
pub enum Limit {
    Bytes,
    Frames,
    Microseconds,
    /// 7 * frames + microseconds. On the 008A no plan reaches the limits of both.
    FramesAndTime,
}

const WORST_008A: Amounts = Amounts { bytes: 26_672, frames: 3_079, microseconds: 14_343 };
/// With a wait behind each of the two status writes (02, A4).
const WORST_05PA: Amounts = Amounts { bytes: 4_453, frames: 38, microseconds: 35_500 };

impl Amounts {
    /// The worst over both chips, which the header and the binding name.
    pub const WORST: Self = WORST_008A.or_greater(WORST_05PA);

    /// The worst of a chip; on the 008A no plan has all of it.
    pub const fn worst(chip: u8) -> Self {
        match chip {
            F25L008A => WORST_008A,
            _ => WORST_05PA,
        }
    }

    pub fn of(planned: &Planned) -> Self {
        let Planned { length: bytes, frames, microseconds, .. } = *planned;
        Self { bytes, frames, microseconds }
    }

    /// Of each amount the greater one.
    pub const fn or_greater(self, other: Self) -> Self {
        Self {
            bytes: greater(self.bytes, other.bytes),
            frames: greater(self.frames, other.frames),
            microseconds: greater(self.microseconds, other.microseconds),
        }
    }
}

const fn greater(one: u32, other: u32) -> u32 {
    if one > other {
        one
    } else {
        other
    }
}

impl fmt::Display for Amounts {
    fn fmt(&self, to: &mut fmt::Formatter<'_>) -> fmt::Result {
        let Self { bytes, frames, microseconds } = self;
        write!(to, "{bytes} bytes, {frames} frames, {microseconds} microseconds")
    }
}

impl Limit {
    pub const ALL: [Self; 4] = [Self::Bytes, Self::Frames, Self::Microseconds, Self::FramesAndTime];

    /// The limit itself.
    pub fn most(self, chip: u8) -> u32 {
        match (self, chip) {
            (Self::FramesAndTime, F25L008A) => 28_728,
            _ => self.within(&Amounts::worst(chip)),
        }
    }

    /// How much of it these have.
    pub fn within(self, amounts: &Amounts) -> u32 {
        match self {
            Self::Bytes => amounts.bytes,
            Self::Frames => amounts.frames,
            Self::Microseconds => amounts.microseconds,
            Self::FramesAndTime => 7 * amounts.frames + amounts.microseconds,
        }
    }

    /// Whether these have more of it.
    pub fn is_passed_by(self, chip: u8, amounts: &Amounts) -> bool {
        self.within(amounts) > self.most(chip)
    }

    /// Whether these come within a hundredth of it.
    pub fn is_near(self, chip: u8, amounts: &Amounts) -> bool {
        100 * self.within(amounts) >= 99 * self.most(chip)
    }
}
