//! Sorts of cases worth counting.

use std::ops::Range;

use model::{Kind, State, LONGEST_REGION, LONGEST_SCRIPT, SCENES, SECTOR};

use crate::case::On;
use crate::{first_protected, size, F25L008A, F25L05PA};

/// The wait for a status write of the 05PA.
const STATUS_WAIT: [u8; 6] = [0x5A, 0x57, 0x00, 0x00, 0x13, 0x88];

/// Declares a sort with the list of all its cases.
macro_rules! sorts {
    ($name:ident { $($(#[$doc:meta])* $sort:ident),* $(,)? }) => {
        #[derive(Clone, Copy, Debug, PartialEq, Eq, PartialOrd, Ord)]
        pub enum $name { $($(#[$doc])* $sort),* }

        impl $name {
            pub const ALL: &[Self] = &[$(Self::$sort),*];
        }
    };
}
pub(super) use sorts;

sorts!(FrameSort {
    WrappedPage,
    PageOver256,
    LongestPage,
    ReadPastTop008A,
    ReadPastTop05PA,
    OddWordAddress,
    AddressBeyondSize,
    /// AAI's first word ends at the first protected address.
    WordAtBorder,
    /// The status is shown while a write of other bits is pending.
    StatusWhilePending,
});

sorts!(PlanSort {
    Empty,
    WithStep1,
    WithoutStep1,
    OddStart,
    OddEnd,
    ExactRoom,
    OneByteShort,
    LongestRegion,
    FromWel,
    FromArmed,
    /// BPL 1 and WP low, and no need of step 1.
    LockedButFree,
    /// Changes only below the border, in a region that passes it.
    ProtectedButUnchanged,
    /// Steps 1 and 4 end with their wait.
    BothAwaited,
});

sorts!(ListSort {
    Empty,
    Repeats,
    /// Every scene in it is read already.
    NothingNew,
    LongerThanBook,
    LastScene,
});

sorts!(WrongBookSort {
    SceneOneTooHigh,
    /// A scene that there would be if its number were cut to 16 bits.
    SceneOver16Bits,
    NoMultiple,
    /// A multiple of 256, but not of 4,096.
    PageStart,
    StartAtSize,
    StartAboveSize,
    /// There would be a sector if the start were cut to 32 bits.
    StartOver32Bits,
    /// With the sector's length the start would pass 64 bits.
    StartNearTop,
});

sorts!(AskedSort { AtRest, Busy, InAai, InPowerDown });

sorts!(ScriptSort { Empty, LongestScript, MicrosecondsOver32Bits });

sorts!(TimeSort { AtRest, BusyGoesOn, BusyEnds, AaiStays, AaiEnds, StatusGoesOn, StatusEnds });

pub fn holding<T: Copy, const N: usize>(sorts: [(bool, T); N]) -> impl Iterator<Item = T> {
    sorts.into_iter().filter_map(|(holds, sort)| holds.then_some(sort))
}

/// The sorts of a taken frame.
pub fn of_frame(state: &State, kind: Kind, frame: &[u8]) -> impl Iterator<Item = FrameSort> {
    let chip = state.chip;
    let (named, data) = match *frame {
        [_, high, middle, low, ref data @ ..] => {
            (u32::from_be_bytes([0, high, middle, low]) as usize, data.len())
        }
        _ => (0, 0),
    };
    let address = named % size(chip);
    let page = kind == Kind::Program && chip == F25L05PA;
    let word = kind == Kind::WordProgram && data == 2;
    let past_top = kind == Kind::Read && address + data > size(chip);
    let at_border = (address | 1) + 1 == first_protected(chip, state.bp);
    let new_level = state.pending_bits >> 2 & 7;
    let shows_old = kind == Kind::ReadStatus && state.pending && new_level != state.bp;
    holding([
        (page && address % 256 + data > 256, FrameSort::WrappedPage),
        (page && data > 256, FrameSort::PageOver256),
        (page && data == 4_097, FrameSort::LongestPage),
        (past_top && chip == F25L008A, FrameSort::ReadPastTop008A),
        (past_top && chip == F25L05PA, FrameSort::ReadPastTop05PA),
        (word && address % 2 == 1, FrameSort::OddWordAddress),
        ((page || word) && named != address, FrameSort::AddressBeyondSize),
        (word && at_border, FrameSort::WordAtBorder),
        (shows_old && frame.len() > 1, FrameSort::StatusWhilePending),
    ])
}

/// The sorts of an accepted plan.
pub fn of_plan(
    on: &On,
    region: Range<usize>,
    room: usize,
    script: &[u8],
) -> impl Iterator<Item = PlanSort> {
    let State { chip, bp, bpl, wel, armed, .. } = on.state;
    let full = !script.is_empty();
    let step_1 = match chip {
        F25L008A => script.get(4) == Some(&0x50),
        _ => script.get(9) == Some(&0x01),
    };
    // Behind the first 01, and at the end.
    let awaited = script.get(11..17) == Some(&STATUS_WAIT) && script.ends_with(&STATUS_WAIT);
    let free = full && !step_1;
    let passes_border = region.end > first_protected(chip, bp);
    holding([
        (!full, PlanSort::Empty),
        (full && step_1, PlanSort::WithStep1),
        (free, PlanSort::WithoutStep1),
        (full && region.start % 2 == 1, PlanSort::OddStart),
        (full && region.end % 2 == 1, PlanSort::OddEnd),
        (full && room == script.len(), PlanSort::ExactRoom),
        (full && region.len() == LONGEST_REGION, PlanSort::LongestRegion),
        (full && wel, PlanSort::FromWel),
        (full && armed, PlanSort::FromArmed),
        (free && bpl && !on.wp_high, PlanSort::LockedButFree),
        (free && passes_border, PlanSort::ProtectedButUnchanged),
        (step_1 && awaited, PlanSort::BothAwaited),
    ])
}

/// The sorts of a list that was marked by this script.
pub fn of_list(scenes: &[u32], script: &[u8]) -> impl Iterator<Item = ListSort> {
    let mut distinct = scenes.to_vec();
    distinct.sort_unstable();
    distinct.dedup();
    let nothing_new = !scenes.is_empty() && script.is_empty();
    holding([
        (scenes.is_empty(), ListSort::Empty),
        (distinct.len() < scenes.len(), ListSort::Repeats),
        (nothing_new, ListSort::NothingNew),
        (scenes.len() > SCENES as usize, ListSort::LongerThanBook),
        (distinct.last() == Some(&(SCENES - 1)), ListSort::LastScene),
    ])
}

/// What is wrong with scenes or with a sector's start, if only one of them is.
pub fn of_wrong_book(
    chip: u8,
    sector: usize,
    scenes: &[u32],
) -> impl Iterator<Item = WrongBookSort> {
    let size = size(chip);
    let starts = |sector: usize| sector < size && sector.is_multiple_of(SECTOR);
    let is_sector = starts(sector);
    let is_cut_sector = !is_sector && starts(sector as u32 as usize);
    let are_scenes = scenes.iter().all(|scene| *scene < SCENES);
    let is_cut = |scene: &u32| *scene > 0xFFFF && scene & 0xFFFF < SCENES;
    let near_top = sector.checked_add(SECTOR).is_none();
    let inside = are_scenes && sector < size;
    holding([
        (is_sector && scenes.contains(&SCENES), WrongBookSort::SceneOneTooHigh),
        (is_sector && scenes.iter().any(is_cut), WrongBookSort::SceneOver16Bits),
        (inside && !sector.is_multiple_of(256), WrongBookSort::NoMultiple),
        (inside && sector.is_multiple_of(256), WrongBookSort::PageStart),
        (are_scenes && sector == size, WrongBookSort::StartAtSize),
        (are_scenes && sector > size && !near_top, WrongBookSort::StartAboveSize),
        (are_scenes && is_cut_sector, WrongBookSort::StartOver32Bits),
        (are_scenes && near_top, WrongBookSort::StartNearTop),
    ])
}

/// What the chip that was asked does.
pub fn of_asked(state: &State) -> AskedSort {
    match state {
        State { aai: true, .. } => AskedSort::InAai,
        State { power_down: true, .. } => AskedSort::InPowerDown,
        State { left: 0, .. } => AskedSort::AtRest,
        _ => AskedSort::Busy,
    }
}

/// The sorts of a good script that waits so long.
pub fn of_script(script: &[u8], microseconds: u64) -> impl Iterator<Item = ScriptSort> {
    let over = microseconds > u64::from(u32::MAX);
    holding([
        (script.is_empty(), ScriptSort::Empty),
        (script.len() == LONGEST_SCRIPT, ScriptSort::LongestScript),
        (over, ScriptSort::MicrosecondsOver32Bits),
    ])
}

/// What time did to a chip.
pub fn of_time(before: &State, after: &State) -> TimeSort {
    match (before.left, after.left) {
        (0, _) => TimeSort::AtRest,
        (_, 0) if before.pending => TimeSort::StatusEnds,
        _ if before.pending => TimeSort::StatusGoesOn,
        (_, 0) if !before.aai => TimeSort::BusyEnds,
        (_, 0) if after.aai => TimeSort::AaiStays,
        (_, 0) => TimeSort::AaiEnds,
        _ => TimeSort::BusyGoesOn,
    }
}
