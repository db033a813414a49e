//! Salvaging a sick sector of names (02, A9): what becomes of each place is marked first; then the
//! kept ones are put together, and the dropped ones grouped.

use crate::chip::SECTOR;
use crate::fault::SalvageFault as Fault;
use crate::names::{names_of, Form};
use crate::state::refusal;
use crate::Salvaged;

/// What becomes of a place.
#[derive(Clone, Copy, PartialEq, Eq)]
enum Fate {
    Kept,
    Dropped,
    Erased,
}

type Fates = [Fate; SECTOR];

/// The call: writes the kept records and the list of dropped stretches.
pub fn salvage<const FAULT: u8>(sector: &[u8], kept: &mut [u8], dropped: &mut [u8]) -> Salvaged {
    let lengths = lengths_are_right::<FAULT>(sector, kept);
    if !lengths && !Fault::RoomCheckedBeforeLengths.within(FAULT) {
        return Salvaged::refused(refusal::ARRAY_LENGTH);
    }
    let fates = fates::<FAULT>(sector);
    let length = 4 * stretches::<FAULT>(&fates).count();
    if is_short::<FAULT>(dropped.len(), length) {
        if Fault::RoomCheckedLast.within(FAULT) {
            write_kept::<FAULT>(sector, &fates, kept);
        }
        let told = if Fault::RefusedTellsLength.within(FAULT) { length } else { 0 };
        return Salvaged { length: told as u32, ..Salvaged::refused(refusal::ROOM) };
    }
    if !lengths {
        return Salvaged::refused(refusal::ARRAY_LENGTH);
    }
    if length > 0 || !Fault::GoodNotCopied.within(FAULT) {
        write_kept::<FAULT>(sector, &fates, kept);
    }
    write_list::<FAULT>(&fates, dropped);
    let count = match Fault::KeptInRecords.within(FAULT) {
        true => names_of(kept).count(),
        false => fates.iter().filter(|fate| **fate == Fate::Kept).count(),
    };
    let length = if Fault::LengthInEntries.within(FAULT) { length / 4 } else { length };
    Salvaged { number: 0, length: length as u32, kept: count as u32 }
}

fn lengths_are_right<const FAULT: u8>(sector: &[u8], kept: &[u8]) -> bool {
    (sector.len() == SECTOR || Fault::OnlyKeptMeasured.within(FAULT))
        && (kept.len() == SECTOR || Fault::OnlySectorMeasured.within(FAULT))
}

fn is_short<const FAULT: u8>(room: usize, length: usize) -> bool {
    if Fault::OneByteShortTaken.within(FAULT) {
        room + 1 < length
    } else if Fault::ExactRoomRefused.within(FAULT) {
        room <= length
    } else {
        room < length
    }
}

/// What a record looks like; only to a wrong copy otherwise than it should.
const fn form<const FAULT: u8>() -> Form {
    let mut form = Form::RIGHT;
    form.whole_mark = !Fault::HalfMarkAsked.within(FAULT);
    form.past_end = Fault::RecordPastEndKept.within(FAULT);
    if Fault::Length0Taken.within(FAULT) {
        form.shortest = 0;
    } else if Fault::Length1Refused.within(FAULT) {
        form.shortest = 2;
    } else if Fault::Length32Refused.within(FAULT) {
        form.longest = 31;
    } else if Fault::Length33Taken.within(FAULT) {
        form.longest = 33;
    } else if Fault::Byte1fTaken.within(FAULT) {
        form.first_byte = 0x1F;
    } else if Fault::SpaceRefused.within(FAULT) {
        form.first_byte = 0x21;
    } else if Fault::Byte7eRefused.within(FAULT) {
        form.last_byte = 0x7D;
    } else if Fault::Byte7fTaken.within(FAULT) {
        form.last_byte = 0x7F;
    }
    form
}

/// What becomes of each place; only in a wrong copy the sector has another length.
fn fates<const FAULT: u8>(sector: &[u8]) -> Fates {
    let used = used::<FAULT>(sector.get(..SECTOR).unwrap_or(sector));
    let mut fates = [Fate::Erased; SECTOR];
    fates[..used.len()].fill(Fate::Dropped);
    let mut at = 0;
    while at < used.len() {
        let (front, rest) = used.split_at(at);
        at += match form::<FAULT>().record(rest) {
            Some(found) if Fault::EqualNameDropped.within(FAULT) && stands(found, front) => {
                found.len()
            }
            Some(found) => {
                fates[at..][..found.len()].fill(Fate::Kept);
                if Fault::KeptWalkedInto.within(FAULT) {
                    1
                } else {
                    found.len()
                }
            }
            None => stepped_over::<FAULT>(rest),
        };
    }
    if Fault::ErasedInsideNotListed.within(FAULT) {
        let erased = fates.iter_mut().zip(used).filter(|(_, byte)| **byte == 0xFF);
        erased.for_each(|(fate, _)| *fate = Fate::Erased);
    }
    fates
}

/// The sector without "all trailing FF".
fn used<const FAULT: u8>(sector: &[u8]) -> &[u8] {
    let seen = match Fault::LastByteNotSeen.within(FAULT) {
        true => &sector[..sector.len().saturating_sub(1)],
        false => sector,
    };
    let end = if Fault::TrailingErasedListed.within(FAULT) {
        seen.len()
    } else if Fault::FirstErasedEnds.within(FAULT) {
        seen.iter().position(|byte| *byte == 0xFF).unwrap_or(seen.len())
    } else {
        seen.iter().rposition(|byte| *byte != 0xFF).map_or(0, |last| last + 1)
    };
    &seen[..end]
}

/// How many bytes are dropped where no record begins: "bytewise".
fn stepped_over<const FAULT: u8>(rest: &[u8]) -> usize {
    if Fault::FirstBadPlaceEnds.within(FAULT) {
        return rest.len();
    }
    match form::<FAULT>().marked(rest) {
        Some((length, _)) if Fault::DamagedSteppedOver.within(FAULT) => 3 + length,
        _ => 1,
    }
}

/// Only for a wrong copy: whether the same record stands in front.
fn stands(record: &[u8], front: &[u8]) -> bool {
    front.windows(record.len()).any(|bytes| bytes == record)
}

/// Start and length of each dropped stretch.
fn stretches<const FAULT: u8>(fates: &Fates) -> impl Iterator<Item = (usize, usize)> + '_ {
    let is_dropped = |fate: &Fate| *fate == Fate::Dropped;
    let together = |one: &Fate, next: &Fate| match () {
        () if Fault::EntryForEachByte.within(FAULT) => false,
        () if Fault::StretchesJoined.within(FAULT) => *next != Fate::Erased,
        () => one == next,
    };
    let mut end = 0;
    fates.chunk_by(together).filter_map(move |run| {
        let start = end;
        end += run.len();
        if Fault::StretchesJoined.within(FAULT) {
            let (first, last) =
                (run.iter().position(is_dropped)?, run.iter().rposition(is_dropped)?);
            return Some((start + first, last + 1 - first));
        }
        is_dropped(&run[0]).then_some((start, run.len()))
    })
}

/// The kept bytes from the front, FF after them.
fn write_kept<const FAULT: u8>(sector: &[u8], fates: &Fates, kept: &mut [u8]) {
    let places = sector.iter().zip(fates);
    if Fault::KeptInPlace.within(FAULT) {
        for (to, (byte, fate)) in kept.iter_mut().zip(places) {
            *to = if *fate == Fate::Kept { *byte } else { 0xFF };
        }
        return;
    }
    let mut rest = kept.iter_mut();
    for (byte, _) in places.filter(|(_, fate)| **fate == Fate::Kept) {
        rest.next().into_iter().for_each(|to| *to = *byte);
    }
    if !Fault::KeptRestLeft.within(FAULT) {
        rest.into_slice().fill(0xFF);
    }
}

/// "Start and length in two bytes each, high first."
fn write_list<const FAULT: u8>(fates: &Fates, dropped: &mut [u8]) {
    if Fault::ListRestCleared.within(FAULT) {
        dropped.fill(0xFF);
    }
    let entries = stretches::<FAULT>(fates).flat_map(entry::<FAULT>);
    for (to, byte) in dropped.iter_mut().zip(entries) {
        *to = byte;
    }
}

fn entry<const FAULT: u8>((start, length): (usize, usize)) -> [u8; 4] {
    let start = if Fault::CountedFrom1.within(FAULT) { start + 1 } else { start };
    let [mut start, mut length] = [start, length].map(|number| (number as u16).to_be_bytes());
    if Fault::LowByteFirst.within(FAULT) {
        start.reverse();
        length.reverse();
    }
    if Fault::StartCutTo8Bits.within(FAULT) {
        start[0] = 0;
    }
    if Fault::LengthCutTo8Bits.within(FAULT) {
        length[0] = 0;
    }
    [start[0], start[1], length[0], length[1]]
}
