//! Sorts of sick sectors, and of the room for their lists, worth counting.

use std::collections::BTreeSet;

use model::{names_of, SECTOR};

use super::sorts::{holding, sorts};
use crate::salvage::{Call, Image, Parts, HEAD, LONGEST_LIST, LONGEST_NAME, MOST_STRETCHES};

sorts!(SectorSort {
    Erased,
    NothingDropped,
    NothingKept,
    OneStretch,
    /// A hundred stretches at least.
    ManyStretches,
    MostStretches,
    StretchOver255,
    StartOver255,
    /// The last stretch ends where the final erased one begins.
    DroppedBeforeErased,
    LastByteDropped,
    NoErased,
    FullOfRecords,
    ErasedInside,
    /// A record ends at the sector's last byte.
    RecordAtEnd,
    EqualNames,
    ShortestName,
    LongestName,
    SpaceInName,
    Byte7eInName,
    /// A whole good record begins inside a kept one, and passes its end.
    PassesKept,
    /// A kept record begins inside a damaged one, whose mark is whole, or half of it.
    InsideDamaged,
    InsideHalfMarked,
});

// What alone keeps a dropped place from being a record's first. The sector's end cuts off a head or
// a name where the bytes behind the sector would make the record whole.
sorts!(Miss { HalfMark, Length0, Length33, Byte1f, Byte7f, CutInName, CutInHead });

sorts!(RoomSort { None, OneEntryShort, OneByteShort, Exact, Longest, Longer });

/// How a list that isn't empty fits.
pub fn of_room(call: &Call) -> impl Iterator<Item = RoomSort> {
    let (room, length) = (call.lent.room, call.list.len());
    let listed = length > 0 && call.lent.is_sectors();
    holding([
        (length > 4 && listed && room == 0, RoomSort::None),
        (listed && room > 0 && room + 4 == length, RoomSort::OneEntryShort),
        (listed && room + 1 == length, RoomSort::OneByteShort),
        (listed && room == length, RoomSort::Exact),
        (listed && room == LONGEST_LIST, RoomSort::Longest),
        (listed && room > LONGEST_LIST, RoomSort::Longer),
    ])
}

/// The sorts of a sector with this list.
pub fn of_sector(parts: &Parts) -> impl Iterator<Item = SectorSort> {
    of_parts(parts).chain(of_kept(parts))
}

/// What the dropped places miss, each once.
pub fn of_misses(parts: &Parts, image: &Image) -> BTreeSet<Miss> {
    let cut = |at: usize| names_of(&image.lent(2 * SECTOR)[at..]).next().is_some();
    let in_head = |at: usize| at + HEAD > SECTOR;
    let miss_at = |at: usize| match (cut(at), in_head(at)) {
        (true, true) => Some(Miss::CutInHead),
        (true, false) => Some(Miss::CutInName),
        _ => miss(&parts.image[at..]),
    };
    parts.dropped().filter_map(miss_at).collect()
}

fn of_parts(parts: &Parts) -> impl Iterator<Item = SectorSort> {
    let Parts { image, stretches, used, .. } = parts;
    let last = stretches.last().map_or(0, |(start, length)| start + length);
    let dropped: usize = stretches.iter().map(|(_, length)| length).sum();
    let erased_inside = parts.dropped().any(|at| image[at] == 0xFF);
    holding([
        (*used == 0, SectorSort::Erased),
        (*used > 0 && dropped == 0, SectorSort::NothingDropped),
        (*used > 0 && dropped == *used, SectorSort::NothingKept),
        (stretches.len() == 1, SectorSort::OneStretch),
        (stretches.len() >= 100, SectorSort::ManyStretches),
        (stretches.len() == MOST_STRETCHES, SectorSort::MostStretches),
        (stretches.iter().any(|(_, length)| *length > 255), SectorSort::StretchOver255),
        (stretches.iter().any(|(start, _)| *start > 255), SectorSort::StartOver255),
        (last > 0 && last == *used && last < SECTOR, SectorSort::DroppedBeforeErased),
        (last == SECTOR, SectorSort::LastByteDropped),
        (*used == SECTOR, SectorSort::NoErased),
        (*used == SECTOR && dropped == 0, SectorSort::FullOfRecords),
        (erased_inside, SectorSort::ErasedInside),
    ])
}

fn of_kept(parts: &Parts) -> impl Iterator<Item = SectorSort> {
    let records = records(parts);
    let names = || records.iter().map(|(_, name)| *name);
    let distinct: BTreeSet<&[u8]> = names().collect();
    let has_byte = |byte: u8| names().any(|name| name.contains(&byte));
    let end = |at: usize, name: &[u8]| at + HEAD + name.len();
    let passes = |(start, name): &(usize, &[u8])| {
        let own_end = end(*start, name);
        let other = |at: usize| names_of(&parts.image[at..]).next().map(|name| end(at, name));
        (start + 1..own_end).any(|at| other(at).is_some_and(|other_end| other_end > own_end))
    };
    let inside = |half: bool| {
        let reaches = |at: usize| Some(at + 1..at + reach(&parts.image[at..], half)?);
        let starts_in = |mut damaged: std::ops::Range<usize>| {
            damaged.any(|at| records.binary_search_by_key(&at, |(start, _)| *start).is_ok())
        };
        parts.dropped().filter_map(reaches).any(starts_in)
    };
    holding([
        (records.iter().any(|(at, name)| end(*at, name) == SECTOR), SectorSort::RecordAtEnd),
        (distinct.len() < records.len(), SectorSort::EqualNames),
        (names().any(|name| name.len() == 1), SectorSort::ShortestName),
        (names().any(|name| name.len() == LONGEST_NAME), SectorSort::LongestName),
        (has_byte(0x20), SectorSort::SpaceInName),
        (has_byte(0x7E), SectorSort::Byte7eInName),
        (records.iter().any(passes), SectorSort::PassesKept),
        (inside(false), SectorSort::InsideDamaged),
        (inside(true), SectorSort::InsideHalfMarked),
    ])
}

/// The kept names, with the starts of their records.
fn records<'a>(parts: &Parts<'a>) -> Vec<(usize, &'a [u8])> {
    let mut records = Vec::new();
    for (mut at, bytes) in parts.kept() {
        for name in names_of(bytes) {
            records.push((at, name));
            at += HEAD + name.len();
        }
    }
    records
}

/// How far a damaged record reaches whose mark is whole, or half of it.
fn reach(rest: &[u8], half: bool) -> Option<usize> {
    let [first, second, length, ..] = *rest else { return None };
    let right = [first == 0x4E, second == 0x52];
    let marked = if half { right[0] != right[1] } else { right == [true; 2] };
    let length = usize::from(length);
    (marked && (1..=LONGEST_NAME).contains(&length)).then_some(HEAD + length)
}

/// What alone keeps a record from beginning here.
fn miss(rest: &[u8]) -> Option<Miss> {
    let [0x4E, second, length, behind @ ..] = rest else { return None };
    let is_good = |byte: &u8| (0x20..=0x7E).contains(byte);
    let name = behind.get(..usize::from(*length));
    let all = |other: u8| {
        name.is_some_and(|name| name.iter().all(|byte| is_good(byte) || *byte == other))
    };
    match (*second == 0x52, *length) {
        (true, 0) => Some(Miss::Length0),
        (true, 33) if all(0x20) => Some(Miss::Length33),
        (true, 1..=32) if all(0x1F) => Some(Miss::Byte1f),
        (true, 1..=32) if all(0x7F) => Some(Miss::Byte7f),
        (false, 1..=32) if all(0x20) => Some(Miss::HalfMark),
        _ => None,
    }
}
