//! The wrong copies of the salvage alone (A9): each told apart by the sectors that the library is
//! compared on, and some by the promises, which the right one keeps.

use cases::salvage::{explore, Promise, Salvage, Salvages};
use model::{salvage, Calls, Model, SalvageFault as Fault};

use crate::broken::Broken;

/// How many of the sectors that the library is given are given to each copy, and how many more for
/// the promises.
const IMAGES: usize = 2_000;
const PROMISED: usize = 200;

/// What copies have to break: all there is, and each part of it.
const HAVE_TO_BREAK: [(Fault, Promise); 34] = [
    (Fault::EntryForEachByte, Promise::Accepted),
    (Fault::ErasedInsideNotListed, Promise::CoveredOnce),
    (Fault::TrailingErasedListed, Promise::CoveredOnce),
    (Fault::StretchesJoined, Promise::CoveredOnce),
    (Fault::LengthInEntries, Promise::CoveredOnce),
    (Fault::KeptInRecords, Promise::CoveredOnce),
    (Fault::LastByteNotSeen, Promise::CoveredOnce),
    (Fault::StartCutTo8Bits, Promise::CoveredOnce),
    (Fault::CountedFrom1, Promise::CoveredOnce),
    (Fault::FirstBadPlaceEnds, Promise::NoneLost),
    (Fault::DamagedSteppedOver, Promise::NoneLost),
    (Fault::EqualNameDropped, Promise::NoneLost),
    (Fault::Length1Refused, Promise::NoneLost),
    (Fault::Length32Refused, Promise::NoneLost),
    (Fault::SpaceRefused, Promise::NoneLost),
    (Fault::Byte7eRefused, Promise::NoneLost),
    (Fault::HalfMarkAsked, Promise::KeptWhole),
    (Fault::Length0Taken, Promise::KeptWhole),
    (Fault::Length33Taken, Promise::KeptWhole),
    (Fault::Byte1fTaken, Promise::KeptWhole),
    (Fault::Byte7fTaken, Promise::KeptWhole),
    (Fault::RecordPastEndKept, Promise::KeptWhole),
    (Fault::KeptWalkedInto, Promise::KeptWhole),
    (Fault::KeptInPlace, Promise::KeptWhole),
    (Fault::EntryForEachByte, Promise::ListRises),
    (Fault::LengthCutTo8Bits, Promise::ListRises),
    (Fault::GoodNotCopied, Promise::SameAgain),
    (Fault::KeptRestLeft, Promise::NoneDroppedAgain),
    (Fault::TrailingErasedListed, Promise::NoneDroppedAgain),
    (Fault::KeptInPlace, Promise::NamesSeen),
    (Fault::EqualNameDropped, Promise::NamesStay),
    (Fault::LastByteNotSeen, Promise::NamesStay),
    (Fault::KeptRestLeft, Promise::RestsRight),
    (Fault::ListRestCleared, Promise::RestsRight),
];

/// The faults by name, each with its wrong copy; the match fails to compile if one is missing.
macro_rules! faults {
    ($($fault:ident)*) => {
        const FAULTS: &[Fault] = &[$(Fault::$fault),*];

        fn copy(fault: Fault) -> Salvage {
            match fault {
                Fault::None => <Model>::salvage,
                $(Fault::$fault => salvage::<{ Fault::$fault as u8 }>,)*
            }
        }
    };
}

faults! {
    HalfMarkAsked
    Length0Taken
    Length1Refused
    Length32Refused
    Length33Taken
    Byte1fTaken
    SpaceRefused
    Byte7eRefused
    Byte7fTaken
    RecordPastEndKept
    FirstBadPlaceEnds
    DamagedSteppedOver
    KeptWalkedInto
    EqualNameDropped
    LastByteNotSeen
    FirstErasedEnds
    TrailingErasedListed
    ErasedInsideNotListed
    StretchesJoined
    EntryForEachByte
    LowByteFirst
    CountedFrom1
    StartCutTo8Bits
    LengthCutTo8Bits
    ListRestCleared
    KeptRestLeft
    KeptInPlace
    GoodNotCopied
    LengthInEntries
    KeptInRecords
    RefusedTellsLength
    OnlyKeptMeasured
    OnlySectorMeasured
    RoomCheckedBeforeLengths
    RoomCheckedLast
    OneByteShortTaken
    ExactRoomRefused
}

/// Whether every copy is told apart, and breaks all that it has to.
pub fn are_told(seed: u64) -> bool {
    println!("{:<28} {:>8}  promise of A9 and sector", "wrong copy of the salvage", "sector");
    let told = FAULTS.iter().map(|fault| is_told(*fault, seed));
    // Each is to be printed.
    told.fold(true, |all, told| all & told)
}

fn is_told(fault: Fault, seed: u64) -> bool {
    let copy = copy(fault);
    let difference = explore(copy, seed, IMAGES, |_| ()).err();
    let broken = broken(copy, seed);
    let sector = difference.as_ref().map_or("NOT TOLD".into(), |found| found.index.to_string());
    print!("{:<28} {sector:>8}", format!("{fault:?}"));
    broken.each().for_each(|(promise, sector)| print!("  {promise:?} {sector}"));
    println!();
    let missing = broken.missing(fault, &HAVE_TO_BREAK);
    missing.iter().for_each(|what| println!("  NOT BROKEN: {what}"));
    difference.is_some() && missing.is_empty()
}

/// The promises that a copy breaks, each with the first sector that shows it.
fn broken(copy: Salvage, seed: u64) -> Broken<Promise> {
    let mut salvages = Salvages::new(copy, seed);
    let mut broken = Broken::default();
    for index in 0..PROMISED {
        for promise in salvages.salvage().1.broken {
            broken.note(promise, index);
        }
    }
    broken
}

/// Whether the right model keeps the promises.
pub fn are_kept(seed: u64) -> bool {
    let mut salvages = Salvages::new(<Model>::salvage, seed);
    let kept = (0..PROMISED).filter(|_| salvages.salvage().1.broken.is_empty()).count();
    println!("sectors with which it keeps the promises of A9: {kept} of {PROMISED}");
    kept == PROMISED
}
