//! The wrong copies of the calls about flags by name alone (A7): each told apart by the cases that the
//! library is compared with, and some by the promises, which the right ones keep.

use cases::names::{explore, Histories, Names, Promise, Trials};
use cases::CHIPS;
use model::{Model, NamesFault as Fault};

use crate::broken::Broken;

/// How many of the cases that the library is given are given to each copy at most; and on each chip,
/// how many of the trials and of the histories, to those that have to break a promise, and to the
/// right model.
const CASES: usize = 10_000;
const TRIALS: usize = 2_000;
const RIGHT_TRIALS: usize = 100;

/// What copies have to break: all there is.
const HAVE_TO_BREAK: [(Fault, Promise); 73] = [
    (Fault::Name32ListedRefused, Promise::Accepted),
    (Fault::EmptyListRefused, Promise::Accepted),
    (Fault::Names4096Refused, Promise::Accepted),
    (Fault::ListCaseFolded, Promise::Accepted),
    (Fault::BeginningIsTwice, Promise::Accepted),
    (Fault::PresentWantsErased, Promise::Accepted),
    (Fault::BookTooLong, Promise::Accepted),
    (Fault::BookAloneWanted, Promise::Accepted),
    (Fault::BookKept, Promise::Accepted),
    (Fault::PresentRefusedFull, Promise::FullExactly),
    (Fault::FullOneEarly, Promise::FullExactly),
    (Fault::FullOneLate, Promise::FullExactly),
    (Fault::FullForLongest, Promise::FullExactly),
    (Fault::MovedAsFarAsFits, Promise::FullExactly),
    (Fault::MarksInFirstPlan, Promise::MarkKeepsNames),
    (Fault::NamesNotAskedFor, Promise::MarkKeepsNames),
    (Fault::MarksInFirstPlan, Promise::FirstAddsNone),
    (Fault::MarkKeptInFirstPlan, Promise::FirstAddsNone),
    (Fault::LengthsNotAskedFor, Promise::FirstAddsNone),
    (Fault::NamesNotAskedFor, Promise::FirstAddsNone),
    (Fault::LastByteAskedFor, Promise::FirstAddsNone),
    (Fault::LastRecordNotSeen, Promise::PresentKept),
    (Fault::FirstRecordOnly, Promise::PresentKept),
    (Fault::PresentAppended, Promise::PresentKept),
    (Fault::FirstPlanUntilExact, Promise::AgainAccepted),
    (Fault::ReadOnBehindBadPlace, Promise::Marked),
    (Fault::BeginningIsName, Promise::Marked),
    (Fault::LongerIsName, Promise::Marked),
    (Fault::LastByteNotCompared, Promise::Marked),
    (Fault::CaseFolded, Promise::Marked),
    (Fault::OwnBytesWanted, Promise::Marked),
    (Fault::RestNotWanted, Promise::Marked),
    (Fault::MovedInReverse, Promise::MovePrefix),
    (Fault::OneIsRead, Promise::MovePrefix),
    (Fault::MovedInReverse, Promise::Moved),
    (Fault::UnreadMoved, Promise::Moved),
    (Fault::SceneBitFromTop, Promise::Moved),
    (Fault::PositionsFrom1, Promise::Moved),
    (Fault::RecordAtEndRefused, Promise::ThereAndBack),
    (Fault::UnreadMoved, Promise::ThereAndBack),
    (Fault::OthersSetRead, Promise::ThereAndBack),
    (Fault::BackPositionsFrom1, Promise::ThereAndBack),
    (Fault::BackSectorsSwapped, Promise::ThereAndBack),
    (Fault::ReadOnBehindBadPlace, Promise::BackAndThere),
    (Fault::BackPositionsFrom1, Promise::BackAndThere),
    (Fault::UnlistedEnds, Promise::BackAndThere),
    (Fault::ReadOnBehindBadPlace, Promise::OnlyRecordedRead),
    (Fault::OthersSetRead, Promise::OnlyRecordedRead),
    (Fault::BackPositionsFrom1, Promise::OnlyRecordedRead),
    (Fault::UnlistedNamesCounted, Promise::Unlisted),
    (Fault::UnrecordedCounted, Promise::Unlisted),
    (Fault::UnlistedWithRefusal, Promise::Unlisted),
    (Fault::UnlistedNotWithEmpty, Promise::Unlisted),
    (Fault::UnlistedEnds, Promise::Unlisted),
    (Fault::PlannedAtAddress0, Promise::RestKept),
    (Fault::HalfMarkAsked, Promise::Told),
    (Fault::Length1Refused, Promise::Told),
    (Fault::Length32Refused, Promise::Told),
    (Fault::SpaceRefused, Promise::Told),
    (Fault::Byte7eRefused, Promise::Told),
    (Fault::RecordAtEndRefused, Promise::Told),
    (Fault::ReadOnBehindBadPlace, Promise::Told),
    (Fault::BeginningIsName, Promise::Told),
    (Fault::LongerIsName, Promise::Told),
    (Fault::LastByteNotCompared, Promise::Told),
    (Fault::CaseFolded, Promise::Told),
    (Fault::LastRecordNotSeen, Promise::Told),
    (Fault::FirstRecordOnly, Promise::Told),
    (Fault::MarksInFirstPlan, Promise::NoneMadeUp),
    (Fault::NamesNotAskedFor, Promise::NoneMadeUp),
    (Fault::MarkNotLookedAt, Promise::NoneMadeUp),
    (Fault::UnreadMoved, Promise::NoneMadeUp),
    (Fault::WrittenOverFirst, Promise::NoneLost),
];

/// Whether every copy is told apart, and breaks all that it has to.
pub fn are_told(seed: u64) -> bool {
    let broken = "promise of A7 and trial or history";
    println!("{:<28} {:>8}  {:<14}  {broken}", "wrong copy of flags by name", "case", "call");
    let told = Fault::ALL.iter().map(|fault| is_told(*fault, seed));
    // Each is to be printed.
    told.fold(true, |all, told| all & told)
}

fn is_told(fault: Fault, seed: u64) -> bool {
    let copy = Names::wrong(fault);
    let difference = explore(&copy, seed, CASES, |_| ()).err();
    let own = HAVE_TO_BREAK.iter().filter(|(copy, _)| *copy == fault);
    let looked_for: Vec<Promise> = own.map(|(_, promise)| *promise).collect();
    let broken = broken(&copy, seed, TRIALS, &looked_for);
    match &difference {
        Some(found) => {
            let (name, call) = (format!("{fault:?}"), found.call);
            print!("{name:<28} {:>8}  {call:<14}", found.index);
        }
        None => print!("{:<28} NOT TOLD", format!("{fault:?}")),
    }
    broken.each().for_each(|(promise, trial)| print!("  {promise:?} {trial}"));
    println!();
    let missing = broken.missing(fault, &HAVE_TO_BREAK);
    missing.iter().for_each(|what| println!("  NOT BROKEN: {what}"));
    difference.is_some() && missing.is_empty()
}

/// The promises that a copy breaks, each with the number of the first trial or history that shows
/// it, until all are found that are looked for; the right model runs what the copy plans.
fn broken(copy: &Names, seed: u64, trials: usize, looked_for: &[Promise]) -> Broken<Promise> {
    let mut broken = Broken::default();
    let mut all_trials = CHIPS.map(|chip| Trials::new::<Model>(copy.clone(), chip, seed));
    let mut histories = CHIPS.map(|chip| Histories::new::<Model>(copy.clone(), chip, seed));
    for index in 0..trials {
        if looked_for.iter().all(|promise| broken.has(*promise)) {
            break;
        }
        let tried = all_trials.iter_mut().flat_map(|trials| trials.trial().broken);
        let lived = histories.iter_mut().flat_map(|histories| histories.history().found.broken);
        tried.chain(lived).for_each(|promise| broken.note(promise, index));
    }
    broken
}

/// Whether the right model keeps the promises.
pub fn are_kept(seed: u64) -> bool {
    let count = broken(&Names::of::<Model>(), seed, RIGHT_TRIALS, &Promise::ALL).each().count();
    println!("promises of A7 that it breaks: {count}");
    count == 0
}
