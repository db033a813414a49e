//! The wrong copies of the model against the right one: `sharpness [seed]`. Each has to be told
//! apart by the cases that the library is compared with, and the right model must not be. Some have
//! to break clauses of A14, limits of A8 or promises of A2, A7 or A9 too, which the right model must
//! keep.

mod broken;
mod clauses;
mod limits;
mod names;
mod promises;
mod salvages;

use std::fmt;
use std::process::ExitCode;
use std::thread;

use cases::unread::Script;
use cases::{explore, written_out, Difference};
use clauses::Clauses;
use limits::Limits;
use model::{Calls, Fault, Model};
use promises::Promises;

const SEED: u64 = 1;
const CASES: usize = 50_000;

fn main() -> ExitCode {
    let seed = std::env::args().nth(1).and_then(|text| text.parse().ok());
    let seed = seed.unwrap_or(SEED);

    let failing = written_out::<Model>();
    println!("cases written out that the right model fails: {failing:?}");
    let scripts = clauses::scripts(seed, CASES);
    let right = [
        failing.is_empty(),
        clauses::are_kept(&scripts),
        limits::are_kept(seed),
        promises::are_kept(seed),
        salvages::are_kept(seed),
        names::are_kept(seed),
    ];
    let mut sharp = right == [true; 6];

    let broken = "clause of A14 and script, limit of A8 and plan, promise of A2 and mark";
    println!("{:<28} {:>8}  {:<12}  {broken}", "wrong copy", "case", "call");
    for (fault, told) in FAULTS.iter().zip(hunt_all(seed, &scripts)) {
        println!("{:<28} {told}", format!("{fault:?}"));
        sharp &= told.is_enough(*fault);
    }
    sharp &= salvages::are_told(seed);
    sharp &= names::are_told(seed);
    if sharp && clauses::tell_a_copy_by_itself(&scripts) {
        ExitCode::SUCCESS
    } else {
        println!("not sharp, or the right model is wrong");
        ExitCode::FAILURE
    }
}

/// What tells each copy apart, in their order; the hunters take turns with them, one on each core.
fn hunt_all(seed: u64, scripts: &[Script]) -> Vec<Told> {
    let hunters = thread::available_parallelism().map_or(1, usize::from);
    let share = |hunter| FAULTS.iter().skip(hunter).step_by(hunters);
    let shares: Vec<Vec<Told>> = thread::scope(|scope| {
        let hunts = |hunter| share(hunter).map(|fault| hunt(*fault, seed, scripts)).collect();
        let started: Vec<_> =
            (0..hunters).map(|hunter| scope.spawn(move || hunts(hunter))).collect();
        started.into_iter().map(|hunter| hunter.join().expect("a hunt that ends")).collect()
    });
    let mut shares: Vec<_> = shares.into_iter().map(Vec::into_iter).collect();
    (0..FAULTS.len()).filter_map(|copy| shares[copy % hunters].next()).collect()
}

/// What tells a copy apart.
#[derive(Default)]
struct Told {
    case: Option<Difference>,
    clauses: Clauses,
    limits: Limits,
    promises: Promises,
}

impl Told {
    fn of<C: Calls>(seed: u64, scripts: &[Script]) -> Self {
        Self {
            case: explore::<C>(seed, CASES, |_, _, _| ()).err(),
            clauses: Clauses::of::<C>(scripts),
            limits: Limits::of::<C>(seed),
            promises: Promises::of::<C>(seed),
        }
    }

    /// Whether a case tells the copy with this fault, and it breaks all that it has to.
    fn is_enough(&self, fault: Fault) -> bool {
        let missing =
            [self.clauses.missing(fault), self.limits.missing(fault), self.promises.missing(fault)]
                .concat();
        for what in &missing {
            println!("  NOT BROKEN: {what}");
        }
        self.case.is_some() && missing.is_empty()
    }
}

impl fmt::Display for Told {
    fn fmt(&self, to: &mut fmt::Formatter<'_>) -> fmt::Result {
        let broken = format!("{}{}{}", self.clauses, self.limits, self.promises);
        let width = if broken.is_empty() { 0 } else { 12 };
        match &self.case {
            Some(found) => write!(to, "{:>8}  {:<width$}{broken}", found.index, found.call),
            None => write!(to, "NOT TOLD APART{broken}"),
        }
    }
}

/// The faults by name, each with its wrong copy; the match fails to compile if one is missing.
macro_rules! faults {
    ($($fault:ident)*) => {
        const FAULTS: &[Fault] = &[$(Fault::$fault),*];

        fn hunt(fault: Fault, seed: u64, scripts: &[Script]) -> Told {
            match fault {
                Fault::None => Told::default(),
                $(Fault::$fault => Told::of::<Model<{ Fault::$fault as u8 }>>(seed, scripts),)*
            }
        }
    };
}

faults! {
    AddressBitKept
    ByteStored
    WelClearedAtFrameEnd
    PageRunsOn
    StatusReadKeepsArmed
    IgnoredKeepsArmed
    LockedByEither
    StatusWriteLeavesWel
    UnknownChipIs008a
    UnsoundIsRefusal2
    BusyNotAsked
    WelNotAsked
    WelKept
    LongerEnableTaken
    FirstSectorUnprotected
    Bp2Protects05pa
    HalfBlocksProtected
    Level0ProtectsABlock
    Levels6And7Open
    NoTimePasses
    EndIsARefusal
    ProtectionForgotten
    AaiPassesBorder
    WelClearedInAai
    FirstPageByteCounts
    MaskInSentOrder
    OutsideByteFromArray
    GapBridged
    UnchangedByteUnprotected
    LockNotRestored
    LockCheckedBeforeBits
    OutputCheckedBeforeRecords
    WaitsWrap
    EmptyFrameAccepted
    LongerFrameAccepted
    LengthCheckedLast
    LastByteUnknownMark
    ShortWaitUnknownMark
    PastEndUnknownMark
    OffsetOfLastGood
    OffsetOfLength
    OffsetWithState
    OffsetWithArray
    OffsetWithOutput
    RefusedSurveyCounts
    StepsNotCounted
    RunNeverContinued
    WordWaitsTwice
    WholePageSent
    StretchesSentApart
    PagesUnprotectedApart
    SceneBitFromTop
    OneIsRead
    RepeatToggles
    Scene4096Taken
    Scene4095Refused
    SceneCutTo16Bits
    PageTakenAsSector
    SizeTakenAsSector
    SectorModuloSize
    BookCheckedAfterRest
    BookCheckedBeforeArray
    BusyQuestionRefused
    LastByteNotCounted
    WholeSectorCounted
    LastSceneDropped
    LongListCut
    BookFromAddress0
    MarkedAtAddress0
    NothingNewNotPlanned
    RefusedMarkWrites
    DrivenErasedSilent
    HeaderDriven
    DummyDriven
    JedecTailDriven
    SignatureDrivenFrom1
    SilentCommandDriven
    IgnoredDriven
    DrivenByOpcode
    SilentReadsZero
    DrivenIsFf
    CutFrameSilent
    CutSlicesSwapped
    DrivenFrameLate
    OneLengthEnough
    OutputLengthNotAsked
    DrivenLengthNotAsked
    LongerDrivenTaken
    SilentLengthNotAsked
    ScriptOneLengthEnough
    ScriptOutputLengthNotAsked
    ScriptDrivenLengthNotAsked
    ScriptLongerDrivenTaken
    DrivenCheckedBeforeFrame
    DrivenCheckedAfterMask
    DrivenCheckedBeforeRecords
    RefusedFrameClearsDriven
    RefusedCutClearsDriven
    RefusedRunClearsDriven
    StatusAtOnceOn05pa
    StatusCycleOn008a
    StatusTime15000
    StatusTime40000
    BpAtOnce
    TbAtOnce
    BplAtOnce
    PendingShown
    PendingProtectsAtOnce
    PlannedWhilePending
    PendingBitsRaw
    TbNotPending
    StatusCycleClearsWel
    StatusCycleLeavesWel
    PendingKept
    PendingBitsKept
    PowerUpTakesPending
    PowerUpStaysPending
    PendingAtRestSound
    BitsWithoutPendingSound
    PendingBitsUnmasked
    PendingOn008aSound
    PendingBounded
    PendingNothingUnsound
    StatusMaskBitwise
    StatusMaskNonzero
    EmptyStatusMask
    TwoByteStatusMask
    StatusMask00Writes
    StatusMaskFfKeeps
    IgnoredStatusMask
    StatusMaskOn008a
    StatusReadMask
    CutStatusTouchesArray
    CutStatusStaysBusy
    NoWaitAfterStep1
    NoWaitAfterStep4
    WaitBefore01
    StatusWait15000
    StatusWaitOn008a
    StatusWaitsNotTimed
    StatusWaitsNotMeasured
}
