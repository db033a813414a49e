//! The limits of A8, which the right model's plans keep and those of some copies break.

use std::fmt;

use cases::worst::{Breach, Limit, Planner};
use cases::{CHIPS, F25L008A, F25L05PA};
use model::{Calls, Fault, Model};

use crate::broken::Broken;

/// How many of the plans that the library is asked for are asked of each copy, on each chip.
const PLANS: usize = 1_000;

/// What is wrong with plans of a chip.
type OnChip = (u8, Breach);

/// What copies have to break: on each chip all there is.
const HAVE_TO_BREAK: [(Fault, OnChip); 20] = [
    (Fault::StepsNotCounted, (F25L008A, Breach::Miscounted)),
    (Fault::StepsNotCounted, (F25L05PA, Breach::Miscounted)),
    (Fault::RunNeverContinued, (F25L008A, Breach::Short)),
    (Fault::RunNeverContinued, (F25L008A, Breach::Above(Limit::Bytes))),
    (Fault::RunNeverContinued, (F25L008A, Breach::Above(Limit::Frames))),
    (Fault::RunNeverContinued, (F25L008A, Breach::Above(Limit::FramesAndTime))),
    (Fault::WordWaitsTwice, (F25L008A, Breach::Above(Limit::Microseconds))),
    (Fault::WholePageSent, (F25L05PA, Breach::Short)),
    (Fault::WholePageSent, (F25L05PA, Breach::Above(Limit::Bytes))),
    (Fault::StretchesSentApart, (F25L05PA, Breach::Above(Limit::Frames))),
    (Fault::StretchesSentApart, (F25L05PA, Breach::Above(Limit::Microseconds))),
    (Fault::StretchesSentApart, (F25L05PA, Breach::Above(Limit::FramesAndTime))),
    (Fault::PagesUnprotectedApart, (F25L05PA, Breach::Above(Limit::Bytes))),
    (Fault::PagesUnprotectedApart, (F25L05PA, Breach::Above(Limit::Frames))),
    (Fault::StatusWait15000, (F25L05PA, Breach::Above(Limit::Microseconds))),
    (Fault::StatusWait15000, (F25L05PA, Breach::Above(Limit::FramesAndTime))),
    (Fault::StatusWaitOn008a, (F25L008A, Breach::Short)),
    (Fault::StatusWaitOn008a, (F25L008A, Breach::Above(Limit::Bytes))),
    (Fault::StatusWaitsNotTimed, (F25L05PA, Breach::Miscounted)),
    (Fault::StatusWaitsNotMeasured, (F25L05PA, Breach::Miscounted)),
];

/// The limits that a copy breaks, each with the first plan that shows it.
#[derive(Default)]
pub struct Limits(Broken<OnChip>);

impl Limits {
    pub fn of<C: Calls>(seed: u64) -> Self {
        Self::broken(CHIPS.map(|chip| (chip, Planner::new::<C>(chip, seed))))
    }

    fn broken(planners: [(u8, Planner); 2]) -> Self {
        let mut limits = Self::default();
        for (chip, mut planner) in planners {
            for index in 0..PLANS {
                let (_, found) = planner.plan();
                for breach in found.breaches {
                    limits.0.note((chip, breach), index);
                }
            }
        }
        limits
    }

    /// What the copy with this fault has to break and doesn't.
    pub fn missing(&self, fault: Fault) -> Vec<String> {
        self.0.missing(fault, &HAVE_TO_BREAK)
    }
}

impl fmt::Display for Limits {
    fn fmt(&self, to: &mut fmt::Formatter<'_>) -> fmt::Result {
        for ((chip, breach), plan) in self.0.each() {
            write!(to, "  {breach:?} on {chip} {plan}")?;
        }
        Ok(())
    }
}

/// Whether the right model keeps the limits.
pub fn are_kept(seed: u64) -> bool {
    let kept = CHIPS.map(|chip| {
        let mut planner = Planner::new::<Model>(chip, seed);
        (0..PLANS).filter(|_| planner.plan().1.breaches.is_empty()).count()
    });
    println!("plans of each chip with which it keeps the limits of A8: {kept:?} of {PLANS}");
    kept == [PLANS; 2]
}
