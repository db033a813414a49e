//! The clauses of A14, where the right model gives the states and a copy the arrays.

use std::fmt;

use cases::unread::{Breach, Clause, Extent, Script, Unread};
use cases::{explore, Item, Outcome, Written};
use model::{Calls, Fault, Model};

use crate::broken::Broken;

/// How many of the scripts in the cases the clauses are tried on.
const SCRIPTS: usize = 1_000;

/// A clause, tried with a whole script or with a part of one.
type Tried = (Clause, Extent);

/// What copies have to break. One that keeps WEL has none to keep where WEL is 0 at the start and no
/// 06 follows: only a part that begins where WEL is 0 again, by the right model, breaks the third. One
/// that has a status write's bits too early writes where the old bits protect (02, A4).
const HAVE_TO_BREAK: [(Fault, Tried); 16] = [
    (Fault::ByteStored, (Clause::NoBitRaised, Extent::Script)),
    (Fault::ByteStored, (Clause::NoBitRaised, Extent::Part)),
    (Fault::BusyNotAsked, (Clause::NoBitRaised, Extent::Script)),
    (Fault::BusyNotAsked, (Clause::NoBitRaised, Extent::Part)),
    (Fault::WelNotAsked, (Clause::DisabledKept, Extent::Script)),
    (Fault::WelKept, (Clause::NoBitRaised, Extent::Script)),
    (Fault::WelKept, (Clause::DisabledKept, Extent::Part)),
    (Fault::LongerEnableTaken, (Clause::DisabledKept, Extent::Script)),
    (Fault::FirstSectorUnprotected, (Clause::NoBitRaised, Extent::Script)),
    (Fault::FirstSectorUnprotected, (Clause::ProtectedKept, Extent::Script)),
    (Fault::FirstSectorUnprotected, (Clause::ProtectedKept, Extent::Part)),
    (Fault::StatusAtOnceOn05pa, (Clause::ProtectedKept, Extent::Script)),
    (Fault::StatusAtOnceOn05pa, (Clause::ProtectedKept, Extent::Part)),
    (Fault::PendingProtectsAtOnce, (Clause::ProtectedKept, Extent::Script)),
    (Fault::PendingProtectsAtOnce, (Clause::ProtectedKept, Extent::Part)),
    (Fault::StatusCycleLeavesWel, (Clause::DisabledKept, Extent::Part)),
];

/// The clauses that a copy breaks, each with the first script that shows it.
#[derive(Default)]
pub struct Clauses(Broken<Tried>);

impl Clauses {
    pub fn of<C: Calls>(scripts: &[Script]) -> Self {
        Self::broken(Unread::new::<Model, C>(), scripts)
    }

    fn broken(mut unread: Unread, scripts: &[Script]) -> Self {
        let mut clauses = Self::default();
        for (index, script) in scripts.iter().enumerate() {
            for Breach { clause, extent, .. } in unread.run(script).breaches {
                clauses.0.note((clause, extent), index);
            }
        }
        clauses
    }

    /// What the copy with this fault has to break and doesn't.
    pub fn missing(&self, fault: Fault) -> Vec<String> {
        self.0.missing(fault, &HAVE_TO_BREAK)
    }
}

impl fmt::Display for Clauses {
    fn fmt(&self, to: &mut fmt::Formatter<'_>) -> fmt::Result {
        for ((clause, extent), script) in self.0.each() {
            let part = if extent == Extent::Part { "part of " } else { "" };
            write!(to, "  {clause:?} {part}{script}")?;
        }
        Ok(())
    }
}

/// The first accepted scripts among so many cases; none if the right model is told from itself.
pub fn scripts(seed: u64, cases: usize) -> Vec<Script> {
    let mut scripts = Vec::new();
    let note = |item: &Item, outcome: &Outcome, _: Written| {
        if scripts.len() < SCRIPTS {
            scripts.extend(Script::of(&item.case, outcome));
        }
    };
    match explore::<Model>(seed, cases, note) {
        Ok(()) => scripts,
        Err(_) => Vec::new(),
    }
}

/// Whether the right model keeps the clauses.
pub fn are_kept(scripts: &[Script]) -> bool {
    let mut right = Unread::new::<Model, Model>();
    let good = scripts.iter().filter(|script| right.run(script).is_good()).count();
    println!("scripts with which it keeps the clauses of A14: {good} of {SCRIPTS}");
    good == SCRIPTS
}

/// Whether the clauses tell a copy by its own states, as they would have to tell the library: this
/// one has WEL 1 by them, and no 06 that set it.
pub fn tell_a_copy_by_itself(scripts: &[Script]) -> bool {
    type Longer = Model<{ Fault::LongerEnableTaken as u8 }>;
    let clauses = Clauses::broken(Unread::new::<Longer, Longer>(), scripts);
    println!("LongerEnableTaken by its own states:{clauses}");
    [Extent::Script, Extent::Part]
        .into_iter()
        .all(|extent| clauses.0.has((Clause::DisabledKept, extent)))
}
