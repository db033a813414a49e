//! When a clause is put to the test: its premise holds, and a frame comes up against it.

use model::{Model, State};

use super::clause::Clause;
use super::premises::{Premises, Step};
use crate::case::footprint;

/// The clauses that a run puts to the test.
pub fn tested(premises: &Premises, steps: &[Step], wp_high: bool, changes: bool) -> Vec<Clause> {
    let tests = |clause: &Clause| match clause {
        // Something is programmed.
        Clause::NoBitRaised => !premises.erases && changes,
        // Nothing but protection keeps a frame from writing where the whole run is protected.
        Clause::ProtectedKept => steps.iter().any(|step| {
            let [window, _] = footprint(&step.state, step.frame());
            let unprotected = State { bp: 0, ..step.state };
            window.end > premises.protected_from && is_held(step, &unprotected, wp_high)
        }),
        // Nothing but WEL keeps a frame from writing.
        Clause::DisabledKept => {
            premises.disabled
                && steps.iter().any(|step| {
                    let enabled = State { wel: true, ..step.state };
                    is_held(step, &enabled, wp_high)
                })
        }
    };
    Clause::ALL.into_iter().filter(tests).collect()
}

/// Whether the record writes nothing, and would in the other state.
fn is_held(step: &Step, other: &State, wp_high: bool) -> bool {
    let writes = |state: &State| match step.frame() {
        [] => false,
        frame => Model::target_length(state, wp_high, frame).is_some_and(|length| length > 0),
    };
    !writes(&step.state) && writes(other)
}
