//! What scripts do with status writes that take time (02, A4): protection goes by the old bits while one
//! runs, and the end of a wait can lift it.

use model::{Model, State};

use super::premises::Step;

/// Something that a script does with one.
#[derive(Clone, Copy, Debug, PartialEq, Eq, PartialOrd, Ord)]
pub enum Cycle {
    /// 05 shows the old bits while it runs, and the new ones when it is over.
    SeenBeforeAndAfter,
    /// Its end lifts protection, and a frame then writes.
    Lifted,
    /// Its end brings protection, which then keeps a frame from writing.
    Brought,
    /// While it runs there comes a frame that would write by the new bits, and not by the old ones.
    HeldByOldBits,
    /// While it runs there comes another frame than 05.
    FrameDuring,
    /// A wait behind its frame is a microsecond too short, exact, or one longer.
    WaitShort,
    WaitExact,
    WaitLonger,
    /// Its time is over with a later wait than the first.
    EndsByLaterWait,
    /// It runs when the script begins, or when it ends.
    StartsPending,
    EndsPending,
}

impl Cycle {
    pub const ALL: [Self; 11] = [
        Self::SeenBeforeAndAfter,
        Self::Lifted,
        Self::Brought,
        Self::HeldByOldBits,
        Self::FrameDuring,
        Self::WaitShort,
        Self::WaitExact,
        Self::WaitLonger,
        Self::EndsByLaterWait,
        Self::StartsPending,
        Self::EndsPending,
    ];
}

/// What has been seen of a write that runs, or was the last to run.
#[derive(Clone, Copy, Default)]
struct Seen {
    /// The state while it runs, as 05 shows it.
    old: State,
    /// Whether 05 has shown it.
    shown: bool,
    waits: usize,
    over: bool,
}

/// All that a script does, with the state in which it ends.
pub fn cycles(steps: &[Step], end: &State, wp_high: bool) -> Vec<Cycle> {
    let mut found = Vec::new();
    let mut seen: Option<Seen> = None;
    let states = steps.iter().map(|step| &step.state).chain([end]);
    for (step, next) in steps.iter().zip(states.skip(1)) {
        if step.state.pending {
            let now = seen.filter(|seen| !seen.over);
            let mut now = now.unwrap_or(Seen { old: step.state, ..Seen::default() });
            while_running(step, next, wp_high, &mut now, &mut found);
            seen = Some(now);
        } else if let Some(over) = &seen {
            when_over(step, over, wp_high, &mut found);
            // Bits that another write may have set are no longer this one's.
            seen = seen.filter(|_| !next.pending);
        }
    }
    if steps.first().is_some_and(|step| step.state.pending) {
        found.push(Cycle::StartsPending);
    }
    if end.pending {
        found.push(Cycle::EndsPending);
    }
    found.sort_unstable();
    found.dedup();
    found
}

fn while_running(step: &Step, next: &State, wp_high: bool, now: &mut Seen, found: &mut Vec<Cycle>) {
    match step.record {
        [0x5A, 0x46, _, _, 0x05, _, ..] => now.shown = true,
        [0x5A, 0x46, ..] => found.push(Cycle::FrameDuring),
        [0x5A, 0x57, wait @ ..] => {
            let fresh = now.waits == 0 && step.state.left == model::STATUS_TIME;
            let wait = wait.try_into().map_or(0, u32::from_be_bytes);
            let sort = match wait.wrapping_sub(step.state.left) as i32 {
                -1 => Some(Cycle::WaitShort),
                0 => Some(Cycle::WaitExact),
                1 => Some(Cycle::WaitLonger),
                _ => None,
            };
            found.extend(sort.filter(|_| fresh));
            if now.waits > 0 && !next.pending {
                found.push(Cycle::EndsByLaterWait);
            }
            now.waits += 1;
        }
        _ => {}
    }
    let rest = State { pending: false, pending_bits: 0, left: 0, ..step.state };
    let new = State { bp: step.state.pending_bits >> 2 & 7, ..rest };
    if writes(step, &new, wp_high) && !writes(step, &rest, wp_high) {
        found.push(Cycle::HeldByOldBits);
    }
    now.over = !next.pending;
}

fn when_over(step: &Step, seen: &Seen, wp_high: bool, found: &mut Vec<Cycle>) {
    let by_old = State { bp: seen.old.bp, ..step.state };
    let differs =
        seen.old.pending_bits != bits(&seen.old) && seen.old.pending_bits == bits(&step.state);
    match (writes(step, &step.state, wp_high), writes(step, &by_old, wp_high)) {
        (true, false) => found.push(Cycle::Lifted),
        (false, true) => found.push(Cycle::Brought),
        _ => {}
    }
    if matches!(step.frame(), [0x05, _, ..]) && seen.shown && differs {
        found.push(Cycle::SeenBeforeAndAfter);
    }
}

/// BP, TB and BPL in their places in the status register.
fn bits(state: &State) -> u8 {
    state.bp << 2 | u8::from(state.tb) << 5 | u8::from(state.bpl) << 7
}

/// Whether the record would write in this state.
fn writes(step: &Step, state: &State, wp_high: bool) -> bool {
    let frame = step.frame();
    !frame.is_empty()
        && Model::target_length(state, wp_high, frame).is_some_and(|length| length > 0)
}
