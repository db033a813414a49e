//! Histories of marks and moves, one plan after another, each finished or cut.

use std::collections::BTreeMap;

use cases::names::{Histories, Names, Promise, CALLS};
use cases::CHIPS;
use model::NamesFault;
use zeradok::Library;

/// There are fewer on each chip than plans, one in so many.
const FEWER: u64 = 5;
/// How often each has to come up on each chip.
const LEAST: u64 = 100;

/// Whether no history of the library makes up a name or loses one, and a copy of the model that
/// doesn't look at the marks in the first plan does make one up.
pub fn are_endured(seed: u64, plans: u64) -> bool {
    let histories = plans.div_ceil(FEWER);
    let endured = CHIPS.map(|chip| is_endured(chip, seed, histories)) == [true; 2];
    let sharp = makes_up(seed, histories);
    endured && sharp
}

fn is_endured(chip: u8, seed: u64, count: u64) -> bool {
    let mut histories = Histories::new::<Library>(Names::of::<Library>(), chip, seed);
    let mut met: BTreeMap<&str, u64> = BTreeMap::new();
    for number in 0..count {
        let came = histories.history();
        if !came.found.broken.is_empty() {
            let (broken, text) = (came.found.broken, histories.text());
            println!("chip {chip}, seed {seed}, history {number}: {broken:?}\n{text}");
            return false;
        }
        let of = |promise| u64::from(came.found.tested.contains(&promise));
        for (what, times) in [
            ("plans finished", came.finished),
            ("plans cut between records", came.between),
            ("plans cut inside a record", came.inside),
            ("moves", came.moves),
            ("calls refused", came.refused),
            ("histories that put NoneMadeUp to the test", of(Promise::NoneMadeUp)),
            ("histories that put NoneLost to the test", of(Promise::NoneLost)),
            ("histories that ended with a mark begun and finished", of(Promise::Marked)),
        ] {
            *met.entry(what).or_default() += times;
        }
    }
    println!("chip {chip}, {count} histories of {CALLS} calls: {met:?}");
    met.values().all(|times| *times >= LEAST)
}

/// Whether a wrong copy comes to grief.
fn makes_up(seed: u64, count: u64) -> bool {
    let wrong = Names::wrong(NamesFault::MarkNotLookedAt);
    let mut all = CHIPS.map(|chip| Histories::new::<Library>(wrong.clone(), chip, seed));
    for number in 0..count {
        let mut came = all.iter_mut().map(|histories| histories.history());
        if came.any(|came| came.found.broken.contains(&Promise::NoneMadeUp)) {
            println!("fails, as it should, marks not looked at: history {number}");
            return true;
        }
    }
    println!("NOT TOLD APART: marks not looked at in the first plan");
    false
}
