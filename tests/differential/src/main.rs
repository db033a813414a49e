//! The library against the second model: `differential [seed] [random cases]`.

use std::process::ExitCode;

use cases::book::Books;
use cases::counts::{goals, Counts};
use cases::names::{self, Histories, Names, Trials};
use cases::salvage::{self, Salvages, LONGEST_LIST};
use cases::unread::{Script, Unread};
use cases::worst::{Amounts, Planner};
use cases::{explore, written_out, Item, Outcome, Written, CHIPS};
use model::Calls;
use zeradok::{Library, LONGEST_DROPPED, WORST_BYTES, WORST_FRAMES, WORST_MICROSECONDS};

const SEED: u64 = 1;
const CASES: usize = 480_000;
/// How many plans have to be accepted on each chip, and how many may be asked for.
const PLANS: usize = 100_000;
const MOST_ASKED: usize = 2 * PLANS;
/// How many books are marked on each chip.
const MARKS: usize = 2_000;
/// How many sectors are salvaged, each with every room that matters, and on how many more the
/// promises are tried.
const SECTORS: usize = 10_000;
const PROMISED: usize = 3_000;
/// How many cases of flags by name there are; and on each chip how many trials and histories of
/// them, on which the promises are tried.
const NAMES: usize = 20_000;
const TRIALS: usize = 2_000;
const HISTORIES: usize = 400;

// The binding has the greatest of both chips' limits, and the length of the longest list.
const _: () = {
    let Amounts { bytes, frames, microseconds } = Amounts::WORST;
    assert!(WORST_BYTES == bytes as usize);
    assert!(WORST_FRAMES == frames);
    assert!(WORST_MICROSECONDS == microseconds);
    assert!(LONGEST_DROPPED == LONGEST_LIST);
};

fn main() -> ExitCode {
    let mut arguments = std::env::args().skip(1).map(|text| text.parse::<u64>());
    let (Ok(seed), Ok(cases)) =
        (arguments.next().unwrap_or(Ok(SEED)), arguments.next().unwrap_or(Ok(CASES as u64)))
    else {
        eprintln!("usage: differential [seed] [random cases]");
        return ExitCode::FAILURE;
    };
    let failing = written_out::<Library>();
    if !failing.is_empty() {
        println!("cases written out that fail: {failing:?}");
    }
    let mut counts = Counts::default();
    let mut scripts = Vec::new();
    let note = |item: &Item, outcome: &Outcome, written: Written| {
        counts.note(item, outcome, written);
        scripts.extend(Script::of(&item.case, outcome));
    };
    if let Err(found) = explore::<Library>(seed, cases as usize, note) {
        let found = found.traced::<Library>();
        println!("seed {seed}, case {}, call {}", found.index, found.call);
        println!("{}\n\n{}", found.what, found.case());
        return ExitCode::FAILURE;
    }
    let unread = nothing_turns_unread(&scripts, &mut counts);
    let limited = CHIPS.map(|chip| keeps_limits(chip, seed, &mut counts)) == [true; 2];
    let promised = CHIPS.map(|chip| keeps_promises(chip, seed, &mut counts)) == [true; 2];
    let salvaged = salvages(seed, &mut counts) && keeps_names(seed, &mut counts);
    let named = names_agree(seed, &mut counts)
        && CHIPS.map(|chip| keeps_flags(chip, seed, &mut counts)) == [true; 2];
    let kept = unread && limited && promised && salvaged && named;
    if all_met(&counts) && kept && failing.is_empty() {
        ExitCode::SUCCESS
    } else {
        ExitCode::FAILURE
    }
}

/// Tries A14's clauses on the scripts that were accepted, states and arrays being the library's;
/// prints the first script that breaks one.
fn nothing_turns_unread(scripts: &[Script], counts: &mut Counts) -> bool {
    let mut unread = Unread::new::<Library, Library>();
    for script in scripts {
        let found = unread.run(script);
        counts.note_tested(script.state.chip, &found.tested);
        counts.note_cycles(&found.cycles);
        if !found.is_good() {
            println!("{found}\n{script}");
            return false;
        }
    }
    true
}

/// Whether the library's plans keep A8's limits; prints the most that they came to, or the first
/// that doesn't.
fn keeps_limits(chip: u8, seed: u64, counts: &mut Counts) -> bool {
    let mut planner = Planner::new::<Library>(chip, seed);
    let mut greatest = Amounts::default();
    let mut accepted = 0;
    for _ in 0..MOST_ASKED {
        let (save, found) = planner.plan();
        if !found.breaches.is_empty() {
            println!("chip {chip}: {found}\n{}", planner.text(&save));
            return false;
        }
        counts.note_save(chip, &found);
        greatest = greatest.or_greater(found.amounts);
        accepted += usize::from(found.number == 0);
        if accepted == PLANS {
            println!("chip {chip}, {PLANS} plans: at most {greatest}");
            return true;
        }
    }
    println!("chip {chip}: only {accepted} plans accepted of {MOST_ASKED}");
    false
}

/// Whether the library's marks keep what A2 promises; prints the first that doesn't.
fn keeps_promises(chip: u8, seed: u64, counts: &mut Counts) -> bool {
    let mut books = Books::new::<Library, Library>(chip, seed);
    for _ in 0..MARKS {
        let (mark, found) = books.mark();
        if !found.broken.is_empty() {
            println!("chip {chip}: {found}\n{}", books.text(&mark));
            return false;
        }
        counts.note_promised(chip, &found.tested);
    }
    true
}

/// Whether the library salvages sectors as the model does; prints the first that it doesn't.
fn salvages(seed: u64, counts: &mut Counts) -> bool {
    match salvage::explore(Library::salvage, seed, SECTORS, |call| counts.note_salvage(call)) {
        Ok(()) => true,
        Err(found) => {
            println!("seed {seed}, sector {}\n{}\n\n{}", found.index, found.what, found.text);
            false
        }
    }
}

/// Whether the library's salvages keep what A9 promises; prints the first that doesn't.
fn keeps_names(seed: u64, counts: &mut Counts) -> bool {
    let mut salvages = Salvages::new(Library::salvage, seed);
    for _ in 0..PROMISED {
        let (image, found) = salvages.salvage();
        if !found.broken.is_empty() {
            println!("{found}\n{}", Salvages::text(&image));
            return false;
        }
        counts.note_salvaged(&found.tested);
    }
    true
}

/// Whether the library answers about flags by name as the model does; prints the first case in which
/// it doesn't.
fn names_agree(seed: u64, counts: &mut Counts) -> bool {
    let library = Names::of::<Library>();
    match names::explore(&library, seed, NAMES, |seen| counts.note_names(seen)) {
        Ok(()) => true,
        Err(found) => {
            println!("seed {seed}, case {} of flags by name, call {}", found.index, found.call);
            println!("{}\n\n{}", found.what, found.text);
            false
        }
    }
}

/// Whether the library's marks, moves and ways back keep what A7 promises; prints the first trial or
/// history that doesn't.
fn keeps_flags(chip: u8, seed: u64, counts: &mut Counts) -> bool {
    let mut trials = Trials::new::<Library>(Names::of::<Library>(), chip, seed);
    for _ in 0..TRIALS {
        let found = trials.trial();
        counts.note_named(chip, &found.tested);
        if !found.broken.is_empty() {
            println!("chip {chip}, broken: {:?}\n{}", found.broken, trials.text());
            return false;
        }
    }
    let mut histories = Histories::new::<Library>(Names::of::<Library>(), chip, seed);
    for _ in 0..HISTORIES {
        let found = histories.history().found;
        counts.note_named(chip, &found.tested);
        if !found.broken.is_empty() {
            println!("chip {chip}, broken: {:?}\n{}", found.broken, histories.text());
            return false;
        }
    }
    true
}

/// Prints what was met, and tells whether all was met often enough.
fn all_met(counts: &Counts) -> bool {
    let mut all = true;
    for goals in goals() {
        let rarest = goals.each.iter().map(|met| counts.of(met)).min();
        println!("{goals}; rarest {}", rarest.unwrap_or(0));
        for met in goals.each {
            if counts.of(&met) < goals.least {
                println!("  too rare, {}: {met:?}", counts.of(&met));
                all = false;
            }
        }
    }
    all
}
