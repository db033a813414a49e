//! Power cuts everywhere in plans that the library makes and runs: `torture [seed] [plans]`.

mod cuts;
mod history;
mod line;
mod naming;
mod setting;
mod status;
mod tally;
mod trial;

use std::process::ExitCode;

use cases::names::Names;
use cases::Rng;
use model::{Calls, Fault, Model, NamesFault};
use setting::{Kind, Setting};
use tally::Tally;
use trial::Trial;
use zeradok::Library;

/// A copy's name, and what it came to.
type Came = (&'static str, Result<(), String>);

const KINDS: [Kind; 5] = [Kind::Update, Kind::Mark, Kind::NameMark, Kind::NameMove, Kind::NameBack];
const SEED: u64 = 1;
const PLANS: u64 = 5_000;
/// Plans of flags by name are fewer, one in so many: each cut is followed by three calls.
const FEWER: u64 = 12;
/// How much more room the second plan gets (00, demand 3).
const MORE_ROOM: usize = 22;

fn main() -> ExitCode {
    let mut arguments = std::env::args().skip(1).map(|text| text.parse());
    let (Ok(seed), Ok(plans)) =
        (arguments.next().unwrap_or(Ok(SEED)), arguments.next().unwrap_or(Ok(PLANS)))
    else {
        eprintln!("usage: torture [seed] [plans]");
        return ExitCode::FAILURE;
    };
    let endures = KINDS.map(|kind| endures(kind, seed, plans)) == [true; KINDS.len()];
    let sharp = endures && KINDS.map(|kind| is_sharp(kind, seed, plans)) == [true; KINDS.len()];
    if sharp && history::are_endured(seed, plans) {
        ExitCode::SUCCESS
    } else {
        ExitCode::FAILURE
    }
}

/// Whether the library's plans come through all cuts, and these are enough of each sort.
fn endures(kind: Kind, seed: u64, plans: u64) -> bool {
    let mut tally = Tally::default();
    let names = Names::of::<Library>();
    if let Err(what) = torture::<Library>(kind, &names, seed, plans, MORE_ROOM, &mut tally) {
        println!("{kind:?}, seed {seed}, {what}");
        return false;
    }
    println!("{kind:?}:\n{tally}");
    let rare = tally.too_rare(kind);
    for what in &rare {
        println!("too rare: {what}");
    }
    rare.is_empty()
}

/// Whether less room, and wrong copies of the model, come to grief.
fn is_sharp(kind: Kind, seed: u64, plans: u64) -> bool {
    let tally = &mut Tally::default();
    let right = Names::of::<Library>();
    let less_room = torture::<Library>(kind, &right, seed, plans, MORE_ROOM - 1, tally);
    let mut wrong = vec![wrong(kind, seed, plans)];
    if kind == Kind::Update {
        wrong.extend(wrong_status_writes(seed, plans));
    }
    let sharp = wrong.iter().all(|(_, result)| result.is_err());
    let enough = less_room.as_ref().is_err_and(|what| what.contains("refusal 10"));
    for (name, result) in [("with 21 bytes more", less_room)].into_iter().chain(wrong) {
        match result {
            Ok(()) => println!("NOT TOLD APART: {kind:?} {name}"),
            Err(what) => println!("fails, as it should, {kind:?} {name}: {}", first_line(&what)),
        }
    }
    enough && sharp
}

/// What copies come to that are wrong in what becomes of a status write (02, A4), cut or not awaited.
fn wrong_status_writes(seed: u64, plans: u64) -> Vec<Came> {
    type Runs = fn(Kind, &Names, u64, u64, usize, &mut Tally) -> Result<(), String>;
    let copies: [(&str, Runs); 7] = [
        ("pending bits taken", torture::<Model<{ Fault::PowerUpTakesPending as u8 }>>),
        ("bits written with 00", torture::<Model<{ Fault::StatusMask00Writes as u8 }>>),
        ("bits kept with FF", torture::<Model<{ Fault::StatusMaskFfKeeps as u8 }>>),
        ("busy after a cut", torture::<Model<{ Fault::CutStatusStaysBusy as u8 }>>),
        ("array changed by a cut", torture::<Model<{ Fault::CutStatusTouchesArray as u8 }>>),
        ("step 1 not awaited", torture::<Model<{ Fault::NoWaitAfterStep1 as u8 }>>),
        ("step 4 not awaited", torture::<Model<{ Fault::NoWaitAfterStep4 as u8 }>>),
    ];
    let right = Names::of::<Library>();
    let come = |(name, torture): (&'static str, Runs)| {
        (name, torture(Kind::Update, &right, seed, plans, MORE_ROOM, &mut Tally::default()))
    };
    copies.map(come).into()
}

/// What a copy of the model comes to that stores bytes, counts a scene's bit from the top, writes
/// marks and names by one plan, or sets scenes read that no record is of.
fn wrong(kind: Kind, seed: u64, plans: u64) -> Came {
    type Storing = Model<{ Fault::ByteStored as u8 }>;
    type FromTop = Model<{ Fault::SceneBitFromTop as u8 }>;
    let tally = &mut Tally::default();
    let right = Names::of::<Library>();
    let one_plan = Names::wrong(NamesFault::MarksInFirstPlan);
    let others = Names::wrong(NamesFault::OthersSetRead);
    match kind {
        Kind::Update => {
            ("bytes stored", torture::<Storing>(kind, &right, seed, plans, MORE_ROOM, tally))
        }
        Kind::Mark => {
            ("bits from the top", torture::<FromTop>(kind, &right, seed, plans, MORE_ROOM, tally))
        }
        Kind::NameMark | Kind::NameMove => {
            ("by one plan", torture::<Library>(kind, &one_plan, seed, plans, MORE_ROOM, tally))
        }
        Kind::NameBack => {
            ("others set read", torture::<Library>(kind, &others, seed, plans, MORE_ROOM, tally))
        }
    }
}

fn first_line(text: &str) -> &str {
    text.lines().next().unwrap_or(text)
}

/// Runs the plans and cuts them; what went wrong, if anything did.
fn torture<C: Calls>(
    kind: Kind,
    names: &Names,
    seed: u64,
    plans: u64,
    more_room: usize,
    tally: &mut Tally,
) -> Result<(), String> {
    let mut rng = Rng::new(seed);
    let plans = match kind {
        Kind::Update | Kind::Mark => plans,
        _ => plans.div_ceil(FEWER),
    };
    for chip in cases::CHIPS {
        let mut before = rng.bytes(cases::size(chip));
        let mut array = before.clone();
        for number in 0..plans {
            let setting = Setting::new(&mut rng, kind, chip, number, &mut before);
            for (start, bytes) in
                [(setting.start, &setting.old[..])].into_iter().chain(setting.source())
            {
                array[start..][..bytes.len()].copy_from_slice(bytes);
                before[start..][..bytes.len()].copy_from_slice(bytes);
            }
            Trial::<C>::new(&setting, &mut array, &before, more_room, names)
                .go(&mut rng, tally)
                .map_err(|what| format!("plan {number}: {what}\n{setting}"))?;
            // Only the region has moved, and it is as wanted.
            before[setting.region()].copy_from_slice(&setting.wanted);
            if array != before {
                return Err(format!("plan {number}: the array moved outside\n{setting}"));
            }
        }
    }
    Ok(())
}
