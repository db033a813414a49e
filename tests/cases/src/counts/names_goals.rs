//! What has to be met of flags by name, and how often.

use super::goals::Goals;
use super::names_sorts::{
    BackSort, BadListSort, BadNameSort, MoveSort, PresentSort, QuestionSort, TargetSort, TwiceSort,
};
use super::sorts::{AskedSort, PlanSort, WrongBookSort};
use super::Met;
use crate::names::Promise;
use crate::{CHIPS, F25L008A, F25L05PA};

const IS_READ: &str = "names_is_read";
const MARK: &str = "names_mark";
const MOVE: &str = "names_move";
const BACK: &str = "names_back";
const PLANS: [&str; 3] = [MARK, MOVE, BACK];

pub fn goals() -> Vec<Goals> {
    let goal = |name, least, each| Goals { name, least, each };
    vec![
        goal("refusals of flags by name", 20, refused()),
        goal("refusals of flags by name before others", 5, refused_first()),
        goal("levels of protection and WP, flags by name", 10, levels()),
        goal("sorts of plans of flags by name", 10, plan_sorts()),
        goal("questions about names, by what the chip does", 100, questions()),
        goal("sorts of questions about names", 40, question_sorts()),
        goal("sorts of targets of names", 10, target_sorts()),
        goal("sorts of names that are there", 40, present_sorts()),
        goal("sorts of moves", 5, move_sorts()),
        goal("sorts of ways back", 10, back_sorts()),
        goal("sorts of bad names", 10, bad_name_sorts()),
        goal("sorts of bad lists", 3, bad_list_sorts()),
        goal("sorts of names twice in a list", 5, twice_sorts()),
        goal("sectors that there aren't, flags by name", 3, wrong_sectors()),
        goal("promises of A7 tested", 100, promises()),
    ]
}

/// The refusals that a call can give, in the order checked.
fn order(call: &str) -> &'static [u32] {
    match call {
        IS_READ => &[1, 2, 15, 18],
        MARK => &[1, 2, 15, 18, 20, 7, 8, 9, 10],
        MOVE => &[1, 2, 15, 6, 18, 19, 20, 7, 8, 9, 10],
        _ => &[1, 2, 15, 6, 18, 19, 7, 8, 9, 10],
    }
}

fn refused() -> Vec<Met> {
    let mut all = Vec::new();
    for call in [IS_READ, MARK, MOVE, BACK] {
        for chip in CHIPS {
            all.extend(order(call).iter().map(|&number| Met::Refused { call, chip, number }));
        }
    }
    all
}

/// Each before each that comes later. Where records don't fit nothing is wanted that could need an
/// erase, a lock opened, or room.
fn refused_first() -> Vec<Met> {
    let mut all = Vec::new();
    for call in [IS_READ, MARK, MOVE, BACK] {
        let order = order(call);
        for (at, &number) in order.iter().enumerate() {
            for &other in &order[at + 1..] {
                if number != 20 || other == 7 {
                    all.push(Met::RefusedFirst { call, number, other });
                }
            }
        }
    }
    all
}

fn levels() -> Vec<Met> {
    let mut all = Vec::new();
    for call in PLANS {
        for chip in CHIPS {
            for bp in 0..8 {
                all.extend([false, true].map(|wp_high| Met::Level { call, chip, bp, wp_high }));
            }
        }
    }
    all
}

fn plan_sorts() -> Vec<Met> {
    const SORTS: [PlanSort; 8] = [
        PlanSort::Empty,
        PlanSort::WithStep1,
        PlanSort::WithoutStep1,
        PlanSort::ExactRoom,
        PlanSort::OneByteShort,
        PlanSort::FromWel,
        PlanSort::FromArmed,
        PlanSort::LockedButFree,
    ];
    let mut all = Vec::new();
    for call in PLANS {
        for chip in CHIPS {
            all.extend(SORTS.map(|sort| Met::NamesPlan { call, chip, sort }));
        }
        all.push(Met::NamesPlan { call, chip: F25L05PA, sort: PlanSort::BothAwaited });
    }
    all
}

fn questions() -> Vec<Met> {
    let mut all = Vec::new();
    for chip in CHIPS {
        let other = if chip == F25L008A { AskedSort::InAai } else { AskedSort::InPowerDown };
        let sorts = [AskedSort::AtRest, AskedSort::Busy, other];
        all.extend(sorts.map(|sort| Met::Asked { call: IS_READ, chip, sort }));
    }
    all
}

fn question_sorts() -> Vec<Met> {
    QuestionSort::ALL.iter().map(|&sort| Met::Question { sort }).collect()
}

fn target_sorts() -> Vec<Met> {
    let of = |call| TargetSort::ALL.iter().map(move |&sort| Met::Target { call, sort });
    of(MARK).chain(of(MOVE)).collect()
}

fn present_sorts() -> Vec<Met> {
    PresentSort::ALL.iter().map(|&sort| Met::Present { sort }).collect()
}

fn move_sorts() -> Vec<Met> {
    MoveSort::ALL.iter().map(|&sort| Met::Moved { sort }).collect()
}

fn back_sorts() -> Vec<Met> {
    BackSort::ALL.iter().map(|&sort| Met::Returned { sort }).collect()
}

fn bad_name_sorts() -> Vec<Met> {
    let of = |call| BadNameSort::ALL.iter().map(move |&sort| Met::BadName { call, sort });
    of(IS_READ).chain(of(MARK)).collect()
}

/// A read scene past the list is for the move alone.
fn bad_list_sorts() -> Vec<Met> {
    let past = [BadListSort::JustPast, BadListSort::LastPast, BadListSort::Past];
    let of = |call| BadListSort::ALL.iter().map(move |&sort| (call, sort));
    let all = of(MOVE).chain(of(BACK)).filter(|(call, sort)| *call == MOVE || !past.contains(sort));
    all.map(|(call, sort)| Met::BadList { call, sort }).collect()
}

fn twice_sorts() -> Vec<Met> {
    let of = |call| TwiceSort::ALL.iter().map(move |&sort| (call, sort));
    let all = of(MOVE).chain(of(BACK));
    let can_be = all.filter(|(call, sort)| *call == MOVE || *sort != TwiceSort::Unread);
    can_be.map(|(call, sort)| Met::Twice { call, sort }).collect()
}

fn wrong_sectors() -> Vec<Met> {
    const SORTS: [WrongBookSort; 6] = [
        WrongBookSort::NoMultiple,
        WrongBookSort::PageStart,
        WrongBookSort::StartAtSize,
        WrongBookSort::StartAboveSize,
        WrongBookSort::StartOver32Bits,
        WrongBookSort::StartNearTop,
    ];
    let asked =
        [(IS_READ, false), (MARK, false), (MOVE, false), (MOVE, true), (BACK, false), (BACK, true)];
    let of = |(call, source)| SORTS.map(|sort| Met::WrongSector { call, source, sort });
    asked.into_iter().flat_map(of).collect()
}

fn promises() -> Vec<Met> {
    let on_each = |promise| CHIPS.map(|chip| Met::Named { chip, promise });
    Promise::ALL.into_iter().flat_map(on_each).collect()
}
