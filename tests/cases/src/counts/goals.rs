//! What has to be met, and how often.

use std::fmt;

use model::{kind, Reason, SECTOR};

use super::salvage_sorts::{Miss, RoomSort, SectorSort};
use super::sorts::{AskedSort, FrameSort, ListSort, PlanSort, ScriptSort, TimeSort, WrongBookSort};
use super::{line_goals, names_goals, status, Met};
use crate::book::Promise;
use crate::case::BAD_RECORD;
use crate::salvage::{self, WRONG_LENGTHS};
use crate::unread::Clause;
use crate::worst::Limit;
use crate::{frames, CHIPS, F25L008A, F25L05PA};

/// Things of one kind, each of which has to be met at least so many times.
pub struct Goals {
    pub name: &'static str,
    pub least: u32,
    pub each: Vec<Met>,
}

impl fmt::Display for Goals {
    fn fmt(&self, to: &mut fmt::Formatter<'_>) -> fmt::Result {
        write!(to, "{}: {}, each at least {} times", self.name, self.each.len(), self.least)
    }
}

/// Everything that has to be met.
pub fn goals() -> Vec<Goals> {
    let goal = |name, least, each| Goals { name, least, each };
    let mut goals = vec![
        goal("opcodes taken", 50, taken("frame")),
        goal("opcodes ignored, by reason", 50, ignored("frame")),
        goal("opcodes unknown", 50, unknown("frame")),
        goal("opcodes taken, cut", 10, taken("cut_frame")),
        goal("opcodes ignored, cut, by reason", 10, ignored("cut_frame")),
        goal("opcodes unknown, cut", 2, unknown("cut_frame")),
        goal("refusals", 100, refused()),
        goal("refusals before others", 50, refused_first()),
        goal("bad records, by place", 50, bad_records()),
        goal("levels of protection and WP", 100, levels()),
        goal("sorts of frames", 15, frame_sorts()),
        goal("sorts of plans", 30, plan_sorts()),
        goal("sorts of runs and surveys", 50, script_sorts()),
        goal("sorts of waits", 50, time_sorts()),
        goal("kinds of records", 100, records()),
        goal("clauses of A14 tested", 1_000, clauses()),
        goal("limits of A8 come near", 5_000, limits()),
        goal("refusals with the room of A8", 250, refused_with_room()),
        goal("sorts of marks", 30, mark_sorts()),
        goal("sorts of lists", 100, list_sorts()),
        goal("sorts of scenes and sectors that there aren't", 30, wrong_book_sorts()),
        goal("questions, by what the chip does", 100, questions()),
        goal("scenes told read and unread", 1_000, told()),
        goal("promises of A2 tested", 500, promises()),
        goal("sorts of sick sectors", 100, sector_sorts()),
        goal("what alone keeps a record from being one", 100, misses()),
        goal("sorts of room for a list", 1_000, room_sorts()),
        goal("sector slices, by their lengths", 100, slices()),
        goal("promises of A9 tested", 500, salvage_promises()),
    ];
    goals.extend(line_goals::goals());
    goals.extend(status::goals());
    goals.extend(names_goals::goals());
    goals
}

fn known() -> impl Iterator<Item = (u8, u8)> {
    CHIPS.into_iter().flat_map(|chip| frames::known(chip).iter().map(move |opcode| (chip, *opcode)))
}

fn taken(call: &'static str) -> Vec<Met> {
    known().map(|(chip, opcode)| Met::Taken { call, chip, opcode }).collect()
}

/// Every known opcode with every reason there can be to ignore it.
fn ignored(call: &'static str) -> Vec<Met> {
    let mut all = Vec::new();
    for (chip, opcode) in known() {
        let writes = matches!(opcode, 0x02 | 0x20 | 0x60 | 0xAD | 0xC7 | 0xD8);
        let any_length = matches!(opcode, 0x03 | 0x05 | 0x0B | 0x90 | 0x9F | 0xAB);
        let fits_aai = matches!(opcode, 0x04 | 0x05 | 0xAD);
        for (can_be, reason) in [
            (opcode != 0x05, Reason::Busy),
            (chip == F25L008A && !fits_aai, Reason::InAai),
            (chip == F25L05PA && opcode != 0xAB, Reason::InPowerDown),
            (!any_length, Reason::WrongLength),
            (opcode == 0x01, Reason::NotArmed),
            (opcode == 0x01, Reason::Locked),
            (writes, Reason::WriteDisabled),
            (writes, Reason::Protected),
        ] {
            if can_be {
                all.push(Met::Ignored { call, chip, opcode, reason });
            }
        }
    }
    all
}

fn unknown(call: &'static str) -> Vec<Met> {
    let reason = Reason::UnknownOpcode;
    let mut all = Vec::new();
    for chip in CHIPS {
        for opcode in 0..=255 {
            if !frames::known(chip).contains(&opcode) {
                all.push(Met::Ignored { call, chip, opcode, reason });
            }
        }
    }
    all
}

/// Each refusal of each call that can give it, and on each chip.
fn refused() -> Vec<Met> {
    let without_chip: [(&str, &[u32]); 6] = [
        ("new", &[1]),
        ("power_up", &[1]),
        ("wait", &[1]),
        ("survey", &[11, 12, 13, 14]),
        ("read", &[11, 12, 13, 14]),
        ("salvage", &[2, 10]),
    ];
    let with_chip: [(&str, &[u32]); 7] = [
        ("frame", &[1, 2, 3, 4]),
        ("cut_frame", &[1, 2, 3, 4, 5]),
        ("plan", &[1, 2, 6, 7, 8, 9, 10]),
        ("run", &[1, 2, 11, 12, 13, 14, 4]),
        ("book_is_read", &[1, 2, 15]),
        ("book_count", &[1, 2, 15]),
        ("book_mark", &[1, 2, 15, 7, 9, 10]),
    ];
    let mut all = Vec::new();
    for (call, numbers) in without_chip {
        all.extend(numbers.iter().map(|&number| Met::Refused { call, chip: 0, number }));
    }
    for (call, numbers) in with_chip {
        all.push(Met::Refused { call, chip: 0, number: 1 });
        for chip in CHIPS {
            all.extend(numbers.iter().map(|&number| Met::Refused { call, chip, number }));
        }
    }
    all
}

/// A refusal where a later one in the order of checks would hold too.
fn refused_first() -> Vec<Met> {
    let script = [(11, 12), (11, 13), (11, 14), (12, 13), (12, 14), (13, 12), (13, 14)];
    let before_script = [(1, 2), (1, 12), (1, 13), (1, 14), (2, 11), (2, 12), (2, 13), (2, 14)];
    let before_output = [(1, 4), (11, 4), (12, 4), (13, 4), (14, 4)];
    let before_book = [(1, 2), (1, 15), (2, 15)];
    let calls: [(&str, &[(u32, u32)]); 13] = [
        ("frame", &[(1, 2), (1, 3), (1, 4), (2, 3), (2, 4), (3, 4)]),
        ("cut_frame", &[(1, 2), (1, 5), (2, 3), (2, 5), (3, 4), (3, 5), (4, 5)]),
        ("plan", &[(1, 2), (2, 6), (6, 7), (7, 8), (7, 10), (8, 9), (8, 10), (9, 10)]),
        ("run", &before_script),
        ("run", &script),
        ("run", &before_output),
        ("survey", &script),
        ("read", &[(11, 14)]),
        ("book_is_read", &before_book),
        ("book_count", &before_book),
        ("book_mark", &before_book),
        ("book_mark", &[(15, 7), (15, 9), (15, 10), (7, 10), (9, 10)]),
        ("salvage", &[(2, 10)]),
    ];
    let mut all = Vec::new();
    for (call, pairs) in calls {
        let each = |&(number, other)| Met::RefusedFirst { call, number, other };
        all.extend(pairs.iter().map(each));
    }
    all
}

/// Each refusal of a bad record, at the script's front and behind good records.
fn bad_records() -> Vec<Met> {
    let mut all = Vec::new();
    for call in ["run", "survey", "read"] {
        for number in BAD_RECORD {
            all.extend([false, true].map(|behind| Met::BadRecord { call, number, behind }));
        }
    }
    all
}

fn levels() -> Vec<Met> {
    let mut all = Vec::new();
    for call in ["frame", "cut_frame", "plan", "run", "book_mark"] {
        for chip in CHIPS {
            for bp in 0..8 {
                for wp_high in [false, true] {
                    all.push(Met::Level { call, chip, bp, wp_high });
                }
            }
        }
    }
    all
}

fn frame_sorts() -> Vec<Met> {
    let mut all = Vec::new();
    for call in ["frame", "cut_frame"] {
        all.extend(FrameSort::ALL.iter().map(|&sort| Met::Frame { call, sort }));
    }
    all
}

fn plan_sorts() -> Vec<Met> {
    let mut all = Vec::new();
    for chip in CHIPS {
        for wp_high in [false, true] {
            for &sort in PlanSort::ALL {
                let can_be = match sort {
                    PlanSort::LockedButFree => !wp_high,
                    PlanSort::ProtectedButUnchanged => chip == F25L008A,
                    PlanSort::BothAwaited => chip == F25L05PA,
                    _ => true,
                };
                if can_be {
                    all.push(Met::Plan { chip, wp_high, sort });
                }
            }
        }
    }
    all
}

/// The sorts of plans that a mark can be: a book starts and ends at even addresses, and no border
/// of protection lies inside it.
fn mark_sorts() -> Vec<Met> {
    const ANY: [PlanSort; 7] = [
        PlanSort::Empty,
        PlanSort::WithStep1,
        PlanSort::WithoutStep1,
        PlanSort::ExactRoom,
        PlanSort::OneByteShort,
        PlanSort::FromWel,
        PlanSort::FromArmed,
    ];
    let mut all = Vec::new();
    for chip in CHIPS {
        for wp_high in [false, true] {
            all.extend(ANY.map(|sort| Met::Mark { chip, wp_high, sort }));
            if chip == F25L05PA {
                all.push(Met::Mark { chip, wp_high, sort: PlanSort::BothAwaited });
            }
        }
        all.push(Met::Mark { chip, wp_high: false, sort: PlanSort::LockedButFree });
    }
    all
}

fn list_sorts() -> Vec<Met> {
    let on_each = |&sort| CHIPS.map(|chip| Met::List { chip, sort });
    ListSort::ALL.iter().flat_map(on_each).collect()
}

fn wrong_book_sorts() -> Vec<Met> {
    let mut all = Vec::new();
    for call in ["book_is_read", "book_count", "book_mark"] {
        for chip in CHIPS {
            for &sort in WrongBookSort::ALL {
                let of_scene =
                    matches!(sort, WrongBookSort::SceneOneTooHigh | WrongBookSort::SceneOver16Bits);
                if !of_scene || call != "book_count" {
                    all.push(Met::WrongBook { call, chip, sort });
                }
            }
        }
    }
    all
}

fn questions() -> Vec<Met> {
    let mut all = Vec::new();
    for call in ["book_is_read", "book_count"] {
        for chip in CHIPS {
            let others = match chip {
                F25L008A => AskedSort::InAai,
                _ => AskedSort::InPowerDown,
            };
            let sorts = [AskedSort::AtRest, AskedSort::Busy, others];
            all.extend(sorts.map(|sort| Met::Asked { call, chip, sort }));
        }
    }
    all
}

fn told() -> Vec<Met> {
    let on_each = |read| CHIPS.map(|chip| Met::Told { chip, read });
    [false, true].into_iter().flat_map(on_each).collect()
}

fn promises() -> Vec<Met> {
    let on_each = |promise| CHIPS.map(|chip| Met::Promised { chip, promise });
    Promise::ALL.into_iter().flat_map(on_each).collect()
}

fn sector_sorts() -> Vec<Met> {
    SectorSort::ALL.iter().map(|&sort| Met::Sector { sort }).collect()
}

fn misses() -> Vec<Met> {
    Miss::ALL.iter().map(|&miss| Met::Missed { miss }).collect()
}

fn room_sorts() -> Vec<Met> {
    RoomSort::ALL.iter().map(|&sort| Met::Room { sort }).collect()
}

/// Each length for either slice, the right one among them.
fn slices() -> Vec<Met> {
    let lengths = || WRONG_LENGTHS.into_iter().chain([SECTOR]);
    lengths().flat_map(|sector| lengths().map(move |kept| Met::Slices { sector, kept })).collect()
}

fn salvage_promises() -> Vec<Met> {
    salvage::Promise::ALL.map(|promise| Met::Salvaged { promise }).into()
}

fn script_sorts() -> Vec<Met> {
    let mut all = Vec::new();
    for &sort in ScriptSort::ALL {
        all.extend(CHIPS.map(|chip| Met::Run { chip, sort }));
        all.push(Met::Survey { sort });
    }
    all
}

fn time_sorts() -> Vec<Met> {
    let mut all = Vec::new();
    for chip in CHIPS {
        for &sort in TimeSort::ALL {
            let own = match sort {
                TimeSort::AaiStays | TimeSort::AaiEnds => F25L008A,
                TimeSort::StatusGoesOn | TimeSort::StatusEnds => F25L05PA,
                _ => chip,
            };
            if chip == own {
                all.push(Met::Time { chip, sort });
            }
        }
    }
    all
}

fn records() -> Vec<Met> {
    [kind::FRAME, kind::WAIT, kind::END].map(|kind| Met::Record { kind }).into()
}

fn clauses() -> Vec<Met> {
    let on_each = |clause| CHIPS.map(|chip| Met::Tested { chip, clause });
    Clause::ALL.into_iter().flat_map(on_each).collect()
}

fn limits() -> Vec<Met> {
    let on_each = |limit| CHIPS.map(|chip| Met::Near { chip, limit });
    Limit::ALL.into_iter().flat_map(on_each).collect()
}

fn refused_with_room() -> Vec<Met> {
    let on_each = |number| CHIPS.map(|chip| Met::RefusedWithRoom { chip, number });
    (6..=9).flat_map(on_each).collect()
}
