//! What the cases met, and how often each of it has to be met.

mod goals;
mod line_goals;
mod line_sorts;
mod lines;
mod names;
mod names_goals;
mod names_sorts;
mod salvage_sorts;
mod sorts;
mod status;

use std::collections::BTreeMap;

use model::{Model, Reason, State, BOOK};

use crate::book::{self, Promise};
use crate::case::{Case, On, Outcome, BAD_RECORD};
use crate::generator::Item;
use crate::names::Promise as NamesPromise;
use crate::pending;
use crate::salvage::{self, Call, Lent, Parts};
use crate::side::Written;
use crate::unread::{Clause, Cycle};
use crate::worst::{Found, Limit};
use crate::CHIPS;
pub use goals::{goals, Goals};
use line_sorts::LineSort;
use names_sorts::{
    BackSort, BadListSort, BadNameSort, MoveSort, PresentSort, QuestionSort, TargetSort, TwiceSort,
};
use salvage_sorts::{Miss, RoomSort, SectorSort};
use sorts::{AskedSort, FrameSort, ListSort, PlanSort, ScriptSort, TimeSort, WrongBookSort};
use status::MaskSort;

/// Something that a case can meet. An unknown chip has number 0, as has none.
#[derive(Clone, Copy, Debug, PartialEq, Eq, PartialOrd, Ord)]
pub enum Met {
    /// A frame was taken.
    Taken { call: &'static str, chip: u8, opcode: u8 },
    /// A frame was ignored for this reason.
    Ignored { call: &'static str, chip: u8, opcode: u8, reason: Reason },
    /// A call was refused.
    Refused { call: &'static str, chip: u8, number: u32 },
    /// A call was refused though another, later refusal was planted too.
    RefusedFirst { call: &'static str, number: u32, other: u32 },
    /// A call was refused for a bad record, at the script's front or behind others.
    BadRecord { call: &'static str, number: u32, behind: bool },
    /// A call was accepted at this level of protection and of WP.
    Level { call: &'static str, chip: u8, bp: u8, wp_high: bool },
    /// A taken frame was of this sort.
    Frame { call: &'static str, sort: FrameSort },
    /// A byte at a border of what the chip drives was driven, or was silent.
    Border { call: &'static str, chip: u8, opcode: u8, at: usize, driven: bool },
    /// The chip drove an FF.
    ErasedDriven { call: &'static str, chip: u8, opcode: u8 },
    /// A frame that the chip would have answered was ignored for this reason, and nothing was driven.
    AllSilent { call: &'static str, chip: u8, opcode: u8, reason: Reason },
    /// The lengths of the two slices were wrong like this, and nothing before them.
    WrongLine { call: &'static str, chip: u8, sort: LineSort },
    /// The second slice alone was wrong, and what came was refused before something else: 4 is one of
    /// the two.
    DrivenAlone { call: &'static str, number: u32, other: u32 },
    /// A plan was of this sort.
    Plan { chip: u8, wp_high: bool, sort: PlanSort },
    /// The plan of a mark was of this sort.
    Mark { chip: u8, wp_high: bool, sort: PlanSort },
    /// A list that was marked was of this sort.
    List { chip: u8, sort: ListSort },
    /// A scene or a sector that there isn't was of this sort, and all else right.
    WrongBook { call: &'static str, chip: u8, sort: WrongBookSort },
    /// A question was answered, of a chip that does this.
    Asked { call: &'static str, chip: u8, sort: AskedSort },
    /// A scene was told to be read, or not to be.
    Told { chip: u8, read: bool },
    /// A script that ran was of this sort.
    Run { chip: u8, sort: ScriptSort },
    /// A script that was found good was of this sort.
    Survey { sort: ScriptSort },
    /// Time did this.
    Time { chip: u8, sort: TimeSort },
    /// The reader gave a record of this kind.
    Record { kind: u32 },
    /// A call was given a sound state in which a status write is pending, and met this number.
    Pending { call: &'static str, number: u32 },
    /// A state broke this clause about pending ones alone, and was refused.
    PendingBroken { call: &'static str, chip: u8, clause: pending::Clause },
    /// A taken or ignored 01 was cut with such a mask.
    StatusCut { chip: u8, ignored: Option<Reason>, mask: MaskSort, refused: bool },
    /// An 05 was, while a status write was pending.
    StatusReadCut { mask: MaskSort, refused: bool },
    /// A status write of other bits than there were was cut with such a mask.
    OtherBits { mask: MaskSort },
    /// A script did this with a status write.
    Cycle { cycle: Cycle },
    /// A script put this clause of A14 to the test.
    Tested { chip: u8, clause: Clause },
    /// A plan came within a hundredth of this limit of A8.
    Near { chip: u8, limit: Limit },
    /// A plan with the room of the worst case was refused for something else.
    RefusedWithRoom { chip: u8, number: u32 },
    /// A mark put this promise of A2 to the test.
    Promised { chip: u8, promise: Promise },
    /// A sector that was salvaged was of this sort.
    Sector { sort: SectorSort },
    /// This alone kept a record of such a sector from being one.
    Missed { miss: Miss },
    /// The list of a sector's dropped stretches had this room.
    Room { sort: RoomSort },
    /// A salvage was lent slices of these lengths.
    Slices { sector: usize, kept: usize },
    /// A sector put this promise of A9 to the test.
    Salvaged { promise: salvage::Promise },
    /// A question about a name that was answered was of this sort.
    Question { sort: QuestionSort },
    /// What stood where records were to go was of this sort.
    Target { call: &'static str, sort: TargetSort },
    /// A name that is there was marked, in a sector of this sort.
    Present { sort: PresentSort },
    /// An accepted move was of this sort.
    Moved { sort: MoveSort },
    /// A way back was of this sort.
    Returned { sort: BackSort },
    /// A plan of flags by name was of this sort.
    NamesPlan { call: &'static str, chip: u8, sort: PlanSort },
    /// A name was refused for this.
    BadName { call: &'static str, sort: BadNameSort },
    /// A list, or a read scene past it, was.
    BadList { call: &'static str, sort: BadListSort },
    /// A name stood twice in a list, like this.
    Twice { call: &'static str, sort: TwiceSort },
    /// The source, or the target, alone was no sector.
    WrongSector { call: &'static str, source: bool, sort: WrongBookSort },
    /// This promise of A7 was put to the test.
    Named { chip: u8, promise: NamesPromise },
}

#[derive(Default)]
pub struct Counts(BTreeMap<Met, u32>);

impl Counts {
    pub fn of(&self, met: &Met) -> u32 {
        self.0.get(met).copied().unwrap_or(0)
    }

    fn count(&mut self, met: Met) {
        *self.0.entry(met).or_default() += 1;
    }

    pub fn note(&mut self, item: &Item, outcome: &Outcome, written: Written) {
        if let Some(state) = item.case.state() {
            self.note_pending(item.case.call(), state, outcome.number());
        }
        self.note_status_cut(&item.case, outcome.number());
        if outcome.number() == 0 {
            self.note_accepted(&item.case, outcome, written.buffer);
            self.note_shown(&item.case, written);
        } else {
            self.note_line(item, outcome.number());
            self.note_refused(item, outcome);
        }
    }

    /// Counts the clauses that a script put to the test.
    pub fn note_tested(&mut self, chip: u8, clauses: &[Clause]) {
        for &clause in clauses {
            self.count(Met::Tested { chip, clause });
        }
    }

    /// Counts the promises that a mark put to the test.
    pub fn note_promised(&mut self, chip: u8, promises: &[Promise]) {
        for &promise in promises {
            self.count(Met::Promised { chip, promise });
        }
    }

    /// Counts what a salvage was given and met.
    pub fn note_salvage(&mut self, call: &Call) {
        let (number, name) = (call.salvaged.number, "salvage");
        let Lent { sector, kept, .. } = call.lent;
        self.count(Met::Slices { sector, kept });
        for sort in salvage_sorts::of_room(call) {
            self.count(Met::Room { sort });
        }
        if number != 0 {
            self.count(Met::Refused { call: name, chip: 0, number });
            for other in call.planted().filter(|other| *other > number) {
                self.count(Met::RefusedFirst { call: name, number, other });
            }
        } else if call.lent == Lent::AMPLE {
            let parts = Parts::new(call.image.sector(), call.list);
            for sort in salvage_sorts::of_sector(&parts) {
                self.count(Met::Sector { sort });
            }
            for miss in salvage_sorts::of_misses(&parts, call.image) {
                self.count(Met::Missed { miss });
            }
        }
    }

    /// Counts the promises that a salvage put to the test.
    pub fn note_salvaged(&mut self, promises: &[salvage::Promise]) {
        for &promise in promises {
            self.count(Met::Salvaged { promise });
        }
    }

    /// Counts what a plan with the room of the worst case came to.
    pub fn note_save(&mut self, chip: u8, found: &Found) {
        let Found { number, amounts, .. } = *found;
        if number != 0 {
            self.count(Met::RefusedWithRoom { chip, number });
        }
        for limit in Limit::ALL {
            if limit.is_near(chip, &amounts) {
                self.count(Met::Near { chip, limit });
            }
        }
    }

    fn note_refused(&mut self, item: &Item, outcome: &Outcome) {
        let number = outcome.number();
        let call = item.case.call();
        let chip = item.case.on().map_or(0, |on| known(on.state.chip));
        self.count(Met::Refused { call, chip, number });
        for other in item.planted.numbers() {
            // Of two bad records the one that isn't told of stands behind the other.
            let behind = other != number && rank(call, other) == rank(call, number);
            if behind || rank(call, other) > rank(call, number) {
                self.count(Met::RefusedFirst { call, number, other });
            }
        }
        if let Some(offset) = outcome.bad_record() {
            self.count(Met::BadRecord { call, number, behind: offset > 0 });
        }
        if let (10, true, Some(on)) = (number, item.one_short, item.case.on()) {
            self.note_plan(call, on, PlanSort::OneByteShort);
        }
        if let (book::WRONG_BOOK, Some((sector, scenes))) = (number, item.case.book()) {
            for sort in sorts::of_wrong_book(chip, sector, scenes) {
                self.count(Met::WrongBook { call, chip, sort });
            }
        }
    }

    fn note_accepted(&mut self, case: &Case, outcome: &Outcome, buffer: &[u8]) {
        let call = case.call();
        if let Some(On { state, wp_high, .. }) = case.on() {
            let State { chip, bp, .. } = *state;
            let wp_high = *wp_high;
            self.count(Met::Level { call, chip, bp, wp_high });
        }
        match (case, outcome) {
            (Case::Frame { on, frame, .. } | Case::Cut { on, frame, .. }, _) => {
                self.note_frame(call, on, frame)
            }
            (Case::Plan { on, start, wanted, .. }, Outcome::Planned(planned)) => {
                let script = &buffer[..planned.length as usize];
                let region = *start..start + wanted.len();
                for sort in sorts::of_plan(on, region, buffer.len(), script) {
                    self.note_plan(call, on, sort);
                }
            }
            (Case::BookMark { on, sector, scenes, .. }, Outcome::Planned(planned)) => {
                let script = &buffer[..planned.length as usize];
                let region = *sector..sector + BOOK;
                for sort in sorts::of_plan(on, region, buffer.len(), script) {
                    self.note_plan(call, on, sort);
                }
                let chip = on.state.chip;
                for sort in sorts::of_list(scenes, script) {
                    self.count(Met::List { chip, sort });
                }
            }
            (Case::BookIsRead { on, .. }, Outcome::Told(told)) => {
                let (chip, sort) = (on.state.chip, sorts::of_asked(&on.state));
                self.count(Met::Asked { call, chip, sort });
                self.count(Met::Told { chip, read: told.value == 1 });
            }
            (Case::BookCount { on, .. }, _) => {
                let (chip, sort) = (on.state.chip, sorts::of_asked(&on.state));
                self.count(Met::Asked { call, chip, sort });
            }
            (Case::Run { on, script, .. }, Outcome::Ran(ran)) => {
                let chip = on.state.chip;
                for sort in sorts::of_script(script, ran.microseconds) {
                    self.count(Met::Run { chip, sort });
                }
            }
            (Case::Survey { script }, Outcome::Surveyed(surveyed)) => {
                for sort in sorts::of_script(script, surveyed.microseconds) {
                    self.count(Met::Survey { sort });
                }
            }
            (Case::Wait { state, .. }, Outcome::Answer(answer)) => {
                let (chip, sort) = (state.chip, sorts::of_time(state, &answer.state));
                self.count(Met::Time { chip, sort });
            }
            (_, Outcome::Record(record)) => self.count(Met::Record { kind: record.kind }),
            _ => {}
        }
    }

    fn note_plan(&mut self, call: &'static str, on: &On, sort: PlanSort) {
        let (chip, wp_high) = (on.state.chip, on.wp_high);
        self.count(match call {
            "plan" => Met::Plan { chip, wp_high, sort },
            _ => Met::Mark { chip, wp_high, sort },
        });
    }

    fn note_frame(&mut self, call: &'static str, on: &On, frame: &[u8]) {
        let (chip, opcode) = (on.state.chip, frame[0]);
        match Model::verdict(&on.state, on.wp_high, frame) {
            Some(Ok(kind)) => {
                self.count(Met::Taken { call, chip, opcode });
                for sort in sorts::of_frame(&on.state, kind, frame) {
                    self.count(Met::Frame { call, sort });
                }
            }
            Some(Err(reason)) => self.count(Met::Ignored { call, chip, opcode, reason }),
            None => {}
        }
    }
}

fn known(chip: u8) -> u8 {
    if CHIPS.contains(&chip) {
        chip
    } else {
        0
    }
}

/// The place of a refusal in the order of checks: a script's output comes last, of its records the
/// first bad one decides, a book's own refusal stands between the chip's and the planner's, and so
/// do those of flags by name.
fn rank(call: &str, number: u32) -> u32 {
    const OF_NAMES: [u32; 11] = [1, 2, 15, 6, 18, 19, 20, 7, 8, 9, 10];
    match (call, number) {
        _ if call.starts_with("names_") => {
            OF_NAMES.iter().position(|other| *other == number).map_or(0, |at| at as u32)
        }
        ("run", 4) => *BAD_RECORD.end() + 1,
        (_, book::WRONG_BOOK) => 3,
        _ if BAD_RECORD.contains(&number) => *BAD_RECORD.start(),
        _ => number,
    }
}
