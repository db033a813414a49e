//! How often what was met.

use std::collections::BTreeMap;
use std::fmt;

use cases::{CHIPS, F25L05PA};

use crate::setting::{Ask, Kind, Setting};
use crate::status::Step;

#[derive(Clone, Copy, Debug, PartialEq, Eq, PartialOrd, Ord)]
enum Met {
    /// A cut between two records, before the first or after the last.
    Between { chip: u8, wp_high: bool, step_1: bool },
    /// A cut inside a programming frame.
    Inside { chip: u8, wp_high: bool, step_1: bool },
    /// A cut when some of a wait has passed.
    During { chip: u8, wp_high: bool, step_1: bool },
    /// One of these, by how much has passed.
    Passed { chip: u8, part: Part },
    /// A cut inside a status write that takes time, by its mask.
    InsideStatus { wp_high: bool, step: Step, mask: u8 },
    /// A cut when some of its wait has passed.
    DuringStatus { wp_high: bool, step: Step, part: Part },
    /// A second plan of the 05PA that is as long as the first, with step 1.
    AsLong,
    /// A cut, or a plan, of this sort.
    Of { chip: u8, sort: Sort },
    /// A second plan that needs all the room it is given.
    AllRoomNeeded,
    /// A second plan that has nothing left to do.
    NothingLeft,
}

/// A part of a wait.
#[derive(Clone, Copy, Debug, PartialEq, Eq, PartialOrd, Ord)]
pub enum Part {
    Nothing,
    Little,
    Half,
    NearlyAll,
    All,
}

pub const PARTS: [Part; 5] = [Part::Nothing, Part::Little, Part::Half, Part::NearlyAll, Part::All];

impl Part {
    pub fn of(self, microseconds: u32) -> u32 {
        match self {
            Self::Nothing => 0,
            Self::Little => 1,
            Self::Half => microseconds / 2,
            Self::NearlyAll => microseconds - 1,
            Self::All => microseconds,
        }
    }
}

#[derive(Clone, Copy, Debug, PartialEq, Eq, PartialOrd, Ord)]
enum Sort {
    BeforeFirst,
    AfterLast,
    InFrameThatProgramsNothing,
    OddStart,
    OddEnd,
    LongPlan,
    /// Scenes stand in the list more than once.
    Repeats,
    /// All scenes of the list are read already, or it is empty.
    NothingNew,
    /// A scene is new, and one in its byte neither read nor listed.
    UnreadBeside,
    /// Lengths and names go in, or marks do.
    FirstPlan,
    SecondPlan,
    /// Some of it stands there already.
    Begun,
}

impl Sort {
    /// Those that have to come up.
    fn all(kind: Kind) -> &'static [Self] {
        match kind {
            Kind::Update => &[
                Self::BeforeFirst,
                Self::AfterLast,
                Self::InFrameThatProgramsNothing,
                Self::OddStart,
                Self::OddEnd,
                Self::LongPlan,
            ],
            Kind::Mark => &[
                Self::BeforeFirst,
                Self::AfterLast,
                Self::InFrameThatProgramsNothing,
                Self::Repeats,
                Self::NothingNew,
                Self::UnreadBeside,
            ],
            Kind::NameMark | Kind::NameMove => &[
                Self::BeforeFirst,
                Self::AfterLast,
                Self::InFrameThatProgramsNothing,
                Self::FirstPlan,
                Self::SecondPlan,
                Self::Begun,
            ],
            Kind::NameBack => {
                &[Self::BeforeFirst, Self::AfterLast, Self::InFrameThatProgramsNothing, Self::Begun]
            }
        }
    }
}

/// How often each of `Met` has to come up.
const LEAST: u64 = 40;

#[derive(Default)]
pub struct Tally(BTreeMap<Met, u64>);

impl Tally {
    fn count(&mut self, met: Met) {
        *self.0.entry(met).or_default() += 1;
    }

    fn sort(&mut self, setting: &Setting, sort: Sort) {
        let chip = setting.state.chip;
        self.count(Met::Of { chip, sort });
    }

    pub fn plan(&mut self, setting: &Setting, records: usize) {
        if records > 0 && setting.region().start % 2 == 1 {
            self.sort(setting, Sort::OddStart);
        }
        if records > 0 && setting.region().end % 2 == 1 {
            self.sort(setting, Sort::OddEnd);
        }
        if setting.region().len() >= 1_000 {
            self.sort(setting, Sort::LongPlan);
        }
        match &setting.ask {
            Ask::Update => {}
            Ask::Scenes(scenes) => self.list(setting, scenes, records),
            Ask::Naming(naming) => {
                let first = naming.is_first(&setting.old);
                self.sort(setting, if first { Sort::FirstPlan } else { Sort::SecondPlan });
                if naming.is_begun(&setting.old) {
                    self.sort(setting, Sort::Begun);
                }
            }
        }
    }

    fn list(&mut self, setting: &Setting, scenes: &[u32], records: usize) {
        let mut distinct = scenes.to_vec();
        distinct.sort_unstable();
        distinct.dedup();
        if distinct.len() < scenes.len() {
            self.sort(setting, Sort::Repeats);
        }
        if records == 0 {
            self.sort(setting, Sort::NothingNew);
        }
        let mut bytes = setting.old.iter().zip(&setting.wanted);
        if bytes.any(|(old, wanted)| old != wanted && *wanted != 0) {
            self.sort(setting, Sort::UnreadBeside);
        }
    }

    pub fn between(&mut self, setting: &Setting, index: usize, records: usize) {
        self.count(Met::Between {
            chip: setting.state.chip,
            wp_high: setting.wp_high,
            step_1: setting.needs_step_1(),
        });
        if index == 0 {
            self.sort(setting, Sort::BeforeFirst);
        }
        if index == records {
            self.sort(setting, Sort::AfterLast);
        }
    }

    pub fn inside(&mut self, setting: &Setting, programmed: usize) {
        if programmed == 0 {
            return self.sort(setting, Sort::InFrameThatProgramsNothing);
        }
        self.count(Met::Inside {
            chip: setting.state.chip,
            wp_high: setting.wp_high,
            step_1: setting.needs_step_1(),
        });
    }

    pub fn inside_status(&mut self, setting: &Setting, step: Step, mask: u8) {
        self.count(Met::InsideStatus { wp_high: setting.wp_high, step, mask });
    }

    /// Of a wait, which may be one of a status write.
    pub fn during(&mut self, setting: &Setting, status: Option<Step>, part: Part) {
        let (chip, wp_high) = (setting.state.chip, setting.wp_high);
        self.count(Met::During { chip, wp_high, step_1: setting.needs_step_1() });
        self.count(Met::Passed { chip, part });
        if let Some(step) = status {
            self.count(Met::DuringStatus { wp_high, step, part });
        }
    }

    pub fn again(&mut self, setting: &Setting, length: usize, first_length: usize, room: usize) {
        let step_1 = setting.state.chip == F25L05PA && setting.needs_step_1();
        if step_1 && length == first_length {
            self.count(Met::AsLong);
        }
        if length == room {
            self.count(Met::AllRoomNeeded);
        }
        if length == 0 {
            self.count(Met::NothingLeft);
        }
    }

    /// What came up less often than it has to.
    pub fn too_rare(&self, kind: Kind) -> Vec<String> {
        let mut all = vec![Met::AllRoomNeeded, Met::NothingLeft, Met::AsLong];
        for wp_high in [false, true] {
            for step in [Step::Unprotects, Step::Protects] {
                all.extend([0x00, 0xFF].map(|mask| Met::InsideStatus { wp_high, step, mask }));
                all.extend(PARTS.map(|part| Met::DuringStatus { wp_high, step, part }));
            }
        }
        for chip in CHIPS {
            all.extend(Sort::all(kind).iter().map(|&sort| Met::Of { chip, sort }));
            all.extend(PARTS.map(|part| Met::Passed { chip, part }));
            for (wp_high, step_1) in [(false, false), (false, true), (true, false), (true, true)] {
                all.push(Met::Between { chip, wp_high, step_1 });
                all.push(Met::Inside { chip, wp_high, step_1 });
                all.push(Met::During { chip, wp_high, step_1 });
            }
        }
        all.into_iter()
            .filter(|met| self.of(met) < LEAST)
            .map(|met| format!("{met:?}, {} times instead of {LEAST}", self.of(&met)))
            .collect()
    }

    fn of(&self, met: &Met) -> u64 {
        self.0.get(met).copied().unwrap_or(0)
    }
}

impl fmt::Display for Tally {
    fn fmt(&self, to: &mut fmt::Formatter<'_>) -> fmt::Result {
        for (met, times) in &self.0 {
            writeln!(to, "{times:>8}  {met:?}")?;
        }
        Ok(())
    }
}
