//! One plan, cut everywhere, and planned again from there.

use std::marker::PhantomData;

use cases::literal::bytes_text;
use cases::names::Names;
use cases::{book, Rng, F25L05PA};
use model::{kind, Calls, Planned, Ran, State};

use crate::cuts::{masks, parts, programmed};
use crate::line::Line;
use crate::setting::{Ask, Setting};
use crate::status::{self, Bits};
use crate::tally::Tally;

/// Longer than any plan's script.
const ROOMY: usize = 27_000;
/// A plan with more records than this is cut at some of them only, about so many.
const RECORDS_ALL_CUT: usize = 500;
const RECORDS_CUT: usize = 100;
/// Bytes around the region that are looked at after each cut; all are after each plan.
const AROUND: usize = 300;
/// So many scenes of a list are asked for after each cut and each run.
const SCENES_ASKED: usize = 4;
/// Two plans, and the call that has nothing left to do.
const MOST_CALLS: usize = 3;

pub struct Trial<'a, C> {
    setting: &'a Setting,
    array: &'a mut [u8],
    before: &'a [u8],
    more_room: usize,
    /// Who answers about flags by name.
    names: &'a Names,
    calls: PhantomData<C>,
}

/// A record of a script: where it stands, and what it is.
struct Record {
    from: usize,
    until: usize,
    what: What,
}

#[derive(Clone, Copy)]
enum What {
    /// Where the frame's bytes start, and how many they are.
    Frame {
        start: usize,
        length: usize,
    },
    Wait {
        microseconds: u32,
    },
}

impl<'a, C: Calls> Trial<'a, C> {
    pub fn new(
        setting: &'a Setting,
        array: &'a mut [u8],
        before: &'a [u8],
        more_room: usize,
        names: &'a Names,
    ) -> Self {
        Self { setting, array, before, more_room, names, calls: PhantomData }
    }

    /// Leaves the region as wanted.
    pub fn go(mut self, rng: &mut Rng, tally: &mut Tally) -> Result<(), String> {
        let mut state = self.setting.state;
        let (first, script) = self.plan(state, ROOMY)?;
        self.check_room(&script)?;
        let records = records::<C>(&script)?;
        tally.plan(self.setting, records.len());
        self.finish(state, &first, &script, &self.setting.wanted)?;
        self.restore(&self.setting.old.clone());

        let step = match records.len() {
            0..=RECORDS_ALL_CUT => 1,
            many => many / RECORDS_CUT,
        };
        let offset = rng.below(step);
        for index in 0..=records.len() {
            let record = records.get(index);
            let edge = index == 0 || record.is_none();
            if edge || index % step == offset {
                self.cut_here(state, Bits::of(&state), script.len(), tally)
                    .map_err(|what| format!("cut before record {index}: {what}"))?;
                tally.between(self.setting, index, records.len());
                match record.map(|record| record.what) {
                    Some(What::Frame { start, length }) => {
                        let frame = &script[start..][..length];
                        self.cut_inside(state, frame, script.len(), rng, tally)
                    }
                    Some(What::Wait { microseconds }) => {
                        self.cut_during(state, microseconds, script.len(), rng, tally)
                    }
                    None => Ok(()),
                }
                .map_err(|what| format!("cut inside record {index}, {what}"))?;
            }
            if let Some(record) = record {
                state = self.run(state, &script[record.from..record.until])?.state;
            }
        }
        Ok(())
    }

    /// Cuts inside a frame: one that programs with several masks, a status write that takes time with
    /// the two that it has.
    fn cut_inside(
        &mut self,
        state: State,
        frame: &[u8],
        first_length: usize,
        rng: &mut Rng,
        tally: &mut Tally,
    ) -> Result<(), String> {
        let so_far = self.array[self.setting.region()].to_vec();
        let programmed = programmed(frame);
        let status = status::write(state.chip, frame);
        for mask in masks(rng, programmed, status.is_some()) {
            let bits = match status {
                Some((_, new)) if mask == [0xFF] => new,
                _ => Bits::of(&state),
            };
            let mut cut = state;
            let wp_high = self.setting.wp_high;
            let mut line = Line::new(frame.len());
            let [output, driven] = line.slices();
            let number = C::cut_frame(&mut cut, wp_high, self.array, frame, output, driven, &mask);
            accepted(number, "the cut frame")
                .and_then(|()| line.check_silent())
                .and_then(|()| bits.check(&cut))
                .and_then(|()| self.again(cut, first_length, tally))
                .map_err(|what| format!("mask {}: {what}", bytes_text(&mask)))?;
            self.restore(&so_far);
            match status {
                Some((step, _)) => tally.inside_status(self.setting, step, mask[0]),
                None => tally.inside(self.setting, programmed),
            }
        }
        Ok(())
    }

    /// Cuts when some of a wait has passed, two parts of it by chance, of a status write's every one:
    /// before its end the chip is busy, and at its end it is not.
    fn cut_during(
        &mut self,
        state: State,
        microseconds: u32,
        first_length: usize,
        rng: &mut Rng,
        tally: &mut Tally,
    ) -> Result<(), String> {
        let status = status::running(&state);
        for part in parts(rng, status.is_some()) {
            let passed = part.of(microseconds);
            let waited = C::wait(state, passed);
            let bits = match status {
                Some(_) if passed == microseconds => Bits::pending(&state),
                _ => Bits::of(&state),
            };
            accepted(waited.number, "the wait")
                .and_then(|()| match (waited.state.left > 0) == (passed < microseconds) {
                    true => self.cut_here(waited.state, bits, first_length, tally),
                    false => Err("BUSY and the wait don't end together".into()),
                })
                .map_err(|what| format!("{passed} of {microseconds} us: {what}"))?;
            tally.during(self.setting, status, part);
        }
        Ok(())
    }

    /// The power goes and comes back, with these bits where the chip keeps them, and the plan is made
    /// again; the region is then put back.
    fn cut_here(
        &mut self,
        state: State,
        bits: Bits,
        first_length: usize,
        tally: &mut Tally,
    ) -> Result<(), String> {
        let so_far = self.array[self.setting.region()].to_vec();
        let powered = C::power_up(state);
        accepted(powered.number, "the power-up")?;
        bits.check(&powered.state)?;
        self.again(powered.state, first_length, tally)?;
        self.restore(&so_far);
        Ok(())
    }

    /// After a cut: every bit is old or wanted, and a second plan is accepted and finishes; where a
    /// call plans step by step, so do the further ones.
    fn again(
        &mut self,
        state: State,
        first_length: usize,
        tally: &mut Tally,
    ) -> Result<(), String> {
        self.check_names()?;
        let Setting { old, wanted, .. } = self.setting;
        let now = &self.array[self.setting.region()];
        for ((now, old), wanted) in now.iter().zip(old).zip(wanted) {
            if (now ^ old) & (now ^ wanted) != 0 {
                return Err("a bit neither old nor wanted after a cut".into());
            }
        }
        self.check_around("after a cut")?;
        self.check_told(state)?;
        let mut state = state;
        for _ in 0..MOST_CALLS {
            let wanted = self.setting.wanted_of(&self.array[self.setting.region()]);
            let same = wanted == self.setting.wanted;
            // Another plan than the one that was cut may be longer.
            let room = if same { first_length + self.more_room } else { ROOMY };
            let (planned, script) = self.plan(state, room)?;
            if same {
                tally.again(self.setting, script.len(), first_length, room);
                check_length(state.chip, script.len(), first_length)?;
            }
            state = self.finish(state, &planned, &script, &wanted)?;
            if script.is_empty() || !matches!(self.setting.ask, Ask::Naming(_)) {
                return Ok(());
            }
        }
        Err("called again it has always something left to do".into())
    }

    /// Runs a plan uncut: the region is then as wanted, all else as it was. The state after it.
    fn finish(
        &mut self,
        state: State,
        planned: &Planned,
        script: &[u8],
        wanted: &[u8],
    ) -> Result<State, String> {
        let ran = self.run(state, script)?;
        let counts = (ran.frames, ran.microseconds);
        if counts != (planned.frames, u64::from(planned.microseconds)) {
            return Err("the run's counts aren't the plan's".into());
        }
        let rested = match script {
            [] => state,
            _ => State { wel: false, armed: false, ..state },
        };
        if planned.state != state || ran.state != rested {
            return Err(format!("state after the plan or its run: {:?}", ran.state));
        }
        if self.array[self.setting.region()] != *wanted {
            return Err("the region isn't as wanted after the run".into());
        }
        self.check_around("after a run")?;
        self.check_told(state)?;
        Ok(rested)
    }

    fn plan(&mut self, state: State, room: usize) -> Result<(Planned, Vec<u8>), String> {
        let Setting { wp_high, start, wanted, ask, .. } = self.setting;
        let mut buffer = vec![0; room];
        let planned = match ask {
            Ask::Update => C::plan(state, *wp_high, self.array, *start, wanted, &mut buffer),
            Ask::Scenes(scenes) => {
                C::book_mark(state, *wp_high, self.array, *start, scenes, &mut buffer)
            }
            Ask::Naming(naming) => {
                naming.plan(self.names, state, *wp_high, self.array, &mut buffer)
            }
        };
        accepted(planned.number, "the plan")?;
        buffer.truncate(planned.length as usize);
        Ok((planned, buffer))
    }

    /// Room for the script is enough, one byte less is not.
    fn check_room(&mut self, script: &[u8]) -> Result<(), String> {
        let (_, same) = self.plan(self.setting.state, script.len())?;
        let refused = match script.len().checked_sub(1) {
            Some(less) => {
                self.plan(self.setting.state, less).is_err_and(|what| what.ends_with("refusal 10"))
            }
            None => true,
        };
        if same == script && refused {
            Ok(())
        } else {
            Err("the plan's room isn't its length".into())
        }
    }

    /// Runs a script, or a part of one: the chip drives nothing in a plan's frames.
    fn run(&mut self, state: State, script: &[u8]) -> Result<Ran, String> {
        let mut line = Line::new(output_length::<C>(script)?);
        let [output, driven] = line.slices();
        let ran = C::run(state, self.setting.wp_high, self.array, script, output, driven);
        accepted(ran.number, "the run")?;
        line.check_silent()?;
        Ok(ran)
    }

    fn restore(&mut self, region: &[u8]) {
        self.array[self.setting.region()].copy_from_slice(region);
    }

    /// What is told of a book or of names is what stands there.
    fn check_told(&self, state: State) -> Result<(), String> {
        let now = &self.array[self.setting.region()];
        match &self.setting.ask {
            Ask::Update => Ok(()),
            Ask::Scenes(scenes) => self.check_book(state, scenes),
            Ask::Naming(naming) if naming.is_told(self.names, state, self.array, now) => Ok(()),
            Ask::Naming(_) => Err("what is told of names isn't what stands there".into()),
        }
    }

    /// After a cut no name is made up, and none lost.
    fn check_names(&self) -> Result<(), String> {
        let Setting { old, ask: Ask::Naming(naming), .. } = self.setting else { return Ok(()) };
        match naming.may_leave(old, &self.array[self.setting.region()]) {
            true => Ok(()),
            false => Err("a name made up or lost, or a scene, after a cut".into()),
        }
    }

    /// Of a book it is told what its bytes say: how many scenes are read, and whether some of those
    /// listed and their neighbours are.
    fn check_book(&self, state: State, scenes: &[u32]) -> Result<(), String> {
        let Setting { start, .. } = self.setting;
        let bytes = &self.array[self.setting.region()];
        let read = bytes.iter().map(|byte| byte.count_zeros()).sum();
        let count = C::book_count(state, self.array, *start);
        let is_told = |scene: u32| {
            let told = C::book_is_read(state, self.array, *start, scene);
            (told.number, told.value) == (0, book::is_read(bytes, scene).into())
        };
        let mut asked = scenes.iter().take(SCENES_ASKED).flat_map(|scene| [*scene, scene ^ 1]);
        if (count.number, count.value) == (0, read) && asked.all(is_told) {
            Ok(())
        } else {
            Err("what is told of the book isn't what it holds".into())
        }
    }

    fn check_around(&self, when: &str) -> Result<(), String> {
        let region = self.setting.region();
        let below = region.start.saturating_sub(AROUND)..region.start;
        let above = region.end..(region.end + AROUND).min(self.array.len());
        if self.array[below.clone()] == self.before[below]
            && self.array[above.clone()] == self.before[above]
        {
            Ok(())
        } else {
            Err(format!("the array moved beside the region {when}"))
        }
    }
}

/// On the chip that keeps its bits the same plan is never longer after a cut: it needs step 1 only if it
/// did before.
fn check_length(chip: u8, length: usize, first_length: usize) -> Result<(), String> {
    match chip == F25L05PA && length > first_length {
        true => Err(format!("{length} bytes after a cut, {first_length} before")),
        false => Ok(()),
    }
}

fn records<C: Calls>(script: &[u8]) -> Result<Vec<Record>, String> {
    let mut records = Vec::new();
    let mut from = 0;
    loop {
        let record = C::read(script, from);
        accepted(record.number, "the reader")?;
        if record.kind == kind::END {
            return Ok(records);
        }
        let what = match record.kind {
            kind::FRAME => What::Frame { start: record.start, length: record.length },
            _ => What::Wait { microseconds: record.microseconds },
        };
        records.push(Record { from, until: record.next, what });
        from = record.next;
    }
}

fn output_length<C: Calls>(script: &[u8]) -> Result<usize, String> {
    let surveyed = C::survey(script);
    accepted(surveyed.number, "the survey")?;
    Ok(surveyed.output)
}

fn accepted(number: u32, what: &str) -> Result<(), String> {
    if number == 0 {
        Ok(())
    } else {
        Err(format!("{what} met refusal {number}"))
    }
}
