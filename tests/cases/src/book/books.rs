//! Random marks, on which the promises are tried. One party answers the questions, another marks: by
//! its own answers a copy of the model that counts a scene's bit from the top would be excused.

use std::fmt;

use model::{Calls, Planned, Ran, State, Told, BOOK, SCENES};

use super::marks::Mark;
use super::promises::{Flag, Promise, Seen};
use super::ROOMY;
use crate::{scripts, size, Rng};

/// Somebody's calls.
type IsRead = fn(State, &[u8], usize, u32) -> Told;
type Count = fn(State, &[u8], usize) -> Told;
type BookMark = fn(State, bool, &[u8], usize, &[u32], &mut [u8]) -> Planned;
type Run = fn(State, bool, &mut [u8], &[u8], &mut [u8], &mut [u8]) -> Ran;

/// Marks random books of a chip. There is one array for all of them: each writes only its own book
/// anew.
pub struct Books {
    chip: u8,
    rng: Rng,
    array: Vec<u8>,
    /// The array before the mark.
    before: Vec<u8>,
    /// Who answers the questions.
    is_read: IsRead,
    count: Count,
    /// Who marks, and runs the script.
    mark: BookMark,
    run: Run,
}

/// What a mark showed.
pub struct Found {
    /// The promises that it put to the test.
    pub tested: Vec<Promise>,
    pub broken: Vec<Promise>,
}

impl Books {
    /// `Q` answers the questions, `M` marks.
    pub fn new<Q: Calls, M: Calls>(chip: u8, seed: u64) -> Self {
        let mut rng = Rng::new(seed);
        let array = rng.bytes(size(chip));
        Self {
            chip,
            rng,
            before: array.clone(),
            array,
            is_read: Q::book_is_read,
            count: Q::book_count,
            mark: M::book_mark,
            run: M::run,
        }
    }

    /// Marks one more book, and tries the promises.
    pub fn mark(&mut self) -> (Mark, Found) {
        let mark = Mark::draw(&mut self.rng, self.chip);
        let book = mark.sector..mark.sector + BOOK;
        self.array[book.clone()].copy_from_slice(&mark.book);
        self.before[book].copy_from_slice(&mark.book);

        let before = self.read(&mark);
        let accepted = self.plan_and_run(&mark);
        let seen = Seen {
            accepted,
            flags: flags(before, self.read(&mark), &mark.scenes),
            count: (self.count)(mark.state, &self.array, mark.sector),
            rest_kept: self.is_rest_kept(mark.sector),
        };
        self.array.copy_from_slice(&self.before);
        let all = Promise::ALL.into_iter();
        let tested = all.clone().filter(|promise| seen.tests(*promise)).collect();
        let broken = all.filter(|promise| !seen.keeps(*promise)).collect();
        (mark, Found { tested, broken })
    }

    /// The mark that was just tried, as Rust text that can be pasted.
    pub fn text(&self, mark: &Mark) -> String {
        mark.text(self.array.len(), ROOMY)
    }

    /// Which scenes are read, each asked for.
    fn read(&self, mark: &Mark) -> Vec<bool> {
        let ask = |scene| (self.is_read)(mark.state, &self.array, mark.sector, scene);
        let is_read = |told: Told| (told.number, told.value) == (0, 1);
        (0..SCENES).map(|scene| is_read(ask(scene))).collect()
    }

    /// Whether the plan and its run are accepted.
    fn plan_and_run(&mut self, mark: &Mark) -> bool {
        let Mark { state, wp_high, sector, scenes, .. } = mark;
        let mut buffer = vec![0; ROOMY];
        let planned = (self.mark)(*state, *wp_high, &self.array, *sector, scenes, &mut buffer);
        buffer.get(..planned.length as usize).is_some_and(|script| {
            let mut output = vec![0; scripts::frame_bytes(script)];
            let mut driven = output.clone();
            let array = &mut self.array;
            let ran = (self.run)(*state, *wp_high, array, script, &mut output, &mut driven);
            (planned.number, ran.number) == (0, 0)
        })
    }

    fn is_rest_kept(&self, sector: usize) -> bool {
        let behind = sector + BOOK;
        self.array[..sector] == self.before[..sector]
            && self.array[behind..] == self.before[behind..]
    }
}

fn flags(before: Vec<bool>, after: Vec<bool>, scenes: &[u32]) -> Vec<Flag> {
    let mut listed = vec![false; SCENES as usize];
    scenes.iter().for_each(|scene| listed[*scene as usize] = true);
    let all = before.into_iter().zip(after).zip(listed);
    all.map(|((before, after), listed)| Flag { before, after, listed }).collect()
}

impl fmt::Display for Found {
    fn fmt(&self, to: &mut fmt::Formatter<'_>) -> fmt::Result {
        write!(to, "broken: {:?}", self.broken)
    }
}
