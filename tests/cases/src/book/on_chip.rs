//! A book on a chip of somebody who answers the calls, for the cases that are written out.

use model::{Calls, Planned, Surveyed, Told, BOOK, SCENES};

use super::{marked, ROOMY};
use crate::chip::Chip;

/// What stands in a buffer before a call.
const UNTOUCHED: u8 = 0xA5;

/// An erased, unprotected chip with a book in one sector.
pub struct BookOnChip<C> {
    pub chip: Chip<C>,
    pub wp_high: bool,
    /// How much of the array is lent.
    pub lent: usize,
    pub sector: usize,
}

impl<C: Calls> BookOnChip<C> {
    /// A book that starts here, whether or not it can.
    pub fn new(chip: u8, sector: usize) -> Self {
        let mut chip = Chip::new(chip);
        chip.state.bp = 0;
        Self { wp_high: true, lent: chip.array.len(), chip, sector }
    }

    fn lent(&self) -> &[u8] {
        &self.chip.array[..self.lent]
    }

    /// The bytes that it uses.
    pub fn bytes(&self) -> &[u8] {
        &self.chip.array[self.sector..][..BOOK]
    }

    fn is_told(&self, told: Told, number: u32, value: u32) -> bool {
        told == Told { number, state: self.chip.state, value }
    }

    fn is_read(&self, scene: u32) -> Told {
        C::book_is_read(self.chip.state, self.lent(), self.sector, scene)
    }

    fn count(&self) -> Told {
        C::book_count(self.chip.state, self.lent(), self.sector)
    }

    /// Whether this is said of each of the scenes.
    pub fn tells(&self, value: u32, scenes: &[u32]) -> bool {
        scenes.iter().all(|scene| self.is_told(self.is_read(*scene), 0, value))
    }

    /// Whether so many are read.
    pub fn counts(&self, value: u32) -> bool {
        self.is_told(self.count(), 0, value)
    }

    /// Whether both questions are refused with this number.
    pub fn refuses_to_tell(&self, number: u32) -> bool {
        self.is_told(self.is_read(0), number, 0) && self.is_told(self.count(), number, 0)
    }

    /// Whether marking the list is refused with this number, and changes nothing.
    pub fn refuses(&self, number: u32, scenes: &[u32]) -> bool {
        self.refuses_with(number, scenes, ROOMY)
    }

    /// The same with this room.
    pub fn refuses_with(&self, number: u32, scenes: &[u32], room: usize) -> bool {
        let (planned, buffer) = self.planned(scenes, room);
        let state = self.chip.state;
        planned == Planned { number, state, length: 0, frames: 0, microseconds: 0 }
            && buffer.iter().all(|byte| *byte == UNTOUCHED)
    }

    /// Whether it is no scene, asked for or in a list.
    pub fn has_no_scene(&self, scene: u32) -> bool {
        let lists: [&[u32]; 3] = [&[scene], &[0, scene], &[scene, 0]];
        self.is_told(self.is_read(scene), 15, 0)
            && lists.into_iter().all(|scenes| self.refuses(15, scenes))
    }

    /// Whether its sector is none, whatever is asked or listed.
    pub fn has_no_sector(&self) -> bool {
        self.refuses_to_tell(15) && self.refuses(15, &[0]) && self.refuses(15, &[])
    }

    /// The script that marks the list; none if it is refused, has other counts than the plan says,
    /// or isn't all that was written.
    pub fn plan(&self, scenes: &[u32], room: usize) -> Option<Vec<u8>> {
        let (planned, buffer) = self.planned(scenes, room);
        let (script, behind) = buffer.split_at_checked(planned.length as usize)?;
        let Surveyed { frames, microseconds, .. } = C::survey(script);
        let counts = (planned.frames, u64::from(planned.microseconds));
        let good = (planned.number, planned.state) == (0, self.chip.state)
            && counts == (frames, microseconds)
            && behind.iter().all(|byte| *byte == UNTOUCHED);
        good.then(|| script.to_vec())
    }

    fn planned(&self, scenes: &[u32], room: usize) -> (Planned, Vec<u8>) {
        let mut buffer = vec![UNTOUCHED; room];
        let (state, array) = (self.chip.state, self.lent());
        let planned = C::book_mark(state, self.wp_high, array, self.sector, scenes, &mut buffer);
        (planned, buffer)
    }

    /// Marks the list: whether the scenes' bits fall and nothing else changes.
    pub fn marks(&mut self, scenes: &[u32]) -> bool {
        let mut array = self.chip.array.clone();
        let book = &mut array[self.sector..][..BOOK];
        book.copy_from_slice(&marked(book, scenes));
        self.plan_and_run(scenes) && self.chip.array == array
    }

    /// Marks every scene of an erased book by itself, each time anew: whether no other turns read.
    pub fn marks_each_alone(&mut self) -> bool {
        let erased = [0xFF; BOOK];
        (0..SCENES).all(|scene| {
            let marks = self.plan_and_run(&[scene])
                && self.bytes() == marked(&erased, &[scene])
                && self.tells(1, &[scene])
                && self.counts(1);
            self.chip.array[self.sector..][..BOOK].copy_from_slice(&erased);
            marks
        })
    }

    /// Whether both are accepted, nothing is driven, and the chip is left as it was.
    fn plan_and_run(&mut self, scenes: &[u32]) -> bool {
        let state = self.chip.state;
        self.plan(scenes, ROOMY)
            .and_then(|script| self.chip.run_silent(self.wp_high, &script))
            .is_some_and(|ran| (ran.number, ran.state) == (0, state))
    }
}
