//! A sector of names, and two for books, on a chip of somebody who answers the calls.

use model::{Calls, Planned, Returned, State, Surveyed, Told, SECTOR};

use crate::chip::Chip;
use crate::names::drawn::list;
use crate::names::images::{padded, records, unmarked, used};
use crate::names::ROOMY;

/// What stands in a buffer before a call.
const UNTOUCHED: u8 = 0xA5;

/// An erased, unprotected chip.
pub struct OnChip<C> {
    pub chip: Chip<C>,
    pub wp_high: bool,
    /// How much of the array is lent.
    pub lent: usize,
    /// Where the names are.
    pub sector: usize,
    /// Where the book is.
    pub book: usize,
    pub room: usize,
}

impl<C: Calls> OnChip<C> {
    pub fn new(chip: u8) -> Self {
        let mut chip = Chip::new(chip);
        chip.state.bp = 0;
        let lent = chip.array.len();
        Self { chip, wp_high: true, lent, sector: 0, book: 2 * SECTOR, room: ROOMY }
    }

    /// With these bytes in the sector of names, and FF behind them.
    pub fn with(chip: u8, bytes: &[u8]) -> Self {
        let mut new = Self::new(chip);
        new.put(0, bytes);
        new
    }

    /// With these scenes read in the book.
    pub fn reading(chip: u8, scenes: &[usize]) -> Self {
        let mut new = Self::new(chip);
        scenes.iter().for_each(|scene| new.read(*scene));
        new
    }

    pub fn put(&mut self, start: usize, bytes: &[u8]) {
        self.chip.array[start..][..SECTOR].copy_from_slice(&padded(bytes));
    }

    /// Sets a scene of the book read.
    pub fn read(&mut self, scene: usize) {
        self.chip.array[self.book + scene / 8] &= !(1 << (scene % 8));
    }

    pub fn image(&self) -> &[u8] {
        &self.chip.array[self.sector..][..SECTOR]
    }

    fn lent(&self) -> &[u8] {
        &self.chip.array[..self.lent]
    }

    /// Whether this is said of each of the names.
    pub fn tells(&self, value: u32, names: &[&[u8]]) -> bool {
        names.iter().all(|name| self.is_told(0, value, name))
    }

    pub fn refuses_to_tell(&self, number: u32, name: &[u8]) -> bool {
        self.is_told(number, 0, name)
    }

    fn is_told(&self, number: u32, value: u32, name: &[u8]) -> bool {
        let state = self.chip.state;
        C::names_is_read(state, self.lent(), self.sector, name) == Told { number, state, value }
    }

    pub fn mark(&self, name: &[u8]) -> Called {
        let mut buffer = vec![UNTOUCHED; self.room];
        let (state, array) = (self.chip.state, self.lent());
        let planned = C::names_mark(state, self.wp_high, array, self.sector, name, &mut buffer);
        Called::new(planned, 0, buffer)
    }

    pub fn there(&self, list: &[u8]) -> Called {
        let mut buffer = vec![UNTOUCHED; self.room];
        let (state, array, wp_high) = (self.chip.state, self.lent(), self.wp_high);
        let (book, sector) = (self.book, self.sector);
        let planned = C::names_move(state, wp_high, array, book, sector, list, &mut buffer);
        Called::new(planned, 0, buffer)
    }

    pub fn back(&self, list: &[u8]) -> Called {
        let mut buffer = vec![UNTOUCHED; self.room];
        let (state, array, wp_high) = (self.chip.state, self.lent(), self.wp_high);
        let (book, sector) = (self.book, self.sector);
        let returned = C::names_back(state, wp_high, array, sector, book, list, &mut buffer);
        let Returned { number, state, length, frames, microseconds, unlisted } = returned;
        let planned = Planned { number, state, length, frames, microseconds };
        Called::new(planned, unlisted, buffer)
    }

    /// Whether a call is refused with this number, and changes nothing.
    pub fn refuses(&self, number: u32, called: Called) -> bool {
        let state = self.chip.state;
        called.planned == Planned { number, state, length: 0, frames: 0, microseconds: 0 }
            && called.unlisted == 0
            && called.buffer.iter().all(|byte| *byte == UNTOUCHED)
    }

    /// Whether both a move and a way back by this list are.
    pub fn refuses_list(&self, number: u32, list: &[u8]) -> bool {
        self.refuses(number, self.there(list)) && self.refuses(number, self.back(list))
    }

    /// The script of a call; none if it is refused, has other counts than it says, or isn't all
    /// that was written.
    pub fn script(&self, called: &Called) -> Option<Vec<u8>> {
        let Called { planned, buffer, .. } = called;
        let (script, behind) = buffer.split_at_checked(planned.length as usize)?;
        let Surveyed { frames, microseconds, .. } = C::survey(script);
        let good = (planned.number, planned.state) == (0, self.chip.state)
            && (planned.frames, u64::from(planned.microseconds)) == (frames, microseconds)
            && behind.iter().all(|byte| *byte == UNTOUCHED);
        good.then(|| script.to_vec())
    }

    /// Whether a call has nothing to do.
    pub fn is_done(&self, called: &Called) -> bool {
        self.script(called).is_some_and(|script| script.is_empty())
    }

    /// Runs what a call planned: whether nothing is driven, and all of the array is then as it was, but
    /// for a sector that holds these bytes and FF.
    pub fn runs(&mut self, called: &Called, start: usize, bytes: &[u8]) -> bool {
        let Some(script) = self.script(called).filter(|script| !script.is_empty()) else {
            return false;
        };
        let mut array = self.chip.array.clone();
        array[start..][..SECTOR].copy_from_slice(&padded(bytes));
        let state = self.chip.state;
        let ran = self.chip.run_silent(self.wp_high, &script);
        let rested = State { wel: false, armed: false, ..state };
        ran.is_some_and(|ran| (ran.number, ran.state) == (0, rested)) && self.chip.array == array
    }

    /// Marks a name by two plans: whether it is read behind the second and not before, and the third
    /// has nothing to do.
    pub fn marks(&mut self, name: &[u8]) -> bool {
        let front = self.image()[..used(self.image())].to_vec();
        let names = [name.to_vec()];
        let sector = self.sector;
        let unread = self.tells(0, &[name]);
        let first = self.runs(&self.mark(name), sector, &unmarked(&front, &names));
        let between = self.tells(0, &[name]);
        let second = self.runs(&self.mark(name), sector, &records(&front, &names));
        let behind = self.tells(1, &[name]) && self.is_done(&self.mark(name));
        [unread, first, between, second, behind] == [true; 5]
    }

    /// Moves by two plans: whether these names are then there, in this order.
    pub fn moves(&mut self, list: &[u8], names: &[&[u8]]) -> bool {
        let names: Vec<Vec<u8>> = names.iter().map(|name| name.to_vec()).collect();
        let sector = self.sector;
        let first = self.runs(&self.there(list), sector, &unmarked(&[], &names));
        let second = self.runs(&self.there(list), sector, &records(&[], &names));
        [first, second, self.is_done(&self.there(list))] == [true; 3]
    }

    /// Goes back: whether these scenes are then read, and so many records were not on the list.
    pub fn returns(&mut self, list: &[u8], scenes: &[usize], unlisted: u32) -> bool {
        let mut book = vec![0xFF; SECTOR];
        scenes.iter().for_each(|scene| book[scene / 8] &= !(1 << (scene % 8)));
        let called = self.back(list);
        let start = self.book;
        let ran = if scenes.is_empty() {
            self.is_done(&called) && self.chip.array[start..][..SECTOR] == book
        } else {
            self.runs(&called, start, &book)
        };
        let again = self.back(list);
        ran && called.unlisted == unlisted && self.is_done(&again) && again.unlisted == unlisted
    }
}

/// What a call that plans gave.
pub struct Called {
    planned: Planned,
    unlisted: u32,
    buffer: Vec<u8>,
}

impl Called {
    fn new(planned: Planned, unlisted: u32, buffer: Vec<u8>) -> Self {
        Self { planned, unlisted, buffer }
    }
}

/// The list of these names.
pub fn listed(names: &[&[u8]]) -> Vec<u8> {
    list(&names.iter().map(|name| name.to_vec()).collect::<Vec<_>>())
}

/// So many different names of three bytes.
pub fn many(count: usize) -> Vec<Vec<u8>> {
    let digit = |number: usize| b'0' + (number % 64) as u8;
    (0..count)
        .map(|number| vec![digit(number), digit(number / 64), digit(number / 4_096)])
        .collect()
}
