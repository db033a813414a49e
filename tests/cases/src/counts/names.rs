//! What the cases about flags by name met.

use model::{State, SECTOR};

use super::names_sorts::{self, names_listed};
use super::sorts::{self, PlanSort};
use super::{known, rank, Counts, Met};
use crate::book::WRONG_BOOK;
use crate::names::images::used;
use crate::names::{Asked, Outcome, Promise, Seen, BAD_NAME, FULL, NAME_TWICE};
use crate::size;

impl Counts {
    /// Counts what one of the four calls was given and met.
    pub fn note_names(&mut self, seen: &Seen) {
        let call = seen.item.case.call();
        self.note_pending(call, &seen.item.case.on.state, seen.outcome.number());
        match seen.outcome.number() {
            0 => self.note_names_accepted(call, seen),
            number => self.note_names_refused(call, number, seen),
        }
        if matches!(seen.outcome.number(), 0 | 8 | FULL) {
            self.note_names_sorts(call, seen);
        }
    }

    /// Counts the promises that a history or a plan put to the test.
    pub fn note_named(&mut self, chip: u8, promises: &[Promise]) {
        for &promise in promises {
            self.count(Met::Named { chip, promise });
        }
    }

    fn note_names_accepted(&mut self, call: &'static str, seen: &Seen) {
        let on = &seen.item.case.on;
        let State { chip, bp, .. } = on.state;
        self.count(Met::Level { call, chip, bp, wp_high: on.wp_high });
        match seen.outcome {
            Outcome::Told(told) => {
                self.count(Met::Asked { call, chip, sort: sorts::of_asked(&on.state) });
                self.count(Met::Told { chip, read: told.value == 1 });
            }
            _ => {
                let start = seen.item.case.sectors()[0];
                let region = start..start + SECTOR;
                for sort in sorts::of_plan(on, region, seen.item.case.room(), seen.script) {
                    self.count(Met::NamesPlan { call, chip, sort });
                }
            }
        }
    }

    fn note_names_refused(&mut self, call: &'static str, number: u32, seen: &Seen) {
        let chip = known(seen.item.case.on.state.chip);
        self.count(Met::Refused { call, chip, number });
        for other in seen.item.planted.numbers() {
            if rank(call, other) > rank(call, number) {
                self.count(Met::RefusedFirst { call, number, other });
            }
        }
        if number == 10 && seen.item.one_short {
            self.count(Met::NamesPlan { call, chip, sort: PlanSort::OneByteShort });
        }
        match number {
            WRONG_BOOK => self.note_wrong_sector(call, chip, seen),
            BAD_NAME => self.note_bad_name(call, seen),
            NAME_TWICE => {
                let (list, book) = listed(seen);
                for sort in names_sorts::of_twice(&names_listed(list).0, book) {
                    self.count(Met::Twice { call, sort });
                }
            }
            _ => {}
        }
    }

    /// The sector that alone is none, and whether it is the source.
    fn note_wrong_sector(&mut self, call: &'static str, chip: u8, seen: &Seen) {
        let starts = seen.item.case.sectors();
        let is_sector = |start: usize| start < size(chip) && start.is_multiple_of(SECTOR);
        let wrong: Vec<usize> = (0..starts.len()).filter(|at| !is_sector(starts[*at])).collect();
        if let [which] = wrong[..] {
            for sort in sorts::of_wrong_book(chip, starts[which], &[]) {
                self.count(Met::WrongSector { call, source: which == 1, sort });
            }
        }
    }

    fn note_bad_name(&mut self, call: &'static str, seen: &Seen) {
        match &seen.item.case.asked {
            Asked::IsRead { name, .. } | Asked::Mark { name, .. } => {
                for sort in names_sorts::of_bad_name(name) {
                    self.count(Met::BadName { call, sort });
                }
            }
            _ => {
                let (list, book) = listed(seen);
                for sort in names_sorts::of_bad_list(list, book) {
                    self.count(Met::BadList { call, sort });
                }
            }
        }
    }

    fn note_names_sorts(&mut self, call: &'static str, seen: &Seen) {
        let number = seen.outcome.number();
        let image = |start: usize| &seen.array[start..][..SECTOR];
        match &seen.item.case.asked {
            Asked::IsRead { sector, name } => {
                for sort in names_sorts::of_question(image(*sector), name) {
                    self.count(Met::Question { sort });
                }
            }
            Asked::Mark { sector, name, .. } => {
                let image = image(*sector);
                for sort in names_sorts::of_present(image, name) {
                    self.count(Met::Present { sort });
                }
                if !model::names_of(image).any(|record| record == name) {
                    let names = [name.clone()];
                    self.note_target(call, image, used(image), &names, number);
                }
            }
            Asked::Move { book, sector, list, .. } => {
                self.note_move(call, seen, image(*book), image(*sector), list);
            }
            Asked::Back { sector, book, list, .. } => {
                let (names, _) = names_listed(list);
                let (source, target) = (image(*sector), image(*book));
                for sort in names_sorts::of_back(source, target, &names, &seen.outcome) {
                    self.count(Met::Returned { sort });
                }
            }
        }
    }

    fn note_move(
        &mut self,
        call: &'static str,
        seen: &Seen,
        book: &[u8],
        target: &[u8],
        list: &[u8],
    ) {
        let (names, _) = names_listed(list);
        let is_read = |scene: &usize| book[scene / 8] >> (scene % 8) & 1 == 0;
        let scenes = (0..names.len()).filter(is_read);
        let read: Vec<Vec<u8>> = scenes.map(|scene| names[scene].clone()).collect();
        self.note_target(call, target, 0, &read, seen.outcome.number());
        if seen.outcome.number() == 0 {
            for sort in names_sorts::of_move(book, &names, &read, seen.script) {
                self.count(Met::Moved { sort });
            }
        }
    }

    fn note_target(
        &mut self,
        call: &'static str,
        image: &[u8],
        front: usize,
        names: &[Vec<u8>],
        number: u32,
    ) {
        for sort in names_sorts::of_target(image, front, names, number) {
            self.count(Met::Target { call, sort });
        }
    }
}

/// The list of a case that has one, and the book that is moved by it.
fn listed<'a>(seen: &'a Seen) -> (&'a [u8], Option<&'a [u8]>) {
    match &seen.item.case.asked {
        Asked::Move { book, list, .. } => (list, Some(&seen.array[*book..][..SECTOR])),
        Asked::Back { list, .. } => (list, None),
        _ => (&[], None),
    }
}
