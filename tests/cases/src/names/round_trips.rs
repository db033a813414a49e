//! Trials that go from a book to names and back, and the other way round.

use std::collections::BTreeSet;

use model::{names_of, BOOK, SECTOR};

use super::books::NamedBook;
use super::case::{Asked, Outcome};
use super::drawn::list;
use super::images::{self, half_done, is_missing, needs_erase, padded};
use super::list_items::{source, two_sectors};
use super::promises::{Found, Promise};
use super::trials::{expected, Trials};
use super::ROOMY;
use crate::book::sector;
use crate::Rng;

impl Trials {
    /// Moves a book, and then the names back into a third sector.
    pub(super) fn there_and_back(&mut self, found: &mut Found) -> Vec<usize> {
        let rng = &mut self.rng;
        let named = match rng.below(5) {
            0 if rng.one_in(40) => NamedBook::longest(rng),
            0 => {
                let more = rng.pick(&[0, 1, 1, 40]);
                NamedBook::needing(rng, SECTOR + more)
            }
            _ => NamedBook::draw(rng),
        };
        let [from, to, third] = three_sectors(rng, self.chip.state.chip);
        let read = named.read_names();
        let target = match images::records(&[], &read).len() <= SECTOR {
            true => images::target(rng, &[], &read),
            false => vec![0xFF; SECTOR],
        };
        let book = named.sector(rng);
        self.put(from, &book);
        self.put(to, &target);
        self.put(third, &[0xFF; SECTOR]);
        self.rest(&[to, third]);
        let (given, room) = (list(&named.names), ROOMY);
        let asked = Asked::Move { book: from, sector: to, list: given.clone(), room };
        let expected = expected(&target, &[], &read);
        if !self.moves(asked, to, &read, expected, found) {
            return vec![to, third];
        }
        let asked = Asked::Back { sector: to, book: third, list: given, room };
        let ended = self.finish(asked, third, 0, found, &|_| true, &mut |step, found| {
            let recorded = is_subset(step.after, &book);
            found.note(Promise::OnlyRecordedRead, recorded, step.cut);
        });
        let same = self.image(third)[..BOOK] == book[..BOOK];
        let some = read.len() > 1 && read.len() < named.names.len();
        found.note(Promise::ThereAndBack, ended && same, some);
        self.ask(to, &named.names, found);
        vec![to, third]
    }

    /// Goes back from names to a book, and moves that into a third sector.
    pub(super) fn back_and_there(&mut self, found: &mut Found) -> Vec<usize> {
        let rng = &mut self.rng;
        let named = NamedBook::draw(rng);
        let source = source(rng, &named);
        let [from, to, third] = three_sectors(rng, self.chip.state.chip);
        let records: BTreeSet<&[u8]> = names_of(&source).collect();
        let recorded: Vec<bool> =
            named.names.iter().map(|name| records.contains(&name[..])).collect();
        let back = NamedBook { read: recorded.clone(), ..named };
        let wanted = [&back.sector(rng)[..BOOK], &[0xFF; SECTOR - BOOK]].concat();
        let target = book_target(rng, &wanted);
        let expected = if needs_erase(&target, &wanted) { 8 } else { 0 };
        self.put(from, &source);
        self.put(to, &target);
        self.put(third, &[0xFF; SECTOR]);
        self.rest(&[to, third]);
        let (given, room) = (list(&back.names), ROOMY);
        let asked = Asked::Back { sector: from, book: to, list: given.clone(), room };
        if expected == 0 {
            self.unlisted(&asked, &source, &back.names, found);
        }
        let ended = self.finish(asked, to, expected, found, &|_| true, &mut |step, found| {
            found.note(Promise::OnlyRecordedRead, is_subset(step.after, &wanted), step.cut);
        });
        if expected != 0 || !ended {
            found.note(Promise::BackAndThere, expected != 0, false);
            return vec![to, third];
        }
        let asked = Asked::Move { book: to, sector: third, list: given, room };
        let ended = self.moves(asked, third, &back.read_names(), 0, found);
        let image = self.image(third);
        let records: BTreeSet<&[u8]> = names_of(image).collect();
        let mut names = back.names.iter().zip(&recorded);
        let same = names.all(|(name, was)| records.contains(&name[..]) == *was);
        let some = recorded.contains(&true) && recorded.contains(&false);
        found.note(Promise::BackAndThere, ended && same, some);
        self.ask(third, &back.names, found);
        vec![to, third]
    }

    /// Moves, up to the end; whether it came to it.
    fn moves(
        &mut self,
        asked: Asked,
        start: usize,
        read: &[Vec<u8>],
        expected: u32,
        found: &mut Found,
    ) -> bool {
        let first = |image: &[u8]| is_missing(image, &[], read);
        let ended = self.finish(asked, start, expected, found, &first, &mut |step, found| {
            let after: Vec<&[u8]> = names_of(step.after).collect();
            let missing = first(step.before);
            let prefix = after.len() <= read.len() && after.iter().zip(read).all(|(a, b)| a == b);
            let tests = step.cut && !missing && read.len() > 1;
            found.note(Promise::MovePrefix, prefix, tests);
            found.note(Promise::FirstAddsNone, after.is_empty() || !missing, step.cut && missing);
        });
        if ended {
            let right = self.image(start) == padded(&images::records(&[], read));
            found.note(Promise::Moved, right, read.len() > 1);
        }
        ended
    }

    /// What the way back tells of the records, asked with room and, where that is refused, without.
    fn unlisted(&self, asked: &Asked, source: &[u8], names: &[Vec<u8>], found: &mut Found) {
        let listed: BTreeSet<&[u8]> = names.iter().map(|name| &name[..]).collect();
        let unlisted = names_of(source).filter(|record| !listed.contains(record)).count() as u32;
        let told = |asked: &Asked| match self.call(asked).0 {
            Outcome::Returned(returned) => (returned.number, returned.unlisted),
            _ => (u32::MAX, 0),
        };
        found.note(Promise::Unlisted, told(asked) == (0, unlisted), unlisted > 0);
        let mut without_room = asked.clone();
        without_room.set_room(0);
        let (number, refused) = told(&without_room);
        found.note(Promise::Unlisted, number == 0 || refused == 0, false);
    }
}

/// A target of a way back: erased, begun, or now and then dirty.
fn book_target(rng: &mut Rng, wanted: &[u8]) -> Vec<u8> {
    let mut target = match rng.coin() {
        true => vec![0xFF; SECTOR],
        false => half_done(rng, &[0xFF; SECTOR], wanted),
    };
    if rng.one_in(4) {
        target[rng.pick(&[0, 1, 511, 512, 4_095])] &= !(1 << rng.below(8));
    }
    target
}

/// Whether no bit of a book is 0 that isn't to be.
fn is_subset(book: &[u8], wanted: &[u8]) -> bool {
    book[..BOOK].iter().zip(wanted).all(|(byte, wanted)| wanted & !byte == 0)
}

fn three_sectors(rng: &mut Rng, chip: u8) -> [usize; 3] {
    let [one, other] = two_sectors(rng, chip);
    loop {
        let third = sector(rng, chip);
        if third != one && third != other {
            return [one, other, third];
        }
    }
}
