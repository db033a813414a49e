//! Histories: marks of several names and moves into one sector, each plan finished or cut, powered
//! up, and so on, with other names in between.

use std::collections::BTreeSet;
use std::fmt::Write;

use model::{names_of, Calls, SECTOR};

use super::books::NamedBook;
use super::calls::Names;
use super::case::{Asked, Case, Outcome};
use super::drawn::list;
use super::images::{self, is_missing, padded, used};
use super::list_items::two_sectors;
use super::power::{Cut, Mask, Powered};
use super::promises::{Found, Promise};
use super::{FULL, MORE_ROOM, ROOMY};
use crate::case::On;
use crate::literal::{bytes_text, state_text};
use crate::salvage::text;
use crate::{states, Rng};

/// How many calls a history has.
pub const CALLS: usize = 20;
/// Two plans, a cut in either, and the last call, which has nothing left to do.
const MOST_CALLS: usize = 5;

/// Histories on a chip of somebody who answers the calls.
pub struct Histories {
    rng: Rng,
    names: Names,
    chip: Powered,
    /// The history as text, for when it fails.
    log: String,
}

/// What a history came to.
#[derive(Default)]
pub struct Came {
    pub found: Found,
    /// How many plans were finished, how many cut between records, and inside one.
    pub finished: u64,
    pub between: u64,
    pub inside: u64,
    /// How many calls were refused, the target needing an erase or being full.
    pub refused: u64,
    pub moves: u64,
}

/// One history while it lasts.
struct History {
    /// Where the book is, and where the names are.
    book: usize,
    sector: usize,
    /// All names that were read at the start or asked for since.
    known: BTreeSet<Vec<u8>>,
    pool: Vec<Vec<u8>>,
    begun: Option<Begun>,
}

/// What isn't yet at its end.
#[derive(Clone)]
enum Begun {
    /// The marking of a name, and the room that has to be enough for it.
    Mark(Vec<u8>, usize),
    /// A move of a list with these names read.
    Move(Vec<u8>, Vec<Vec<u8>>),
}

impl Histories {
    /// `C` runs what the calls plan.
    pub fn new<C: Calls>(names: Names, chip: u8, seed: u64) -> Self {
        let chip = Powered::new::<C>(chip);
        Self { rng: Rng::new(seed), names, chip, log: String::new() }
    }

    /// One more history.
    pub fn history(&mut self) -> Came {
        let mut came = Came::default();
        let mut history = self.begin();
        let staged = if self.rng.one_in(3) { self.stage(&mut history, &mut came) } else { 0 };
        if staged == 0 && self.rng.one_in(3) {
            self.begin_move(&mut history, &mut came);
        }
        for _ in staged..CALLS {
            match history.begun.clone().filter(|_| !self.rng.one_in(4)) {
                Some(Begun::Mark(name, room)) => {
                    self.mark(&mut history, name, room, true, &mut came)
                }
                Some(Begun::Move(list, read)) => self.moves(&mut history, list, read, &mut came),
                None if self.rng.one_in(12) => self.begin_move(&mut history, &mut came),
                None => {
                    let name = self.rng.one_of(&history.pool).clone();
                    self.mark(&mut history, name, ROOMY, false, &mut came);
                }
            }
        }
        if let Some(Begun::Mark(name, room)) = history.begun.take() {
            self.mark_to_the_end(&history, &name, room, &mut came);
        }
        let marked = came.between + came.inside > 3 && used(self.image(history.sector)) > 0;
        self.check_made_up(&history, marked, &mut came);
        let rest = self.chip.array.chunks(SECTOR).enumerate();
        let mut others =
            rest.filter(|(number, _)| ![history.book, history.sector].contains(&(number * SECTOR)));
        let erased = others.all(|(_, sector)| sector.iter().all(|byte| *byte == 0xFF));
        came.found.note(Promise::RestKept, erased, true);
        for start in [history.book, history.sector] {
            self.chip.array[start..][..SECTOR].fill(0xFF);
        }
        came
    }

    /// The last history as text.
    pub fn text(&self) -> &str {
        &self.log
    }

    fn begin(&mut self) -> History {
        let chip = self.chip.state.chip;
        let pool = pool(&mut self.rng);
        let [book, sector] = two_sectors(&mut self.rng, chip);
        let image = match self.rng.below(4) {
            0 => images::sector(&mut self.rng, &pool[0]),
            1 => padded(&images::records(&[], &pool[..2])),
            _ => vec![0xFF; SECTOR],
        };
        self.chip.array[sector..][..SECTOR].copy_from_slice(&image);
        self.chip.state = states::at_rest(&mut self.rng, chip);
        self.chip.state.bpl = false;
        self.chip.wp_high = self.rng.coin();
        self.log.clear();
        let (state, image_text) = (state_text(&self.chip.state), bytes_text(&image[..256]));
        self.note(format_args!("{state}\nsector {sector:#X}, first bytes {image_text}"));
        let known = names_of(&image).map(<[u8]>::to_vec).collect();
        History { book, sector, known, pool, begun: None }
    }

    /// A cut leaves the end of a name, which is a mark, where the record of a shorter one would end;
    /// that is marked, and then a third, cut again: how many calls it took.
    fn stage(&mut self, history: &mut History, came: &mut Came) -> usize {
        let length = self.rng.between(1, 3);
        let [front, shorter, third] = [0; 3].map(|_| text(&mut self.rng, length));
        let marked = [&front[..], b"NR"].concat();
        let behind_front =
            |script: &[u8]| Cut::inside_first_program(script, Mask::AllBut(1 + length));
        let but_one_bit = |script: &[u8]| Cut::inside_first_program(script, Mask::AllButOneBit);
        self.mark_and_run(history, marked, ROOMY, false, came, behind_front);
        for _ in 0..2 {
            self.mark_and_run(history, shorter.clone(), ROOMY, false, came, |_| Cut::Never);
        }
        self.mark_and_run(history, third, ROOMY, false, came, but_one_bit);
        4
    }

    /// Marks a name, finished or cut anywhere.
    fn mark(
        &mut self,
        history: &mut History,
        name: Vec<u8>,
        room: usize,
        again: bool,
        came: &mut Came,
    ) {
        let mut draw = Rng::new(self.rng.word());
        self.mark_and_run(history, name, room, again, came, |script| Cut::maybe(&mut draw, script));
    }

    fn mark_and_run(
        &mut self,
        history: &mut History,
        name: Vec<u8>,
        room: usize,
        again: bool,
        came: &mut Came,
        cut: impl FnOnce(&[u8]) -> Cut,
    ) {
        history.known.insert(name.clone());
        let asked = Asked::Mark { sector: history.sector, name: name.clone(), room };
        let before = self.image(history.sector).to_vec();
        let front = &before[..used(&before)];
        let missing = is_missing(&before, front, std::slice::from_ref(&name));
        let there = names_of(&before).any(|record| record == name);
        let called = self.call(&asked, again, came, cut);
        self.check_made_up(history, false, came);
        // Refused by 8 it leaves what was begun as it was.
        let Some((script, cut)) = called else { return };
        history.begun = None;
        let after: Vec<&[u8]> = names_of(self.image(history.sector)).collect();
        let old: Vec<&[u8]> = names_of(&before).collect();
        let kept = after.len() >= old.len() && after[..old.len()] == old[..];
        let tests = cut && !old.is_empty();
        let found = &mut came.found;
        found.note(Promise::NoneLost, kept, tests);
        let added = after.split_last() == Some((&&name[..], &old[..]));
        found.note(Promise::MarkKeepsNames, after == old || added, tests && !missing);
        found.note(Promise::FirstAddsNone, after == old || !missing, cut && missing);
        found.note(Promise::PresentKept, script == 0 || !there, there);
        if script > 0 {
            // With 22 bytes more room only the same plan has to fit, the first or the second.
            let front = &before[..used(&before)];
            let image = self.image(history.sector);
            let same = is_missing(image, front, std::slice::from_ref(&name)) == missing;
            history.begun = Some(Begun::Mark(name, if same { script + MORE_ROOM } else { ROOMY }));
        }
    }

    /// Moves some of the names, from a book made for it.
    fn begin_move(&mut self, history: &mut History, came: &mut Came) {
        let named = NamedBook {
            read: history.pool.iter().map(|_| self.rng.coin()).collect(),
            names: history.pool.clone(),
        };
        let book = named.sector(&mut self.rng);
        self.chip.array[history.book..][..SECTOR].copy_from_slice(&book);
        self.moves(history, list(&named.names), named.read_names(), came);
    }

    /// Moves, finished or cut anywhere.
    fn moves(&mut self, history: &mut History, list: Vec<u8>, read: Vec<Vec<u8>>, came: &mut Came) {
        history.known.extend(read.iter().cloned());
        let (book, sector) = (history.book, history.sector);
        let missing = is_missing(self.image(sector), &[], &read);
        let asked = Asked::Move { book, sector, list: list.clone(), room: ROOMY };
        let mut draw = Rng::new(self.rng.word());
        if let Some((script, cut)) =
            self.call(&asked, false, came, |script| Cut::maybe(&mut draw, script))
        {
            came.moves += 1;
            let after: Vec<&[u8]> = names_of(self.image(sector)).collect();
            let prefix = after.len() <= read.len() && after.iter().zip(&read).all(|(a, b)| a == b);
            came.found.note(Promise::MovePrefix, prefix, cut && !missing && read.len() > 1);
            let none = after.is_empty() || !missing;
            came.found.note(Promise::FirstAddsNone, none, cut && missing);
            history.begun = (script > 0).then_some(Begun::Move(list, read));
        }
        self.check_made_up(history, false, came);
    }

    /// The name is marked again until it is read.
    fn mark_to_the_end(&mut self, history: &History, name: &[u8], room: usize, came: &mut Came) {
        let before = self.image(history.sector).to_vec();
        let there = names_of(&before).any(|record| record == name);
        let front = &before[..used(&before)];
        let whole = padded(&images::records(front, &[name.to_vec()]));
        let mut room = room;
        for _ in 0..MOST_CALLS {
            let asked = Asked::Mark { sector: history.sector, name: name.to_vec(), room };
            let (outcome, script) = self.ask(&asked);
            came.found.note(Promise::AgainAccepted, outcome.number() == 0, true);
            if outcome.number() != 0 || script.is_empty() {
                let right = there || self.image(history.sector) == whole;
                came.found.note(Promise::Marked, right && outcome.number() == 0, !there);
                return;
            }
            let ran = self.chip.run(&mut self.rng, &script, Cut::Never);
            came.found.note(Promise::Accepted, ran.is_ok(), false);
            room = ROOMY;
        }
        came.found.note(Promise::Marked, false, false);
    }

    /// Calls, and runs what is planned, whole or cut; its length, and whether it was cut. Nothing
    /// where the call is refused, which behind a cut it must not be.
    fn call(
        &mut self,
        asked: &Asked,
        again: bool,
        came: &mut Came,
        cut: impl FnOnce(&[u8]) -> Cut,
    ) -> Option<(usize, bool)> {
        let (outcome, script) = self.ask(asked);
        let number = outcome.number();
        came.found.note(Promise::AgainAccepted, !again || number == 0, again);
        came.found.note(Promise::Accepted, matches!(number, 0 | 8 | FULL), number == 0);
        if number != 0 {
            came.refused += 1;
            return None;
        }
        let cut = cut(&script);
        *match cut {
            Cut::Never => &mut came.finished,
            Cut::Before(_) => &mut came.between,
            Cut::Inside(..) => &mut came.inside,
        } += 1;
        self.note(format_args!("  {cut:?}"));
        let ran = self.chip.run(&mut self.rng, &script, cut);
        came.found.note(Promise::Accepted, ran.is_ok(), false);
        Some((script.len(), cut != Cut::Never))
    }

    /// Somebody's answer, and the script.
    fn ask(&mut self, asked: &Asked) -> (Outcome, Vec<u8>) {
        let on = On::new(self.chip.state, self.chip.wp_high);
        let case = Case { on, asked: asked.clone() };
        let mut buffer = vec![0; case.room()];
        let outcome = case.run(&self.names, &self.chip.array, &mut buffer);
        // Only a wrong copy tells of more than there is room for.
        buffer.truncate(outcome.length());
        let given = match asked {
            Asked::IsRead { name, .. } | Asked::Mark { name, .. } => name,
            Asked::Move { list, .. } | Asked::Back { list, .. } => list,
        };
        let given = String::from_utf8_lossy(given).into_owned();
        self.note(format_args!("{} {given:?}: {}", case.call(), outcome.number()));
        (outcome, buffer)
    }

    /// A name that is read was read at the start or asked for, and is told so.
    fn check_made_up(&self, history: &History, tests: bool, came: &mut Came) {
        let mut names = names_of(self.image(history.sector));
        let none = names.all(|name| history.known.contains(name));
        came.found.note(Promise::NoneMadeUp, none, tests);
        for name in &history.pool {
            let (state, array) = (self.chip.state, &self.chip.array);
            let told = (self.names.is_read)(state, array, history.sector, name);
            let read = names_of(self.image(history.sector)).any(|record| record == name);
            let right = (told.number, told.value) == (0, read.into());
            came.found.note(Promise::Told, right, read);
        }
    }

    fn image(&self, start: usize) -> &[u8] {
        &self.chip.array[start..][..SECTOR]
    }

    fn note(&mut self, line: std::fmt::Arguments) {
        writeln!(self.log, "{line}").expect("a string takes all text");
    }
}

/// A few names, short ones, and such as leave a mark where a shorter one's record would end if they
/// are cut: the name that is asked for next would be written behind it.
fn pool(rng: &mut Rng) -> Vec<Vec<u8>> {
    let mut pool: BTreeSet<Vec<u8>> = BTreeSet::new();
    let many = rng.between(3, 7);
    while pool.len() < many {
        let length = rng.between(1, 3);
        let mut name = text(rng, length);
        if rng.coin() {
            name.extend(b"NR");
        }
        if rng.one_in(6) {
            name.resize(rng.between(name.len(), 32), b'Q');
        }
        pool.insert(name);
    }
    let mut pool: Vec<Vec<u8>> = pool.into_iter().collect();
    let turn = rng.below(many);
    pool.rotate_left(turn);
    pool
}
