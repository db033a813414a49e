//! Random marks, moves and ways back, run whole or cut and called again to their end, on which the
//! promises are tried.

use model::{names_of, Calls, SECTOR};

use super::calls::Names;
use super::case::{Asked, Case, Outcome};
use super::drawn::{like, name};
use super::images::{self, is_missing, needs_erase, padded, used};
use super::power::{Cut, Powered};
use super::promises::{Found, Promise};
use super::{FULL, MORE_ROOM, ROOMY};
use crate::book::sector;
use crate::case::On;
use crate::salvage::HEAD;
use crate::{first_protected, states, Rng};

/// No call has to be made so often, with three cuts at most.
const MOST_CALLS: usize = 8;
const MOST_CUTS: usize = 3;

/// Tries promises on a chip of somebody who answers the calls. There is one array for all trials:
/// each writes only its own sectors anew.
pub struct Trials {
    pub(super) rng: Rng,
    pub(super) names: Names,
    pub(super) chip: Powered,
    /// The array as the trial should leave it, but for its target.
    kept: Vec<u8>,
    /// The sectors that the last trial began with.
    began: Vec<(usize, Vec<u8>)>,
    /// What was asked first in it.
    first: Option<Case>,
}

/// What a run did to the target.
pub(super) struct Step<'a> {
    pub before: &'a [u8],
    pub after: &'a [u8],
    pub cut: bool,
}

impl Trials {
    /// `C` runs what the calls plan.
    pub fn new<C: Calls>(names: Names, chip: u8, seed: u64) -> Self {
        let mut rng = Rng::new(seed);
        let mut chip = Powered::new::<C>(chip);
        rng.fill(&mut chip.array);
        let kept = chip.array.clone();
        Self { rng, names, chip, kept, began: Vec::new(), first: None }
    }

    /// One more trial.
    pub fn trial(&mut self) -> Found {
        let mut found = Found::default();
        self.began.clear();
        self.first = None;
        let target = match self.rng.below(4) {
            0 | 1 => self.mark(&mut found),
            2 => self.there_and_back(&mut found),
            _ => self.back_and_there(&mut found),
        };
        for start in target {
            let image = self.image(start).to_vec();
            self.kept[start..][..SECTOR].copy_from_slice(&image);
        }
        let kept = self.chip.array == self.kept;
        found.note(Promise::RestKept, kept, true);
        if !kept {
            self.chip.array.copy_from_slice(&self.kept);
        }
        found
    }

    /// How the last trial began, as Rust text that can be pasted.
    pub fn text(&self) -> String {
        let began = self.began.iter().map(|(start, image)| (*start, &image[..]));
        self.first.as_ref().map_or(String::new(), |case| case.text(began))
    }

    /// Marks a name; gives the targets back, as do the others.
    fn mark(&mut self, found: &mut Found) -> Vec<usize> {
        let name = name(&mut self.rng);
        let start = sector(&mut self.rng, self.chip.state.chip);
        let image = images::sector(&mut self.rng, &name);
        self.put(start, &image);
        self.rest(&[start]);
        let there = names_of(&image).any(|record| record == name);
        let front = image[..used(&image)].to_vec();
        let new = [name.clone()];
        let expected = match there {
            true => 0,
            false => expected(&image, &front, &new),
        };
        let asked = Asked::Mark { sector: start, name: name.clone(), room: ROOMY };
        let first = |image: &[u8]| is_missing(image, &front, &new);
        let ended = self.finish(asked, start, expected, found, &first, &mut |step, found| {
            let before: Vec<&[u8]> = names_of(step.before).collect();
            let after: Vec<&[u8]> = names_of(step.after).collect();
            let added = after.split_last() == Some((&&name[..], &before[..]));
            let missing = first(step.before);
            let tests = step.cut && !missing && !before.is_empty();
            found.note(Promise::MarkKeepsNames, after == before || added, tests);
            found.note(Promise::FirstAddsNone, after == before || !missing, step.cut && missing);
            found.note(Promise::PresentKept, !there, there);
        });
        if ended && there {
            let kept = self.image(start) == image;
            found.note(Promise::PresentKept, kept, image != padded(&front));
        } else if ended {
            let right = self.image(start) == padded(&images::records(&front, &new));
            found.note(Promise::Marked, right, !front.is_empty());
        }
        self.ask(start, &[name], found);
        vec![start]
    }

    /// Calls, runs, and calls again until nothing is left to do, with cuts on the way; `each` sees
    /// every run. Whether it came to the end. With 22 bytes more room only the same plan has to fit,
    /// the first or the second.
    pub(super) fn finish(
        &mut self,
        mut asked: Asked,
        start: usize,
        expected: u32,
        found: &mut Found,
        is_first: &dyn Fn(&[u8]) -> bool,
        each: &mut dyn FnMut(&Step, &mut Found),
    ) -> bool {
        let on = On::new(self.chip.state, self.chip.wp_high);
        self.first.get_or_insert(Case { on, asked: asked.clone() });
        let mut cuts = 0;
        for turn in 0..MOST_CALLS {
            let (outcome, script) = self.call(&asked);
            let number = outcome.number();
            if turn == 0 {
                found.note(Promise::Accepted, (number == 0) == (expected == 0), expected == 0);
                let full = expected == FULL;
                found.note(Promise::FullExactly, (number == FULL) == full, full);
            } else {
                found.note(Promise::AgainAccepted, number == 0, cuts > 0);
            }
            if number != 0 || script.is_empty() {
                return number == 0;
            }
            let cut =
                if cuts < MOST_CUTS { Cut::maybe(&mut self.rng, &script) } else { Cut::Never };
            cuts += usize::from(cut != Cut::Never);
            let before = self.image(start).to_vec();
            let ran = self.chip.run(&mut self.rng, &script, cut);
            found.note(Promise::Accepted, ran.is_ok(), false);
            let after = self.image(start);
            each(&Step { before: &before, after, cut: cut != Cut::Never }, found);
            let same = is_first(&before) == is_first(after);
            asked.set_room(if same { script.len() + MORE_ROOM } else { ROOMY });
        }
        found.note(Promise::AgainAccepted, false, false);
        false
    }

    /// Somebody's answer, and the script.
    pub(super) fn call(&self, asked: &Asked) -> (Outcome, Vec<u8>) {
        let on = On::new(self.chip.state, self.chip.wp_high);
        let case = Case { on, asked: asked.clone() };
        let mut buffer = vec![0; case.room()];
        let outcome = case.run(&self.names, &self.chip.array, &mut buffer);
        // Only a wrong copy tells of more than there is room for.
        buffer.truncate(outcome.length());
        (outcome, buffer)
    }

    /// Whether the names, and such as are much alike, are told to be read exactly if they are.
    pub(super) fn ask(&mut self, start: usize, names: &[Vec<u8>], found: &mut Found) {
        const ASKED: usize = 6;
        for _ in 0..ASKED.min(names.len()) {
            let name = self.rng.one_of(names).clone();
            for name in [like(&mut self.rng, &name), name] {
                let read = names_of(self.image(start)).any(|record| record == name);
                let told = (self.names.is_read)(self.chip.state, &self.chip.array, start, &name);
                let right = (told.number, told.value) == (0, read.into());
                found.note(Promise::Told, right, read);
            }
        }
    }

    pub(super) fn image(&self, start: usize) -> &[u8] {
        &self.chip.array[start..][..SECTOR]
    }

    pub(super) fn put(&mut self, start: usize, image: &[u8]) {
        self.chip.array[start..][..SECTOR].copy_from_slice(image);
        self.kept[start..][..SECTOR].copy_from_slice(image);
        self.began.push((start, image.to_vec()));
    }

    /// At rest, and not locked where that matters to these targets.
    pub(super) fn rest(&mut self, targets: &[usize]) {
        let chip = self.chip.state.chip;
        self.chip.state = states::at_rest(&mut self.rng, chip);
        self.chip.wp_high = self.rng.coin();
        let border = first_protected(chip, self.chip.state.bp);
        if !self.chip.wp_high && targets.iter().any(|start| *start >= border) {
            self.chip.state.bpl = false;
        }
    }
}

/// The refusal that holds of a target and records, if one does.
pub(super) fn expected(image: &[u8], front: &[u8], names: &[Vec<u8>]) -> u32 {
    let needed: usize = front.len() + names.iter().map(|name| HEAD + name.len()).sum::<usize>();
    if needed > SECTOR {
        FULL
    } else if needs_erase(image, &images::wanted(image, front, names)) {
        8
    } else {
        0
    }
}
