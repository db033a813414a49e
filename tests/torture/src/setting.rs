//! What a plan is made for.

use std::fmt;
use std::ops::Range;

use cases::literal::{bytes_text, state_text};
use cases::{book, first_protected, plans, states, Rng};
use model::{State, BOOK, LONGEST_REGION};

use crate::naming::Naming;

/// Which call plans.
#[derive(Clone, Copy, Debug, PartialEq, Eq)]
pub enum Kind {
    Update,
    /// The marking of scenes in a book (02, A2).
    Mark,
    /// The marking of a name (02, A7).
    NameMark,
    /// From a book to names.
    NameMove,
    /// And back.
    NameBack,
}

/// What is asked for.
pub enum Ask {
    Update,
    /// The list that is marked in a book.
    Scenes(Vec<u32>),
    Naming(Naming),
}

pub struct Setting {
    pub state: State,
    pub wp_high: bool,
    pub start: usize,
    pub old: Vec<u8>,
    /// What is wanted of these first.
    pub wanted: Vec<u8>,
    pub ask: Ask,
}

impl Setting {
    /// A chip at rest and a wanted image for which a plan is accepted; the old bytes go into the
    /// array.
    pub fn new(rng: &mut Rng, kind: Kind, chip: u8, number: u64, array: &mut [u8]) -> Self {
        let mut setting = match kind {
            Kind::Update => Self::update(rng, chip, number, array),
            Kind::Mark => Self::mark(rng, chip, number, array),
            _ => Self::naming(rng, kind, chip, number),
        };
        if setting.needs_step_1() && !setting.wp_high {
            setting.state.bpl = false;
        }
        setting
    }

    fn update(rng: &mut Rng, chip: u8, number: u64, array: &mut [u8]) -> Self {
        let length = match number % 40 {
            0 => rng.between(1_000, LONGEST_REGION),
            1..=5 => rng.between(1, 300),
            6..=15 => rng.between(1, 80),
            _ => rng.between(1, 24),
        };
        let start = plans::start(rng, chip, length);
        let old = old(rng, &mut array[start..][..length]);
        let wanted = plans::wanted(rng, start, &old);
        let (state, wp_high) = (states::at_rest(rng, chip), rng.coin());
        Self { state, wp_high, start, old, wanted, ask: Ask::Update }
    }

    /// Mostly short lists, now and then one of any sort.
    fn mark(rng: &mut Rng, chip: u8, number: u64, array: &mut [u8]) -> Self {
        let start = book::sector(rng, chip);
        let old = old(rng, &mut array[start..][..BOOK]);
        let scenes = match number % 20 {
            0 => book::scenes(rng, &old),
            _ => book::short_list(rng),
        };
        let wanted = book::marked(&old, &scenes);
        let (state, wp_high) = (states::at_rest(rng, chip), rng.coin());
        Self { state, wp_high, start, old, wanted, ask: Ask::Scenes(scenes) }
    }

    fn naming(rng: &mut Rng, kind: Kind, chip: u8, number: u64) -> Self {
        let (naming, old) = match kind {
            Kind::NameMove => Naming::moving(rng, chip, number),
            Kind::NameBack => Naming::back(rng, chip, number),
            _ => Naming::mark(rng, chip, number),
        };
        let (state, wp_high) = (states::at_rest(rng, chip), rng.coin());
        let (start, wanted) = (naming.target, naming.wanted(&old));
        Self { state, wp_high, start, old, wanted, ask: Ask::Naming(naming) }
    }

    /// What a call wants of the region that holds these bytes now.
    pub fn wanted_of(&self, now: &[u8]) -> Vec<u8> {
        match &self.ask {
            Ask::Naming(naming) => naming.wanted(now),
            _ => self.wanted.clone(),
        }
    }

    /// Another sector that is read, and what it holds.
    pub fn source(&self) -> Option<(usize, &[u8])> {
        match &self.ask {
            Ask::Naming(naming) => naming.source(),
            _ => None,
        }
    }

    pub fn region(&self) -> Range<usize> {
        self.start..self.start + self.old.len()
    }

    pub fn needs_step_1(&self) -> bool {
        let border = first_protected(self.state.chip, self.state.bp);
        let mut bytes = self.old.iter().zip(&self.wanted).enumerate();
        bytes.any(|(index, (old, wanted))| old != wanted && self.start + index >= border)
    }
}

/// Erased, random or with more ones than before, in the array too.
fn old(rng: &mut Rng, old: &mut [u8]) -> Vec<u8> {
    match rng.below(3) {
        0 => old.fill(0xFF),
        1 => rng.fill(old),
        _ => old.iter_mut().for_each(|byte| *byte |= rng.byte()),
    }
    old.to_vec()
}

/// As Rust text that can be pasted.
impl fmt::Display for Setting {
    fn fmt(&self, to: &mut fmt::Formatter<'_>) -> fmt::Result {
        writeln!(to, "{}", state_text(&self.state))?;
        writeln!(to, "let wp_high = {};", self.wp_high)?;
        writeln!(to, "let start = {:#X};", self.start)?;
        writeln!(to, "let old = {};", bytes_text(&self.old))?;
        match &self.ask {
            Ask::Update => write!(to, "let wanted = {};", bytes_text(&self.wanted)),
            Ask::Scenes(scenes) => write!(to, "let scenes: [u32; {}] = {scenes:?};", scenes.len()),
            Ask::Naming(naming) => write!(to, "{naming}"),
        }
    }
}
