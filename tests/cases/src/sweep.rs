//! The cases that are gone through one by one: chip numbers, books, lengths of slices, scripts, status
//! writes, states and short frames.

use model::State;

use crate::book::BookSweep;
use crate::case::{Case, Line, On};
use crate::line_sweep::LineSweep;
use crate::script_sweep::ScriptSweep;
use crate::status_sweep::StatusSweep;
use crate::{frames, size, Rng, CHIPS, F25L008A, F25L05PA};

const CHIP_NUMBERS: usize = 256;

const NUMBERS: [u8; 5] = [8, 5, 0, 6, 255];
const LEVELS: [u8; 10] = [0, 1, 2, 3, 4, 5, 6, 7, 8, 255];
const FLAGS: usize = 64;
const LEFTS: [u32; 9] = [0, 1, 7, 8, 1_000_000, 1_000_001, 8_000_000, 8_000_001, u32::MAX];
const NEXTS: [u32; 19] = [
    0,
    1,
    2,
    3,
    0x7_FFFE,
    0x8_0000,
    0x8_0002,
    0xB_FFFE,
    0xC_0000,
    0xC_0002,
    0xD_FFFE,
    0xE_0000,
    0xE_FFFE,
    0xF_0000,
    0xF_0001,
    0xF_FFFE,
    0x10_0000,
    0x10_0002,
    u32::MAX,
];
const STATES: usize = NUMBERS.len() * LEVELS.len() * FLAGS * LEFTS.len() * NEXTS.len();

const OPCODES: usize = 256;
const LENGTHS: usize = 8;

pub struct Sweep {
    at: usize,
    books: BookSweep,
    lines: LineSweep,
    scripts: ScriptSweep,
    status: StatusSweep,
    /// States, and whether WP is high, in which each short frame is tried.
    tried: Vec<(State, bool)>,
}

impl Sweep {
    pub fn new() -> Self {
        let tried = CHIPS
            .into_iter()
            .flat_map(tried)
            .flat_map(|state| [(state, false), (state, true)])
            .collect();
        let (books, lines, scripts) = (BookSweep::new(), LineSweep::new(), ScriptSweep::new());
        Self { at: 0, books, lines, scripts, status: StatusSweep::new(), tried }
    }

    /// How many cases it has.
    pub fn length() -> usize {
        let Self { books, lines, scripts, status, tried, .. } = Self::new();
        let frames = OPCODES * LENGTHS * tried.len();
        let others = books.length() + lines.length() + scripts.length() + status.length();
        CHIP_NUMBERS + others + STATES + frames
    }

    pub fn next(&mut self, rng: &mut Rng) -> Option<Case> {
        let mut at = self.at;
        self.at += 1;
        if at < CHIP_NUMBERS {
            return Some(Case::New { chip: at as u8 });
        }
        at -= CHIP_NUMBERS;
        if at < self.books.length() {
            return Some(self.books.case(at));
        }
        at -= self.books.length();
        if at < self.lines.length() {
            return Some(self.lines.case(at));
        }
        at -= self.lines.length();
        if at < self.scripts.length() {
            return Some(self.scripts.case(at, rng));
        }
        at -= self.scripts.length();
        if at < self.status.length() {
            return Some(self.status.case(at, rng));
        }
        at -= self.status.length();
        if at < STATES {
            return Some(passing(state(at), rng));
        }
        at -= STATES;
        let (state, wp_high) = *self.tried.get(at / (OPCODES * LENGTHS))?;
        let opcode = (at / LENGTHS % OPCODES) as u8;
        let length = at % LENGTHS + 1;
        let address = frames::address(rng, state.chip);
        Some(Case::Frame {
            on: On::new(state, wp_high),
            frame: frames::bytes(rng, opcode, address, length, state.aai),
            line: Line::of(length),
        })
    }
}

/// A chip at rest, a busy one, one in a state that isn't sound, and one with a wrong array.
pub fn chips(chip: u8) -> [On; 4] {
    let rest = State { chip, ..State::default() };
    let busy = State { wel: true, left: 5, ..rest };
    let unsound = State { bp: 8, ..rest };
    let [rest, busy, unsound] = [rest, busy, unsound].map(|state| On::new(state, true));
    let short = On { array: size(chip) - 1, ..rest.clone() };
    [rest, busy, unsound, short]
}

/// The digits of a number, the lowest first, each by its base.
pub fn digits(number: usize) -> impl FnMut(usize) -> usize {
    let mut rest = number;
    move |base| {
        let digit = rest % base;
        rest /= base;
        digit
    }
}

/// The state with this number, in which no status write is pending.
fn state(number: usize) -> State {
    let mut digit = digits(number);
    let flags = digit(FLAGS);
    State {
        left: LEFTS[digit(LEFTS.len())],
        next: NEXTS[digit(NEXTS.len())],
        bp: LEVELS[digit(LEVELS.len())],
        chip: NUMBERS[digit(NUMBERS.len())],
        ..flagged(flags)
    }
}

/// With these flags of six.
pub fn flagged(flags: usize) -> State {
    State {
        tb: flags & 1 != 0,
        bpl: flags & 2 != 0,
        wel: flags & 4 != 0,
        aai: flags & 8 != 0,
        armed: flags & 16 != 0,
        power_down: flags & 32 != 0,
        ..State::default()
    }
}

/// Power-up or time.
pub fn passing(state: State, rng: &mut Rng) -> Case {
    let left = state.left;
    match rng.below(4) {
        0 => Case::PowerUp { state },
        1 => Case::Wait { state, microseconds: left.wrapping_sub(1) },
        2 => Case::Wait { state, microseconds: rng.pick(&[0, left / 2, u32::MAX]) },
        _ => Case::Wait { state, microseconds: left },
    }
}

/// For a chip: at rest in every way and at several levels, busy, in AAI, in power-down, in a status
/// write.
fn tried(chip: u8) -> Vec<State> {
    let new = State { chip, ..State::default() };
    let wel = State { wel: true, ..new };
    let mut states = Vec::new();
    for bp in [0, 1, 4, 7] {
        let armed = State { armed: true, ..wel };
        for state in [new, wel, armed] {
            states.push(State { bp, ..state });
        }
        states.push(State { bp, bpl: true, ..armed });
    }
    states.push(State { left: 5, ..wel });
    if chip == F25L008A {
        let aai = State { aai: true, next: 0x1234, ..wel };
        let top = size(F25L008A) as u32;
        states.push(State { armed: true, ..new });
        states.push(aai);
        states.push(State { left: 7, ..aai });
        states.push(State { next: top - 2, ..aai });
        states.push(State { next: 0x7_FFFE, bp: 4, ..aai });
        states.push(State { next: top, left: 1, ..aai });
    }
    if chip == F25L05PA {
        states.push(State { tb: true, bp: 6, ..wel });
        states.push(State { power_down: true, ..new });
        states.push(State { power_down: true, ..wel });
        let pending = State { pending: true, left: 5_000, ..wel };
        states.push(State { pending_bits: 0xBC, ..pending });
        states.push(State { bp: 7, tb: true, bpl: true, ..pending });
        states.push(State { bp: 5, pending_bits: 0x08, left: 1_000_000, ..pending });
    }
    states
}
