//! Status writes gone through one by one (02, A4): states with one pending, sound and not, and
//! interrupted frames with every mask that matters.

use model::State;

use crate::case::{Case, Line, Mask, On};
use crate::{sweep, Rng, F25L008A, F25L05PA};

const NUMBERS: [u8; 3] = [F25L05PA, F25L008A, 0];
const LEVELS: [u8; 2] = [0, 7];
const FLAGS: usize = 64;
const LEFTS: [u32; 8] = [0, 1, 4_999, 5_000, 5_001, 1_000_000, 1_000_001, 8_000_000];
const BITS: [u8; 10] = [0x00, 0x04, 0x1C, 0x20, 0x80, 0xBC, 0x01, 0x02, 0x40, 0xFF];
const STATES: usize = NUMBERS.len() * LEVELS.len() * FLAGS * LEFTS.len() * BITS.len() * 2;

/// Each byte as pending bits, pending or not, on both chips, busy and not.
const ALL_BITS: usize = 256 * 2 * 2 * 2;

const FRAMES: [&[u8]; 9] = [
    &[0x01, 0x1C],
    &[0x01, 0x00],
    &[0x01, 0x43],
    &[0x01, 0xBC],
    &[0x01, 0xFF],
    &[0x01],
    &[0x01, 0x1C, 0x00],
    &[0x05],
    &[0x05, 0x00],
];

pub struct StatusSweep {
    cuts: Vec<Case>,
}

impl StatusSweep {
    pub fn new() -> Self {
        let mut cuts = Vec::new();
        for chip in [F25L05PA, F25L008A] {
            for state in standing(chip) {
                for on in [false, true].map(|wp_high| On::new(state, wp_high)) {
                    let frames = FRAMES.iter().enumerate();
                    cuts.extend(frames.flat_map(|(at, frame)| cut(&on, frame, at == 0)));
                }
            }
        }
        Self { cuts }
    }

    /// How many cases it has.
    pub fn length(&self) -> usize {
        self.cuts.len() + ALL_BITS + STATES
    }

    pub fn case(&self, number: usize, rng: &mut Rng) -> Case {
        match number.checked_sub(self.cuts.len()) {
            None => self.cuts[number].clone(),
            Some(number) if number < ALL_BITS => sweep::passing(with_bits(number), rng),
            Some(number) => sweep::passing(state(number - ALL_BITS), rng),
        }
    }
}

fn with_bits(number: usize) -> State {
    State {
        chip: if number & 0x100 != 0 { F25L008A } else { F25L05PA },
        wel: true,
        pending: number & 0x200 != 0,
        pending_bits: number as u8,
        left: if number & 0x400 != 0 { 5 } else { 0 },
        ..State::default()
    }
}

fn state(number: usize) -> State {
    let mut digit = sweep::digits(number);
    let flags = digit(FLAGS);
    State {
        pending: digit(2) != 0,
        pending_bits: BITS[digit(BITS.len())],
        left: LEFTS[digit(LEFTS.len())],
        bp: LEVELS[digit(LEVELS.len())],
        chip: NUMBERS[digit(NUMBERS.len())],
        ..sweep::flagged(flags)
    }
}

/// Chips that take a status write and chips that ignore one, each for its reason; those that BPL locks
/// only while WP is low. None has the bits that the frames bring.
fn standing(chip: u8) -> Vec<State> {
    let rest = State { chip, bp: 2, wel: true, ..State::default() };
    let armed = State { armed: true, ..rest };
    let busy = State { left: 5, ..rest };
    let mut states = vec![armed, State { bpl: true, ..armed }, rest, busy];
    if chip == F25L008A {
        let aai = State { aai: true, next: 0x1234, ..rest };
        states.extend([State { wel: false, ..armed }, aai, State { left: 5, ..aai }]);
    } else {
        let pending = State { pending: true, ..busy };
        states.extend([pending, State { pending_bits: 0xBC, left: 5_000, ..pending }]);
        states.extend([State { tb: true, ..armed }, State { power_down: true, ..rest }]);
    }
    states
}

/// Interrupted with no mask, with one byte, which may be each there is, and with more.
fn cut(on: &On, frame: &[u8], each: bool) -> Vec<Case> {
    const BYTES: [u8; 8] = [0x00, 0xFF, 0x01, 0x7F, 0x80, 0x0F, 0xFE, 0xBC];
    let bytes = if each { (0..=255).collect() } else { BYTES.to_vec() };
    let longer = [[0x00, 0x00], [0xFF, 0xFF], [0x00, 0xFF], [0xFF, 0x00], [0x01, 0x01]];
    let masks = bytes.into_iter().map(|byte| vec![byte]);
    let masks = masks.chain(longer.map(Vec::from));
    let masks = masks.chain([vec![], vec![0x00; 3], vec![0xFF; 256]]);
    masks
        .map(|mask| Case::Cut {
            on: on.clone(),
            frame: frame.to_vec(),
            line: Line::of(frame.len()),
            mask: Mask::Bytes(mask),
        })
        .collect()
}
