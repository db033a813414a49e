//! Interrupted frames: a status write that takes time is cut with one byte, 00 or FF, all others as
//! before.

use model::{Calls, State};

use crate::chip::Chip;
use crate::literal::bytes_text;
use crate::{F25L008A, F25L05PA};

/// How a chip stands, whether WP is high, and a frame that is cut.
type Cut = (State, bool, &'static [u8]);

const NONE: State = State {
    chip: F25L05PA,
    bp: 2,
    tb: true,
    bpl: false,
    wel: false,
    aai: false,
    armed: false,
    power_down: false,
    pending: false,
    pending_bits: 0,
    left: 0,
    next: 0,
};
const WEL: State = State { wel: true, ..NONE };
const ARMED: State = State { armed: true, ..WEL };
const BUSY: State = State { left: 5, ..WEL };
const PENDING: State = State { pending: true, pending_bits: 0x1C, ..BUSY };
const WEL_008A: State = State { chip: F25L008A, tb: false, ..WEL };
const ARMED_008A: State = State { armed: true, ..WEL_008A };
const IN_AAI: State = State { aai: true, next: 2, ..WEL_008A };

/// Taken, and each byte brings other bits.
const TAKEN: [Cut; 6] = [
    (ARMED, true, &[0x01, 0x00]),
    (ARMED, false, &[0x01, 0x1C]),
    (ARMED, true, &[0x01, 0xFF]),
    (ARMED, false, &[0x01, 0x43]),
    (ARMED, true, &[0x01, 0x28]),
    (State { bpl: true, ..ARMED }, true, &[0x01, 0x04]),
];

/// Ignored, of the 008A, or no status write: cut with no mask.
const OTHERS: [Cut; 19] = [
    // Ignored: not armed, locked, a wrong length, busy, in power-down.
    (NONE, true, &[0x01, 0x1C]),
    (WEL, true, &[0x01, 0x1C]),
    (State { bpl: true, ..ARMED }, false, &[0x01, 0x1C]),
    (ARMED, true, &[0x01]),
    (ARMED, true, &[0x01, 0x1C, 0x00]),
    (BUSY, true, &[0x01, 0x1C]),
    (PENDING, true, &[0x01, 0x00]),
    (State { power_down: true, ..WEL }, true, &[0x01, 0x1C]),
    // While one runs.
    (PENDING, true, &[0x05]),
    (PENDING, true, &[0x05, 0x00]),
    (PENDING, true, &[0x06]),
    // Of the 008A: taken and ignored.
    (ARMED_008A, true, &[0x01, 0x1C]),
    (State { wel: false, ..ARMED_008A }, false, &[0x01, 0x00]),
    (WEL_008A, true, &[0x01, 0x1C]),
    (State { bpl: true, ..ARMED_008A }, false, &[0x01, 0x1C]),
    (ARMED_008A, true, &[0x01]),
    (State { left: 5, ..WEL_008A }, true, &[0x01, 0x1C]),
    (IN_AAI, true, &[0x01, 0x1C]),
    (State { left: 5, ..IN_AAI }, true, &[0x01, 0x1C]),
];

/// The frames that are cut otherwise.
pub fn failing<C: Calls>() -> Vec<String> {
    let taken = TAKEN.iter().filter(|cut| !is_cut_by_its_byte::<C>(cut));
    let others = OTHERS.iter().filter(|cut| !is_cut_by_none::<C>(cut));
    let text = |(state, wp_high, frame): &Cut| {
        format!("cut with WP high {wp_high}, {}: {state:?}", bytes_text(frame))
    };
    taken.chain(others).map(text).collect()
}

/// Old bits by 00, new ones by FF, and 5 by all else; the array is left alone.
fn is_cut_by_its_byte<C: Calls>(cut: &Cut) -> bool {
    let (old, wp_high, frame) = *cut;
    let byte = frame[1];
    let rest = State { wel: false, armed: false, ..old };
    let (bp, tb, bpl) = (byte >> 2 & 7, byte & 0x20 != 0, byte & 0x80 != 0);
    let mut others = (0x01..=0xFE).map(|byte| vec![byte]).chain([vec![]]).chain(longer());
    let mut chip = standing::<C>(old, wp_high);
    let mut cut = |mask: &[u8]| answered(&mut chip, old, frame, mask);
    cut(&[0x00]) == (0, rest)
        && cut(&[0xFF]) == (0, State { bp, tb, bpl, ..rest })
        && others.all(|mask| cut(&mask) == (5, old))
        && chip.is_erased()
}

/// As power-up leaves the chip, and 5 by any mask that isn't empty; the array is left alone.
fn is_cut_by_none<C: Calls>(cut: &Cut) -> bool {
    let (state, wp_high, frame) = *cut;
    // Of the 008A a taken one changes nothing that power-up leaves.
    let end = C::power_up(state).state;
    let mut others = (0x00..=0xFF).map(|byte| vec![byte]).chain(longer());
    let mut chip = standing::<C>(state, wp_high);
    let mut cut = |mask: &[u8]| answered(&mut chip, state, frame, mask);
    cut(&[]) == (0, end) && others.all(|mask| cut(&mask) == (5, state)) && chip.is_erased()
}

fn longer() -> impl Iterator<Item = Vec<u8>> {
    let pairs = [[0x00, 0x00], [0xFF, 0xFF], [0x00, 0xFF], [0xFF, 0x00], [0x01, 0x0F]];
    pairs.map(Vec::from).into_iter().chain([vec![0x00; 3], vec![0xFF; 256]])
}

/// The number, and the state in which the cut leaves the chip.
fn answered<C: Calls>(chip: &mut Chip<C>, state: State, frame: &[u8], mask: &[u8]) -> (u32, State) {
    chip.state = state;
    (chip.cut(frame, mask), chip.state)
}

fn standing<C: Calls>(state: State, wp_high: bool) -> Chip<C> {
    let mut chip = Chip::new(state.chip);
    chip.wp_high = wp_high;
    chip
}
