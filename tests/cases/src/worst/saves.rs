//! Random saves, of which many come near the limits.

use model::{Planned, State, LONGEST_REGION};

use super::Plan;
use crate::literal::{bytes_text, state_text};
use crate::{plans, size, spoil, states, Rng};

/// What a plan is asked for with, beside array and buffer.
pub struct Save {
    state: State,
    wp_high: bool,
    start: usize,
    wanted: Vec<u8>,
}

/// The saves of a chip. There is one array for all of them: each writes only its own region anew.
pub struct Saves {
    chip: u8,
    rng: Rng,
    array: Vec<u8>,
}

impl Saves {
    pub fn new(chip: u8, seed: u64) -> Self {
        Self { chip, rng: Rng::new(seed), array: vec![0xFF; size(chip)] }
    }

    /// One more; the array gets contents to suit it.
    pub fn draw(&mut self) -> Save {
        let rng = &mut self.rng;
        let (start, length) = region(rng, self.chip);
        let old = &mut self.array[start..][..length];
        match rng.below(4) {
            0 => rng.fill(old),
            _ => old.fill(0xFF),
        }
        let mut save = Save {
            state: state(rng, self.chip),
            wp_high: rng.coin(),
            start,
            wanted: wanted(rng, start, old),
        };
        if rng.one_in(16) {
            save.spoil(rng, old);
        }
        save
    }

    pub fn plan(&self, plan: Plan, save: &Save, buffer: &mut [u8]) -> Planned {
        plan(save.state, save.wp_high, &self.array, save.start, &save.wanted, buffer)
    }

    /// The last one with this room, as Rust text that can be pasted.
    pub fn text(&self, save: &Save, room: usize) -> String {
        let Save { state, wp_high, start, wanted } = save;
        let end = start.saturating_add(wanted.len()).min(self.array.len());
        let from = end.min(*start);
        let old = bytes_text(&self.array[from..end]);
        let lines = [
            state_text(state),
            format!("let mut array = vec![0xFF_u8; {:#X}];", self.array.len()),
            format!("array[{from:#X}..{end:#X}].copy_from_slice(&{old});"),
            format!("let wanted = {};", bytes_text(wanted)),
            format!("let mut buffer = vec![0x5A_u8; {room}];"),
            format!("Library::plan(state, {wp_high}, &array, {start:#X}, &wanted, &mut buffer);"),
        ];
        lines.join("\n")
    }
}

impl Save {
    /// Has it refused, whatever the room. With no 0 in the region it stays as it was.
    fn spoil(&mut self, rng: &mut Rng, old: &[u8]) {
        let chip = self.state.chip;
        match rng.below(3) {
            0 => spoil::region(rng, chip, &mut self.start, &mut self.wanted),
            1 => self.state = spoil::not_at_rest(rng, chip),
            _ => {
                plans::raise(rng, old, &mut self.wanted);
            }
        }
    }
}

/// Mostly long, and from an odd start: so it has the most words and pages.
fn region(rng: &mut Rng, chip: u8) -> (usize, usize) {
    let length = match rng.coin() {
        true => LONGEST_REGION - rng.below(3),
        false => rng.below(LONGEST_REGION + 1),
    };
    let start = plans::start(rng, chip, length);
    let odd = usize::from(!rng.one_in(4));
    ((start | odd).min(size(chip) - length), length)
}

/// At rest, often with all of the chip protected, now and then with BPL 1.
fn state(rng: &mut Rng, chip: u8) -> State {
    let state = states::at_rest(rng, chip);
    State { bp: if rng.coin() { 7 } else { state.bp }, bpl: rng.one_in(4), ..state }
}

/// The old image with bytes cleared in patterns that make many words, runs or pages.
fn wanted(rng: &mut Rng, start: usize, old: &[u8]) -> Vec<u8> {
    let cleared = match rng.below(4) {
        0 => rng.byte(),
        1 => !(1 << rng.below(8)),
        _ => 0x00,
    };
    let style = rng.below(16);
    let (phase, period, rare) = (rng.below(2), rng.between(2, 9), rng.between(1, 300));
    let last = old.len().saturating_sub(1);
    let mut wanted = old.to_vec();
    for (index, byte) in wanted.iter_mut().enumerate() {
        let address = start + index;
        let clears = match style {
            0..=4 => true,
            5..=8 => address / 2 % 2 == phase,
            9 => address % 2 == phase,
            10 => matches!(address % 256, 0 | 255) || index == 0 || index == last,
            11 => address % 256 == rare % 256,
            12 => !(address / 2).is_multiple_of(period),
            13 => rng.one_in(rare),
            14 => !rng.one_in(rare),
            _ => index == last,
        };
        if clears {
            *byte &= cleared;
        }
    }
    wanted
}
