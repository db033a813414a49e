//! Refusals planted in cases.

use model::{State, LONGEST_REGION, LONGEST_SCRIPT};

use crate::case::{Line, On};
use crate::{malform, pending, scripts, size, states, Rng, F25L008A, F25L05PA};

/// A set of refusal numbers.
#[derive(Clone, Copy, Default)]
pub struct Planted(u32);

impl Planted {
    pub fn plant(&mut self, number: u32) {
        self.0 |= 1 << number;
    }

    pub fn numbers(self) -> impl Iterator<Item = u32> {
        (1..=20).filter(move |number| self.0 >> number & 1 == 1)
    }
}

/// Maybe an unsound state, maybe an array of the wrong length.
pub fn chip(rng: &mut Rng, on: &mut On, planted: &mut Planted) {
    if rng.one_in(4) {
        planted.plant(1);
        *on = On::new(states::unsound(rng), on.wp_high);
    }
    if rng.one_in(4) {
        planted.plant(2);
        match rng.below(3) {
            0 => {
                on.array_of = if on.state.chip == F25L008A { F25L05PA } else { F25L008A };
                on.array = size(on.array_of);
            }
            1 => on.array += 1,
            _ => on.array = rng.pick(&[0, 1, 65_535, on.array - 1]),
        }
    }
}

/// A region too long, or one that passes the chip's end.
pub fn region(rng: &mut Rng, chip: u8, start: &mut usize, wanted: &mut Vec<u8>) {
    match rng.below(5) {
        0 => {
            wanted.resize(LONGEST_REGION + rng.between(1, 3), 0);
            *start = (*start).min(size(chip) - wanted.len());
        }
        1 => *start = size(chip) - wanted.len() + rng.between(1, 2),
        2 => *start = usize::MAX - rng.below(2 * wanted.len() + 1),
        3 => *start = size(chip) + 1 + rng.below(70_000),
        _ => {
            // One byte at the chip's very end; none would be good.
            *start = size(chip);
            wanted.resize(1, 0xFF);
        }
    }
}

/// Less room than a script of this length takes, which is above 0.
pub fn room(rng: &mut Rng, length: usize) -> usize {
    if rng.coin() {
        length - 1
    } else {
        rng.below(length)
    }
}

/// Busy, in AAI or in power-down; on the 05PA often in a status write.
pub fn not_at_rest(rng: &mut Rng, chip: u8) -> State {
    match rng.below(3) {
        0 => states::busy(rng, chip),
        1 if chip == F25L05PA => pending::state(rng),
        _ if chip == F25L05PA => states::in_power_down(rng),
        _ => {
            let busy = rng.coin();
            states::in_aai(rng, busy)
        }
    }
}

/// Maybe a bad record and another before it, maybe too many bytes.
pub fn script(rng: &mut Rng, script: &mut Vec<u8>, planted: &mut Planted) {
    if rng.coin() {
        planted.plant(malform::somewhere(rng, script));
        let earlier = if rng.coin() { malform::earlier(rng, script) } else { None };
        earlier.into_iter().for_each(|number| planted.plant(number));
    }
    if rng.one_in(4) {
        planted.plant(11);
        lengthen(rng, script);
    }
}

/// Makes a script longer than scripts may be: good records come in front of it, so that a bad
/// one in it stays bad. Now and then it is all zeros.
pub fn lengthen(rng: &mut Rng, script: &mut Vec<u8>) {
    if rng.one_in(4) {
        script.clear();
        script.resize(LONGEST_SCRIPT + rng.pick(&[1, 2, 1_000]), 0);
    }
    let mut front = Vec::new();
    while front.len() + script.len() <= LONGEST_SCRIPT {
        scripts::put_wait(&mut front, 7);
    }
    script.splice(..0, front);
}

/// Wrong lengths of the two slices in which so many bytes are shown: of either alone, the second being
/// left out at times, or of both, each its own or both the same.
pub fn line(rng: &mut Rng, length: usize) -> Line {
    let (output, driven) = (other_length(rng, length), other_length(rng, length));
    match rng.below(5) {
        0 => Line { output, driven: length },
        1 => Line { output: length, driven },
        2 if length > 0 => Line { output: length, driven: 0 },
        3 => Line::of(output),
        _ => Line { output, driven },
    }
}

/// A wrong length instead of this right one.
pub fn other_length(rng: &mut Rng, length: usize) -> usize {
    match rng.below(4) {
        0 => length + 1,
        1 if length > 0 => length - 1,
        2 if length > 0 => rng.below(length),
        _ => length + rng.between(1, 300),
    }
}
