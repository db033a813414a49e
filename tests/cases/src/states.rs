//! Sound and unsound states.

use model::{Calls, Model, State};

use crate::{first_protected, pending, Rng, BORDERS, CHIPS, F25L008A, F25L05PA};

/// At rest: not busy, not in AAI, not in power-down; any protection, WEL and armed as they may.
pub fn at_rest(rng: &mut Rng, chip: u8) -> State {
    let wel = rng.coin();
    State {
        chip,
        bp: rng.below(8) as u8,
        tb: chip == F25L05PA && rng.coin(),
        bpl: rng.coin(),
        wel,
        armed: rng.coin() && (wel || chip == F25L008A),
        ..State::default()
    }
}

/// Busy, on the 05PA one time in three with a status write.
pub fn busy(rng: &mut Rng, chip: u8) -> State {
    if chip == F25L05PA && rng.one_in(3) {
        return pending::state(rng);
    }
    let most = longest(chip);
    let left = match rng.below(3) {
        0 => rng.pick(&[1, 6, 7, 8, 1_499, 1_500, 89_999, 90_000, 750_000, most - 1, most]),
        1 => rng.between(1, 2_000) as u32,
        _ => rng.between(1, most as usize) as u32,
    };
    State { wel: true, armed: false, left, ..at_rest(rng, chip) }
}

/// In AAI, on an 008A that leaves something unprotected; busy or not.
pub fn in_aai(rng: &mut Rng, busy: bool) -> State {
    let bp = rng.below(5) as u8;
    let border = first_protected(F25L008A, bp);
    let highest = if busy { border } else { border - 2 };
    let next = match rng.below(4) {
        0 => highest - 2 * rng.below(4),
        1 => 2 + 2 * rng.below(4),
        2 => 0x1200 + 2 * rng.below(64),
        _ => rng.between(1, highest / 2) * 2,
    };
    State {
        bp,
        wel: true,
        aai: true,
        armed: false,
        left: if busy { rng.between(1, 7) as u32 } else { 0 },
        next: next as u32,
        ..at_rest(rng, F25L008A)
    }
}

pub fn in_power_down(rng: &mut Rng) -> State {
    State { armed: false, power_down: true, ..at_rest(rng, F25L05PA) }
}

/// The same with nothing under way and WEL 0.
pub fn disabled(state: State) -> State {
    State {
        wel: false,
        aai: false,
        armed: false,
        pending: false,
        pending_bits: 0,
        left: 0,
        next: 0,
        ..state
    }
}

pub fn sound(rng: &mut Rng, chip: u8) -> State {
    match (rng.below(6), chip) {
        (0 | 1, _) => at_rest(rng, chip),
        (2, _) => busy(rng, chip),
        (3 | 4, F25L008A) => {
            let busy = rng.coin();
            in_aai(rng, busy)
        }
        (3 | 4, _) => in_power_down(rng),
        _ => State { wel: false, armed: false, ..at_rest(rng, chip) },
    }
}

/// A sound state spoilt in one field or more; one time in three only in what it says of a status write.
pub fn unsound(rng: &mut Rng) -> State {
    if rng.one_in(3) {
        return pending::unsound(rng);
    }
    loop {
        let chip = rng.pick(&CHIPS);
        let mut state = sound(rng, chip);
        for _ in 0..rng.between(1, 2) {
            spoil(rng, &mut state);
        }
        if !is_sound(&state) {
            return state;
        }
    }
}

fn spoil(rng: &mut Rng, state: &mut State) {
    match rng.below(14) {
        0 | 1 => state.chip = rng.pick(&[0, 1, 4, 5, 6, 7, 8, 9, 255]),
        2 => state.bp = rng.pick(&[8, 9, 15, 16, 128, 255]),
        3 => state.tb ^= true,
        4 => state.wel ^= true,
        5 => state.aai ^= true,
        6 => state.armed ^= true,
        7 => state.power_down ^= true,
        8 => state.left = longest(state.chip) + 1,
        9 => state.left = rng.pick(&[1, 7, 8, 1_000_001, 8_000_000, 8_000_001, u32::MAX]),
        10 => state.next = rng.pick(&BORDERS) as u32 + 2 - rng.below(5) as u32,
        11 => state.next = rng.pick(&[0, 1, 2, 3, u32::MAX - 1, u32::MAX]),
        12 => state.next ^= 1,
        _ => state.pending_bits ^= 1 << rng.below(8),
    }
}

pub fn is_sound(state: &State) -> bool {
    <Model>::power_up(*state).number == 0
}

fn longest(chip: u8) -> u32 {
    if chip == F25L008A {
        8_000_000
    } else {
        1_000_000
    }
}
