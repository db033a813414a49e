//! Frames, and states in which they meet a given fate.

use model::{Chip, Kind, State, LONGEST_FRAME};

use crate::{first_protected, pending, size, states, Rng, BORDERS, F25L008A, F25L05PA};

/// What is to become of a frame. Where its opcode can't meet that fate, it meets some other.
#[derive(Clone, Copy)]
pub enum Fate {
    Taken,
    Busy,
    InAai,
    InPowerDown,
    WrongLength,
    NotArmed,
    Locked,
    WriteDisabled,
    Protected,
    Any,
}

pub const FATES: [Fate; 12] = [
    Fate::Taken,
    Fate::Taken,
    Fate::Taken,
    Fate::Busy,
    Fate::InAai,
    Fate::InPowerDown,
    Fate::WrongLength,
    Fate::NotArmed,
    Fate::Locked,
    Fate::WriteDisabled,
    Fate::Protected,
    Fate::Any,
];

const KNOWN_008A: [u8; 16] = [
    0x01, 0x02, 0x03, 0x04, 0x05, 0x06, 0x0B, 0x20, 0x50, 0x60, 0x90, 0x9F, 0xAB, 0xAD, 0xC7, 0xD8,
];
const KNOWN_05PA: [u8; 15] =
    [0x01, 0x02, 0x03, 0x04, 0x05, 0x06, 0x0B, 0x20, 0x60, 0x90, 0x9F, 0xAB, 0xB9, 0xC7, 0xD8];

/// The opcodes a chip knows.
pub fn known(chip: u8) -> &'static [u8] {
    if chip == F25L008A {
        &KNOWN_008A
    } else {
        &KNOWN_05PA
    }
}

/// Mostly a known opcode; chip erases, which are slow, less often than the others.
pub fn opcode(rng: &mut Rng, chip: u8) -> u8 {
    let opcode = if rng.one_in(5) { rng.byte() } else { rng.pick(known(chip)) };
    match opcode {
        0x60 | 0xC7 if chip == F25L008A && !rng.one_in(4) => 0xAD,
        _ => opcode,
    }
}

/// A state, a WP level and a frame with this opcode for which the fate comes about.
pub fn frame(rng: &mut Rng, chip: u8, opcode: u8, fate: Fate) -> (State, bool, Vec<u8>) {
    let kind = kind(chip, opcode);
    let address = address(rng, chip);
    let (mut state, mut wp_high) = taking(rng, chip, kind, address);
    match fate {
        Fate::Taken | Fate::WrongLength => {}
        Fate::Busy if chip == F25L008A && rng.coin() => state = states::in_aai(rng, true),
        Fate::Busy => state = states::busy(rng, chip),
        Fate::InAai if chip == F25L008A => state = states::in_aai(rng, false),
        Fate::InPowerDown if chip == F25L05PA => state = states::in_power_down(rng),
        Fate::NotArmed => state.armed = false,
        Fate::Locked => {
            state.bpl = true;
            wp_high = false;
        }
        Fate::WriteDisabled => {
            state.wel = false;
            state.armed &= chip == F25L008A;
            state.aai = false;
            state.next = 0;
        }
        Fate::Protected => {
            state.aai = false;
            state.next = 0;
            state.bp = level(rng, chip, target(chip, kind, address), true);
        }
        Fate::InAai | Fate::InPowerDown | Fate::Any => state = states::sound(rng, chip),
    }
    let length = if matches!(fate, Fate::WrongLength) {
        wrong_length(rng, chip, kind, &state)
    } else {
        proper_length(rng, chip, kind, &state)
    };
    let frame = bytes(rng, opcode, address, length, state.aai);
    (state, wp_high, frame)
}

/// A frame with this opcode, address and length and random data.
pub fn bytes(rng: &mut Rng, opcode: u8, address: usize, length: usize, aai: bool) -> Vec<u8> {
    let mut frame = rng.bytes(length);
    let [_, high, middle, low] = (address as u32).to_be_bytes();
    let head = [opcode, high, middle, low];
    let named = if opcode == 0x01 || aai && length < 6 { 1 } else { 4 };
    for (byte, head) in frame.iter_mut().zip(&head[..named]) {
        *byte = *head;
    }
    frame
}

/// A state at rest, in AAI or in a status write, that takes a frame of this kind and address, and a WP
/// level.
fn taking(rng: &mut Rng, chip: u8, kind: Kind, address: usize) -> (State, bool) {
    let mut state = states::at_rest(rng, chip);
    let mut wp_high = rng.coin();
    match kind {
        Kind::WriteStatus => {
            state.armed = true;
            state.wel |= chip == F25L05PA;
            wp_high |= state.bpl;
        }
        Kind::WordProgram if rng.coin() => state = states::in_aai(rng, false),
        Kind::WriteDisable if chip == F25L008A && rng.coin() => state = states::in_aai(rng, false),
        Kind::EraseSector
        | Kind::EraseBlock
        | Kind::EraseChip
        | Kind::Program
        | Kind::WordProgram => {
            state.wel = true;
            state.bp = level(rng, chip, target(chip, kind, address), false);
        }
        Kind::Signature if chip == F25L05PA && rng.coin() => state = states::in_power_down(rng),
        Kind::ReadStatus if chip == F25L05PA && rng.one_in(3) => state = pending::state(rng),
        _ => {}
    }
    (state, wp_high)
}

/// An address that decides whether the frame's target is protected.
fn target(chip: u8, kind: Kind, address: usize) -> usize {
    match kind {
        Kind::EraseChip => size(chip) - 1,
        _ => address % size(chip),
    }
}

/// A level that protects the address, or one that doesn't.
fn level(rng: &mut Rng, chip: u8, address: usize, protecting: bool) -> u8 {
    let levels: Vec<u8> =
        (0..8).filter(|bp| (address >= first_protected(chip, *bp)) == protecting).collect();
    rng.pick(&levels)
}

/// An address of 24 bits, with a liking for edges.
pub fn address(rng: &mut Rng, chip: u8) -> usize {
    let size = size(chip);
    let address = match rng.below(8) {
        0 => rng.below(size / 256) * 256 + rng.pick(&[0, 1, 254, 255]),
        1 => (rng.pick(&BORDERS) + size - 4 + rng.below(8)) % size,
        2 => size - 1 - rng.below(6),
        3 => rng.below(6),
        4 => 0x1200 + rng.below(64),
        5 => rng.below(size) | 1,
        _ => rng.below(size),
    };
    if rng.one_in(4) {
        address + rng.below(0x100_0000 / size) * size
    } else {
        address
    }
}

fn kind(chip: u8, opcode: u8) -> Kind {
    Chip::numbered(chip).map_or(Kind::Unknown, |chip| chip.kind(opcode))
}

fn proper_length(rng: &mut Rng, chip: u8, kind: Kind, state: &State) -> usize {
    match kind {
        Kind::WriteEnable
        | Kind::WriteDisable
        | Kind::EnableStatusWrite
        | Kind::EraseChip
        | Kind::PowerDown => 1,
        Kind::WriteStatus => 2,
        Kind::EraseSector | Kind::EraseBlock => 4,
        Kind::Program if chip == F25L05PA => 4 + page_length(rng),
        Kind::Program => 5,
        Kind::WordProgram if state.aai => 3,
        Kind::WordProgram => 6,
        _ => any_length(rng),
    }
}

fn wrong_length(rng: &mut Rng, chip: u8, kind: Kind, state: &State) -> usize {
    if kind == Kind::Program && chip == F25L05PA {
        return rng.between(1, 4);
    }
    let proper = proper_length(rng, chip, kind, state);
    loop {
        let length = any_length(rng);
        if length != proper {
            return length;
        }
    }
}

pub fn any_length(rng: &mut Rng) -> usize {
    match rng.below(16) {
        0..=10 => rng.between(1, 8),
        11..=13 => rng.between(1, 300),
        14 => rng.between(1, LONGEST_FRAME),
        _ => rng.pick(&[4_095, 4_096, 4_100, LONGEST_FRAME]),
    }
}

/// How many bytes a page write sends.
fn page_length(rng: &mut Rng) -> usize {
    match rng.below(8) {
        0 => 1,
        1 => rng.between(2, 8),
        2 | 3 => rng.between(1, 256),
        4 => rng.pick(&[255, 256, 257, 258, 511, 512, 513]),
        5 => rng.between(257, 520),
        6 => rng.between(1, 4_097),
        _ => rng.pick(&[16, 4_096, 4_097, 4_097]),
    }
}
