//! Good scripts, and where the records of any begin.

use model::{kind, Calls, Model, LONGEST_SCRIPT, STATUS_TIME};

use crate::frames::{self, FATES};
use crate::{Rng, BORDERS, F25L008A, F25L05PA};

pub fn put_frame(script: &mut Vec<u8>, frame: &[u8]) {
    script.extend([0x5A, 0x46]);
    script.extend((frame.len() as u16).to_be_bytes());
    script.extend(frame);
}

pub fn put_wait(script: &mut Vec<u8>, microseconds: u32) {
    script.extend([0x5A, 0x57]);
    script.extend(microseconds.to_be_bytes());
}

/// The script of 01's sample of `play`.
pub fn sample() -> Vec<u8> {
    let mut script = Vec::new();
    put_frame(&mut script, &[0x9F, 0, 0, 0]);
    put_frame(&mut script, &[0x06]);
    put_frame(&mut script, &[0x02, 0x00, 0x01, 0x00, 0xA5]);
    put_wait(&mut script, 1_500);
    put_frame(&mut script, &[0x05, 0x00]);
    put_frame(&mut script, &[0x03, 0x00, 0x01, 0x00, 0x00, 0x00]);
    script
}

/// A well-formed script, mostly of sequences that make sense.
pub fn script(rng: &mut Rng, chip: u8) -> Vec<u8> {
    let mut script = Vec::new();
    match rng.below(40) {
        0 => {}
        1 => long(rng, &mut script),
        2 => {
            for _ in 0..rng.between(2, 5) {
                put_wait(&mut script, u32::MAX - rng.below(2) as u32);
            }
        }
        _ => {
            for _ in 0..rng.between(1, 8) {
                phrase(rng, chip, &mut script);
            }
        }
    }
    shorten(&mut script);
    script
}

/// For an 05PA that is protected: a status write that takes protection away, and programs that come before
/// it is over; now and then one when it is.
pub fn too_early(rng: &mut Rng) -> Vec<u8> {
    let mut script = Vec::new();
    put_frame(&mut script, &[0x06]);
    put_frame(&mut script, &[0x01, rng.byte() & 0xA3]);
    let mut left = STATUS_TIME;
    for _ in 0..rng.between(1, 3) {
        enable(rng, &mut script);
        let address = frames::address(rng, F25L05PA);
        let length = 4 + rng.between(1, 20);
        put_frame(&mut script, &frames::bytes(rng, 0x02, address, length, false));
        let wait = rng.below(left as usize) as u32;
        put_wait(&mut script, wait);
        left -= wait;
    }
    if rng.one_in(4) {
        put_wait(&mut script, left);
        program(rng, F25L05PA, &mut script);
    }
    script
}

/// A script with nothing that sets WEL: a 06 is left out, or has a byte too many.
pub fn disabled(rng: &mut Rng, script: &[u8]) -> Vec<u8> {
    let mut disabled = Vec::new();
    for record in records(script) {
        match record {
            [0x5A, 0x46, 0, 1, 0x06] if rng.one_in(4) => put_frame(&mut disabled, &[0x06, 0]),
            [0x5A, 0x46, 0, 1, 0x06] => {}
            _ => disabled.extend(record),
        }
    }
    shorten(&mut disabled);
    disabled
}

/// Leaves out the records that pass the longest script.
fn shorten(script: &mut Vec<u8>) {
    if script.len() > LONGEST_SCRIPT {
        script.truncate(*boundaries(script).last().unwrap_or(&0));
    }
}

/// A script of exactly the longest length.
fn long(rng: &mut Rng, script: &mut Vec<u8>) {
    let status = rng.coin();
    while script.len() + 10 <= LONGEST_SCRIPT {
        match status {
            true => put_frame(script, &[0x05]),
            false => put_wait(script, u32::MAX),
        }
    }
    let rest = LONGEST_SCRIPT - script.len();
    put_frame(script, &rng.bytes(rest - 4));
}

fn phrase(rng: &mut Rng, chip: u8, script: &mut Vec<u8>) {
    match rng.below(10) {
        0 | 1 => status_write(rng, chip, script),
        2 => program(rng, chip, script),
        3 | 4 if chip == F25L008A => words(rng, script),
        3 | 4 => program(rng, chip, script),
        5 => erase(rng, chip, script),
        6 => {
            put_frame(script, &[rng.pick(&[0x06, 0x04, 0x50, 0xB9, 0xAB])]);
        }
        7 => put_wait(script, wait(rng)),
        _ => {
            let opcode = frames::opcode(rng, chip);
            let fate = rng.pick(&FATES);
            let (_, _, frame) = frames::frame(rng, chip, opcode, fate);
            put_frame(script, &frame);
        }
    }
}

/// A 06, now and then forgotten.
fn enable(rng: &mut Rng, script: &mut Vec<u8>) {
    if !rng.one_in(5) {
        put_frame(script, &[0x06]);
    }
}

/// Arming and a status write, now and then with something between; where it takes time, what comes
/// then.
fn status_write(rng: &mut Rng, chip: u8, script: &mut Vec<u8>) {
    let arming = if chip == F25L008A { 0x50 } else { 0x06 };
    put_frame(script, &[if rng.coin() { arming } else { 0x06 }]);
    if rng.one_in(4) {
        put_frame(script, &[rng.pick(&[0x05, 0x04, 0x9F, 0x00]), 0]);
    }
    let byte = if rng.coin() { rng.byte() & 0x83 } else { rng.byte() };
    put_frame(script, &[0x01, byte]);
    if chip == F25L05PA || rng.one_in(4) {
        while_status_is_written(rng, chip, script);
    }
}

/// The status asked for, frames that are ignored, and waits that are too short, exact or longer; mostly
/// the time is over at the end, and the status is asked for again.
fn while_status_is_written(rng: &mut Rng, chip: u8, script: &mut Vec<u8>) {
    for _ in 0..rng.below(4) {
        match rng.below(5) {
            0 | 1 => put_frame(script, &[0x05, 0x00]),
            2 => put_frame(script, &[rng.pick(&[0x06, 0x04, 0xB9, 0xC7])]),
            3 => {
                let address = frames::address(rng, chip);
                put_frame(script, &[0x06]);
                put_frame(script, &frames::bytes(rng, 0x02, address, 5, false));
            }
            _ => put_wait(script, rng.below(2_500) as u32),
        }
    }
    let wait = match rng.below(8) {
        0 => rng.below(100) as u32,
        1 => STATUS_TIME - 1,
        2 => STATUS_TIME + 1,
        3 => rng.pick(&[15_000, 40_000]),
        _ => STATUS_TIME,
    };
    put_wait(script, wait);
    if rng.coin() {
        put_frame(script, &[0x05, 0x00]);
    }
    if rng.one_in(4) {
        put_wait(script, 1);
        put_frame(script, &[0x05, 0x00]);
    }
}

fn program(rng: &mut Rng, chip: u8, script: &mut Vec<u8>) {
    let length = if chip == F25L008A { 5 } else { 4 + rng.between(1, 300) };
    let address = frames::address(rng, chip);
    enable(rng, script);
    put_frame(script, &frames::bytes(rng, 0x02, address, length, false));
    ready(rng, script);
}

/// A run of AAI words, often up to a protection border.
fn words(rng: &mut Rng, script: &mut Vec<u8>) {
    let count = rng.below(6);
    let address = match rng.coin() {
        true => rng.pick(&BORDERS) - 2 * count - rng.below(4),
        false => frames::address(rng, F25L008A),
    };
    enable(rng, script);
    put_frame(script, &frames::bytes(rng, 0xAD, address, 6, false));
    ready(rng, script);
    for _ in 0..count {
        put_frame(script, &frames::bytes(rng, 0xAD, 0, 3, true));
        ready(rng, script);
    }
    if !rng.one_in(4) {
        put_frame(script, &[0x04]);
    }
}

fn erase(rng: &mut Rng, chip: u8, script: &mut Vec<u8>) {
    let address = frames::address(rng, chip);
    enable(rng, script);
    match rng.below(12) {
        0 => put_frame(script, &[rng.pick(&[0x60, 0xC7])]),
        1 | 2 => put_frame(script, &frames::bytes(rng, 0xD8, address, 4, false)),
        _ => put_frame(script, &frames::bytes(rng, 0x20, address, 4, false)),
    }
    ready(rng, script);
}

/// Mostly waits long enough; asks for the status now and then.
fn ready(rng: &mut Rng, script: &mut Vec<u8>) {
    match rng.below(8) {
        0 => put_wait(script, wait(rng)),
        1 => put_frame(script, &[0x05, 0x00]),
        2 => put_wait(script, 6),
        _ => put_wait(script, rng.pick(&[7, 1_500, 90_000, 8_000_000])),
    }
}

pub fn wait(rng: &mut Rng) -> u32 {
    match rng.below(4) {
        0 => rng.pick(&[0, 1, 6, 7, 8, 1_499, 1_500, 1_501, 4_999, 5_000, 5_001]),
        1 => rng.pick(&[90_000, 750_000, 1_000_000, 8_000_000, u32::MAX - 1, u32::MAX]),
        2 => rng.below(100_000) as u32,
        _ => rng.word() as u32,
    }
}

/// Where records begin, as far as they are well formed, and where the last of them ends.
pub fn boundaries(script: &[u8]) -> Vec<usize> {
    let shortened = &script[..script.len().min(LONGEST_SCRIPT)];
    let mut at = 0;
    let mut boundaries = vec![0];
    loop {
        let record = <Model>::read(shortened, at);
        if record.number != 0 || record.kind == kind::END {
            return boundaries;
        }
        at = record.next;
        boundaries.push(at);
    }
}

/// The records before the first malformed one.
pub fn records(script: &[u8]) -> Vec<&[u8]> {
    boundaries(script).windows(2).map(|ends| &script[ends[0]..ends[1]]).collect()
}

/// The bytes of the frames before the first malformed record.
pub fn frame_bytes(script: &[u8]) -> usize {
    boundaries(script)
        .iter()
        .map(|at| <Model>::read(&script[..script.len().min(LONGEST_SCRIPT)], *at).length)
        .sum()
}
