//! How a plan's frames and waits are cut.

use cases::Rng;

use crate::tally::{Part, PARTS};

/// How many bytes a plan's frame programs.
pub fn programmed(frame: &[u8]) -> usize {
    match (frame[0], frame.len()) {
        (0xAD, _) => 2,
        (0x02, length) => length - 4,
        _ => 0,
    }
}

/// What a frame is cut with.
pub fn masks(rng: &mut Rng, programmed: usize, writes_status: bool) -> Vec<Vec<u8>> {
    match programmed {
        _ if writes_status => vec![vec![0x00], vec![0xFF]],
        0 => vec![Vec::new()],
        _ => vec![
            vec![0x00; programmed],
            vec![0xFF; programmed],
            rng.bytes(programmed),
            rng.bytes(programmed),
        ],
    }
}

/// How much of a wait has passed.
pub fn parts(rng: &mut Rng, writes_status: bool) -> Vec<Part> {
    let first = rng.below(PARTS.len());
    match writes_status {
        true => PARTS.to_vec(),
        false => vec![PARTS[first], PARTS[(first + 2) % PARTS.len()]],
    }
}
