//! Good scripts made bad.

use model::{Calls, Model, LONGEST_FRAME, LONGEST_SCRIPT};

use crate::scripts::{boundaries, put_frame};
use crate::Rng;

/// Makes some record of a good script bad; the refusal that it meets.
pub fn somewhere(rng: &mut Rng, script: &mut Vec<u8>) -> u32 {
    let at = rng.pick(&boundaries(script));
    match rng.below(8) {
        0..=2 => at_record(rng, script, at),
        3 if at < script.len() => {
            // Cut short in the middle of a record.
            let whole = <Model>::read(script, at).next - at;
            script.truncate(at + rng.between(1, whole - 1));
            14
        }
        4 => {
            // A frame too long, with all of its bytes or with fewer.
            leave(script, at.min(LONGEST_SCRIPT - 4_200));
            let length = rng.pick(&[4_102, 4_103, 4_150]);
            put_frame(script, &rng.bytes(length));
            script.truncate(script.len() - rng.pick(&[0, 0, 1, 4_102]));
            13
        }
        5 => {
            // A frame that goes on past the end.
            leave(script, at.min(LONGEST_SCRIPT - 4_200));
            let length = rng.pick(&[1, 2, 256, LONGEST_FRAME]);
            put_frame(script, &rng.bytes(length));
            script.truncate(script.len() - rng.between(1, length));
            14
        }
        _ => {
            // The front of a record at the end, or some byte.
            const FRAME: &[u8] = &[0x5A, 0x46, 0x00, 0x02, 0x05];
            const WAIT: &[u8] = &[0x5A, 0x57, 0x00, 0x00, 0x07];
            let whole: &[u8] = rng.pick(&[FRAME, WAIT, &[0x00], &[0x46], &[0xFF]]);
            script.extend(&whole[..rng.between(1, whole.len())]);
            14
        }
    }
}

/// Makes another record of a bad script bad, one before that which is; its refusal.
pub fn earlier(rng: &mut Rng, script: &mut Vec<u8>) -> Option<u32> {
    let starts = boundaries(script);
    let (_bad, good) = starts.split_last()?;
    (!good.is_empty()).then(|| {
        let at = rng.pick(good);
        at_record(rng, script, at)
    })
}

/// Puts a bad mark or length where a record begins, before what stands there or instead of it.
fn at_record(rng: &mut Rng, script: &mut Vec<u8>, at: usize) -> u32 {
    match rng.below(6) {
        0 if at < script.len() => {
            script[at] ^= 1 << rng.below(8);
            12
        }
        1 if at < script.len() => {
            script[at + 1] = rng.pick(&[0x00, 0x45, 0x47, 0x56, 0x58, 0x5A]);
            12
        }
        2 => {
            script.splice(at..at, rng.pick(&[[0x00, 0x46], [0x46, 0x5A], [0x5A, 0x5A]]));
            12
        }
        _ => {
            let [high, low] = rng.pick(&[0_u16, 0, 4_102, 0x8001, 65_535]).to_be_bytes();
            script.splice(at..at, [0x5A, 0x46, high, low]);
            13
        }
    }
}

/// Leaves the whole records up to an offset.
fn leave(script: &mut Vec<u8>, offset: usize) {
    script.truncate(offset);
    script.truncate(boundaries(script).pop().unwrap_or(0));
}
