//! Frames, each shown by the three calls.

use model::Calls;

use super::on_chip::Stand::{AtRest, Busy, BusyInAai, InAai, InPowerDown, InStatusWrite};
use super::on_chip::{mask, shown, OnChip, Stand, CALLS};
use crate::literal::bytes_text;
use crate::{F25L008A, F25L05PA};

/// How the chip stands, a frame, and what is shown, written as `play` prints it.
type Sample = (Stand, &'static [u8], &'static str);

const ON_008A: [Sample; 53] = [
    // 05: from byte 1, busy and in AAI too.
    (AtRest, &[0x05], "--"),
    (AtRest, &[0x05, 0], "-- 02"),
    (AtRest, &[0x05, 0, 0, 0, 0, 0], "-- 02 02 02 02 02"),
    (Busy, &[0x05], "--"),
    (Busy, &[0x05, 0, 0], "-- 03 03"),
    (InAai, &[0x05, 0, 0], "-- 42 42"),
    (BusyInAai, &[0x05, 0, 0], "-- 43 43"),
    // 03: from byte 4; an FF of the array is driven.
    (AtRest, &[0x03], "--"),
    (AtRest, &[0x03, 0x00, 0x12, 0x34], "-- -- -- --"),
    (AtRest, &[0x03, 0x00, 0x12, 0x34, 0], "-- -- -- -- A5"),
    (AtRest, &[0x03, 0x00, 0x12, 0x34, 0, 0, 0, 0], "-- -- -- -- A5 FF 00 FF"),
    (AtRest, &[0x03, 0x00, 0x20, 0x00, 0, 0, 0], "-- -- -- -- FF FF FF"),
    (AtRest, &[0x03, 0x0F, 0xFF, 0xFF, 0, 0, 0], "-- -- -- -- 12 34 FF"),
    (Busy, &[0x03, 0x00, 0x12, 0x34, 0, 0], "-- -- -- -- -- --"),
    (InAai, &[0x03, 0x00, 0x12, 0x34, 0, 0], "-- -- -- -- -- --"),
    // 0B: from byte 5, behind the dummy byte.
    (AtRest, &[0x0B, 0x00, 0x12, 0x34], "-- -- -- --"),
    (AtRest, &[0x0B, 0x00, 0x12, 0x34, 0], "-- -- -- -- --"),
    (AtRest, &[0x0B, 0x00, 0x12, 0x34, 0, 0], "-- -- -- -- -- A5"),
    (AtRest, &[0x0B, 0x00, 0x12, 0x34, 0, 0, 0, 0], "-- -- -- -- -- A5 FF 00"),
    (AtRest, &[0x0B, 0x00, 0x20, 0x00, 0, 0, 0], "-- -- -- -- -- FF FF"),
    (Busy, &[0x0B, 0x00, 0x12, 0x34, 0, 0, 0], "-- -- -- -- -- -- --"),
    (InAai, &[0x0B, 0x00, 0x12, 0x34, 0, 0, 0], "-- -- -- -- -- -- --"),
    // 9F: bytes 1 to 3.
    (AtRest, &[0x9F], "--"),
    (AtRest, &[0x9F, 0], "-- 8C"),
    (AtRest, &[0x9F, 0, 0, 0], "-- 8C 20 14"),
    (AtRest, &[0x9F, 0, 0, 0, 0], "-- 8C 20 14 --"),
    (AtRest, &[0x9F, 0, 0, 0, 0, 0, 0, 0], "-- 8C 20 14 -- -- -- --"),
    (Busy, &[0x9F, 0, 0, 0, 0], "-- -- -- -- --"),
    (InAai, &[0x9F, 0, 0, 0, 0], "-- -- -- -- --"),
    // AB: from byte 1.
    (AtRest, &[0xAB], "--"),
    (AtRest, &[0xAB, 0], "-- 13"),
    (AtRest, &[0xAB, 0, 0, 0, 0, 0], "-- 13 13 13 13 13"),
    (Busy, &[0xAB, 0, 0, 0, 0, 0], "-- -- -- -- -- --"),
    (InAai, &[0xAB, 0, 0, 0, 0, 0], "-- -- -- -- -- --"),
    // 90: from byte 4.
    (AtRest, &[0x90, 0, 0, 0], "-- -- -- --"),
    (AtRest, &[0x90, 0, 0, 0, 0, 0, 0], "-- -- -- -- 8C 13 8C"),
    (AtRest, &[0x90, 0, 0, 1, 0, 0], "-- -- -- -- 13 8C"),
    (Busy, &[0x90, 0, 0, 0, 0, 0], "-- -- -- -- -- --"),
    (InAai, &[0x90, 0, 0, 0, 0, 0], "-- -- -- -- -- --"),
    // Nothing else: neither taken frames nor ignored ones, nor opcodes that there aren't.
    (AtRest, &[0x06], "--"),
    (AtRest, &[0x06, 0], "-- --"),
    (AtRest, &[0x04], "--"),
    (AtRest, &[0x50], "--"),
    (AtRest, &[0x01, 0], "-- --"),
    (AtRest, &[0x02, 0x00, 0x20, 0x00, 0x7E], "-- -- -- -- --"),
    (AtRest, &[0xAD, 0x00, 0x20, 0x00, 0x7E, 0x7E], "-- -- -- -- -- --"),
    (InAai, &[0xAD, 0x7E, 0x7E], "-- -- --"),
    (AtRest, &[0x20, 0x00, 0x20, 0x00], "-- -- -- --"),
    (AtRest, &[0xD8, 0x00, 0x20, 0x00], "-- -- -- --"),
    (AtRest, &[0x60], "--"),
    (AtRest, &[0xC7], "--"),
    (AtRest, &[0xB9, 0], "-- --"),
    (AtRest, &[0x70, 0, 0, 0, 0, 0], "-- -- -- -- -- --"),
];

const ON_05PA: [Sample; 50] = [
    // 05: from byte 1, busy too; not in power-down.
    (AtRest, &[0x05], "--"),
    (AtRest, &[0x05, 0, 0], "-- 02 02"),
    (Busy, &[0x05, 0, 0], "-- 03 03"),
    (InPowerDown, &[0x05], "--"),
    (InPowerDown, &[0x05, 0, 0], "-- -- --"),
    (InStatusWrite, &[0x05], "--"),
    (InStatusWrite, &[0x05, 0, 0], "-- 03 03"),
    // 03: from byte 4; an FF of the array is driven.
    (AtRest, &[0x03, 0x00, 0x12, 0x34], "-- -- -- --"),
    (AtRest, &[0x03, 0x00, 0x12, 0x34, 0, 0, 0, 0], "-- -- -- -- A5 FF 00 FF"),
    (AtRest, &[0x03, 0x00, 0x20, 0x00, 0, 0, 0], "-- -- -- -- FF FF FF"),
    (AtRest, &[0x03, 0x00, 0xFF, 0xFF, 0, 0, 0], "-- -- -- -- 12 34 FF"),
    (Busy, &[0x03, 0x00, 0x12, 0x34, 0, 0], "-- -- -- -- -- --"),
    (InPowerDown, &[0x03, 0x00, 0x12, 0x34, 0, 0], "-- -- -- -- -- --"),
    // 0B: from byte 5, behind the dummy byte.
    (AtRest, &[0x0B, 0x00, 0x12, 0x34, 0], "-- -- -- -- --"),
    (AtRest, &[0x0B, 0x00, 0x12, 0x34, 0, 0, 0, 0], "-- -- -- -- -- A5 FF 00"),
    (AtRest, &[0x0B, 0x00, 0x20, 0x00, 0, 0, 0], "-- -- -- -- -- FF FF"),
    (Busy, &[0x0B, 0x00, 0x12, 0x34, 0, 0, 0], "-- -- -- -- -- -- --"),
    (InPowerDown, &[0x0B, 0x00, 0x12, 0x34, 0, 0, 0], "-- -- -- -- -- -- --"),
    // 9F: bytes 1 to 3.
    (AtRest, &[0x9F, 0, 0], "-- 8C 30"),
    (AtRest, &[0x9F, 0, 0, 0], "-- 8C 30 10"),
    (AtRest, &[0x9F, 0, 0, 0, 0], "-- 8C 30 10 --"),
    (AtRest, &[0x9F, 0, 0, 0, 0, 0, 0, 0], "-- 8C 30 10 -- -- -- --"),
    (Busy, &[0x9F, 0, 0, 0, 0], "-- -- -- -- --"),
    (InPowerDown, &[0x9F, 0, 0, 0, 0], "-- -- -- -- --"),
    (InStatusWrite, &[0x9F, 0, 0, 0, 0], "-- -- -- -- --"),
    // AB: from byte 4, in power-down too.
    (AtRest, &[0xAB], "--"),
    (AtRest, &[0xAB, 0, 0, 0], "-- -- -- --"),
    (AtRest, &[0xAB, 0, 0, 0, 0], "-- -- -- -- 05"),
    (AtRest, &[0xAB, 0, 0, 0, 0, 0, 0], "-- -- -- -- 05 05 05"),
    (InPowerDown, &[0xAB], "--"),
    (InPowerDown, &[0xAB, 0, 0, 0, 0, 0], "-- -- -- -- 05 05"),
    (Busy, &[0xAB, 0, 0, 0, 0, 0], "-- -- -- -- -- --"),
    // 90: from byte 4.
    (AtRest, &[0x90, 0, 0, 0], "-- -- -- --"),
    (AtRest, &[0x90, 0, 0, 0, 0, 0, 0], "-- -- -- -- 8C 05 8C"),
    (AtRest, &[0x90, 0, 0, 1, 0, 0], "-- -- -- -- 05 8C"),
    (Busy, &[0x90, 0, 0, 0, 0, 0], "-- -- -- -- -- --"),
    (InPowerDown, &[0x90, 0, 0, 0, 0, 0], "-- -- -- -- -- --"),
    // Nothing else: neither taken frames nor ignored ones, nor opcodes that there aren't.
    (AtRest, &[0x06], "--"),
    (InPowerDown, &[0x06], "--"),
    (AtRest, &[0x04], "--"),
    (AtRest, &[0x01, 0], "-- --"),
    (InStatusWrite, &[0x01, 0], "-- --"),
    (AtRest, &[0x02, 0x00, 0x20, 0x00, 0x7E], "-- -- -- -- --"),
    (AtRest, &[0x20, 0x00, 0x20, 0x00], "-- -- -- --"),
    (AtRest, &[0xD8, 0x00, 0x20, 0x00], "-- -- -- --"),
    (AtRest, &[0xC7], "--"),
    (AtRest, &[0xB9], "--"),
    (AtRest, &[0x50], "--"),
    (AtRest, &[0xAD, 0x00, 0x20, 0x00, 0x7E, 0x7E], "-- -- -- -- -- --"),
    (AtRest, &[0x80, 0, 0, 0, 0, 0], "-- -- -- -- -- --"),
];

/// The frames that are shown otherwise.
pub fn failing<C: Calls>() -> Vec<String> {
    let mut failing = Vec::new();
    for (chip, samples) in [(F25L008A, &ON_008A[..]), (F25L05PA, &ON_05PA)] {
        for (stand, frame, listing) in samples {
            for call in CALLS {
                let mask = mask(chip, *stand, frame);
                let line = [frame.len(); 2];
                let answered = OnChip::<C>::new(chip, *stand).answer(call, frame, line, mask);
                if answered != shown(listing) {
                    let frame = bytes_text(frame);
                    failing.push(format!("chip {chip}, {stand:?}, {call:?} {frame}: {answered:?}"));
                }
            }
        }
    }
    failing
}
