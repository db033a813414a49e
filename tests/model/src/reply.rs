//! What the chip drives while a frame is sent.

use crate::chip::{Chip, Kind, MANUFACTURER};
use crate::fault::Fault;
use crate::frame::address;
use crate::line::{Line, REST};
use crate::State;

/// Shows all bytes of a taken frame.
#[inline(always)]
pub fn show<const FAULT: u8>(
    chip: &Chip,
    state: &State,
    kind: Kind,
    frame: &[u8],
    array: &[u8],
    mut line: Line,
) {
    match kind {
        Kind::ReadStatus => {
            line.silent::<FAULT>(1, Fault::HeaderDriven);
            line.show::<FAULT>(REST, Some(state.shown::<FAULT>(chip).status()));
        }
        Kind::Read => {
            line.silent::<FAULT>(4, Fault::HeaderDriven);
            read::<FAULT>(array, address(chip, frame), line);
        }
        Kind::FastRead => {
            line.silent::<FAULT>(4, Fault::HeaderDriven);
            line.silent::<FAULT>(1, Fault::DummyDriven);
            read::<FAULT>(array, address(chip, frame), line);
        }
        Kind::Jedec => {
            line.silent::<FAULT>(1, Fault::HeaderDriven);
            line.drive::<FAULT>(&chip.jedec);
            line.silent::<FAULT>(REST, Fault::JedecTailDriven);
        }
        Kind::Signature => {
            line.silent::<FAULT>(1, Fault::HeaderDriven);
            line.silent::<FAULT>(chip.signature_from - 1, Fault::SignatureDrivenFrom1);
            line.show::<FAULT>(REST, Some(chip.device));
        }
        Kind::ReadId => {
            line.silent::<FAULT>(4, Fault::HeaderDriven);
            identify::<FAULT>(chip, address(chip, frame), line);
        }
        _ => line.silent::<FAULT>(REST, Fault::SilentCommandDriven),
    }
}

/// Shows the manufacturer and the device by turns, the device first at an odd address.
fn identify<const FAULT: u8>(chip: &Chip, address: usize, mut line: Line) {
    let mut turns = [MANUFACTURER, chip.device];
    turns.rotate_left(address % 2);
    while line.goes_on() {
        line.drive::<FAULT>(&turns);
    }
}

/// Shows the array from the address up, wrapping at the top.
fn read<const FAULT: u8>(array: &[u8], address: usize, mut line: Line) {
    let mut from = address;
    while line.goes_on() {
        line.drive::<FAULT>(&array[from..]);
        from = 0;
    }
}
