//! What is worth counting of the two slices in which frames are shown.

use model::Reason;

use super::sorts::{holding, sorts};
use crate::case::Line;
use crate::{F25L008A, F25L05PA};

sorts!(LineSort {
    /// The first slice alone is wrong.
    OutputShort,
    OutputLong,
    /// The second alone is, which may be empty.
    DrivenEmpty,
    DrivenShort,
    DrivenLong,
    /// Both are, each in its own way or in the same.
    BothUnequal,
    BothEqual,
});

/// The opcodes that are answered.
pub const ANSWERED: [u8; 6] = [0x05, 0x03, 0x0B, 0x9F, 0xAB, 0x90];

/// The bytes at the borders of what the chip drives in a taken frame: the last silent one and the first
/// driven one, of 9F the last driven one and the first silent one behind it too.
pub fn borders(chip: u8, opcode: u8) -> &'static [(usize, bool)] {
    match opcode {
        0x05 => &[(0, false), (1, true)],
        0x03 | 0x90 => &[(3, false), (4, true)],
        0x0B => &[(4, false), (5, true)],
        0x9F => &[(0, false), (1, true), (3, true), (4, false)],
        0xAB if chip == F25L008A => &[(0, false), (1, true)],
        0xAB => &[(3, false), (4, true)],
        _ => &[],
    }
}

/// Whether a frame of this opcode is so long that a byte would be driven if it were taken.
pub fn reaches_answer(chip: u8, opcode: u8, length: usize) -> bool {
    borders(chip, opcode).get(1).is_some_and(|(at, _)| length > *at)
}

/// For what a frame of this opcode can be ignored.
pub fn reasons(chip: u8, opcode: u8) -> impl Iterator<Item = Reason> {
    let status = opcode == 0x05;
    holding([
        (!status, Reason::Busy),
        (!status && chip == F25L008A, Reason::InAai),
        (opcode != 0xAB && chip == F25L05PA, Reason::InPowerDown),
    ])
}

/// What is wrong with the slices that are to show so many bytes.
pub fn of_line(line: Line, length: usize) -> impl Iterator<Item = LineSort> {
    let Line { output, driven } = line;
    let first_alone = driven == length;
    let second_alone = output == length;
    let both = !first_alone && !second_alone;
    holding([
        (first_alone && output < length, LineSort::OutputShort),
        (first_alone && output > length, LineSort::OutputLong),
        (second_alone && driven == 0 && length > 0, LineSort::DrivenEmpty),
        (second_alone && driven > 0 && driven < length, LineSort::DrivenShort),
        (second_alone && driven > length, LineSort::DrivenLong),
        (both && output != driven, LineSort::BothUnequal),
        (both && output == driven, LineSort::BothEqual),
    ])
}
