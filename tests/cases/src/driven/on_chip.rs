//! A chip that stands in some way, and the three calls that show frames on it.

use std::marker::PhantomData;

use model::{Calls, State};

use crate::{listing, scripts, size, F25L008A};

/// What the chip does. But in power-down WEL is 1, and nothing is protected.
#[derive(Clone, Copy, Debug, PartialEq, Eq)]
pub enum Stand {
    AtRest,
    Busy,
    InAai,
    BusyInAai,
    InPowerDown,
    /// Of all bits, on a chip that has none of them.
    InStatusWrite,
}

/// The calls.
#[derive(Clone, Copy, Debug)]
pub enum Call {
    Frame,
    /// With a mask that keeps all.
    CutFrame,
    /// As a script of this one frame.
    Run,
}

/// What a call answered, and what then stands in the two slices.
pub type Answered = (u32, Vec<u8>, Vec<u8>);

pub const CALLS: [Call; 3] = [Call::Frame, Call::CutFrame, Call::Run];

/// What stands in the slices before a call: nothing that a call writes there.
pub const UNTOUCHED: u8 = 0xA5;

pub struct OnChip<C> {
    pub state: State,
    pub array: Vec<u8>,
    calls: PhantomData<C>,
}

impl<C: Calls> OnChip<C> {
    /// Erased but for the first byte, the last and those at 001234.
    pub fn new(chip: u8, stand: Stand) -> Self {
        let mut array = vec![0xFF; size(chip)];
        array[0x1234..0x1237].copy_from_slice(&[0xA5, 0xFF, 0x00]);
        array[0] = 0x34;
        array[size(chip) - 1] = 0x12;
        let rest = State { chip, wel: true, ..State::default() };
        let in_aai = State { aai: true, next: 0x1234, ..rest };
        let state = match stand {
            Stand::AtRest => rest,
            Stand::Busy => State { left: 5, ..rest },
            Stand::InAai => in_aai,
            Stand::BusyInAai => State { left: 5, ..in_aai },
            Stand::InStatusWrite => State { pending: true, pending_bits: 0xBC, left: 5, ..rest },
            Stand::InPowerDown => State { wel: false, power_down: true, ..rest },
        };
        Self { state, array, calls: PhantomData }
    }

    /// Shows a frame in slices of these lengths, with a mask of so many bytes where one is asked for.
    pub fn answer(&mut self, call: Call, frame: &[u8], line: [usize; 2], mask: usize) -> Answered {
        let [mut output, mut driven] = line.map(|length| vec![UNTOUCHED; length]);
        let Self { state, array, .. } = self;
        let number = match call {
            Call::Frame => C::frame(state, true, array, frame, &mut output, &mut driven),
            Call::CutFrame => {
                let mask = vec![0x00; mask];
                C::cut_frame(state, true, array, frame, &mut output, &mut driven, &mask)
            }
            Call::Run => {
                let mut script = Vec::new();
                scripts::put_frame(&mut script, frame);
                let ran = C::run(*state, true, array, &script, &mut output, &mut driven);
                *state = ran.state;
                ran.number
            }
        };
        (number, output, driven)
    }
}

/// What is answered where a call is accepted and shows this, written as `play` prints it.
pub fn shown(listing: &str) -> Answered {
    let (output, driven) = listing::slices(listing);
    (0, output, driven)
}

/// What is answered where a call with slices of these lengths is refused.
pub fn refused(number: u32, line: [usize; 2]) -> Answered {
    let [output, driven] = line.map(|length| vec![UNTOUCHED; length]);
    (number, output, driven)
}

/// How long the mask of a taken frame is; of any other it is 0.
pub fn mask(chip: u8, stand: Stand, frame: &[u8]) -> usize {
    let at_rest = stand == Stand::AtRest;
    match *frame {
        [0x20, _, _, _] if at_rest => 4_096,
        [0xD8, _, _, _] if at_rest => 65_536,
        [0x60 | 0xC7] if at_rest => size(chip),
        [0x02, _, _, _, _] if at_rest => 1,
        [0xAD, _, _, _, _, _] if at_rest && chip == F25L008A => 2,
        [0xAD, _, _] if stand == Stand::InAai => 2,
        _ => 0,
    }
}
