//! Which states may have one pending.

use model::{Answer, Calls, State};

use super::Sample;
use crate::{refused, F25L008A, F25L05PA};

/// Busy with one that will set BP.
const PENDING: State = State {
    chip: F25L05PA,
    bp: 1,
    tb: false,
    bpl: false,
    wel: true,
    aai: false,
    armed: false,
    power_down: false,
    pending: true,
    pending_bits: 0x1C,
    left: 5_000,
    next: 0,
};

pub fn samples<C: Calls>() -> Vec<Sample> {
    vec![
        ("pending is sound with any time left", || {
            [1, 4_999, 5_000, 5_001, 15_000, 40_000, 1_000_000]
                .into_iter()
                .all(|left| is_sound::<C>(State { left, ..PENDING }))
        }),
        ("pending with more than the chip's longest time isn't", || {
            refused::by_every_call::<C>(State { left: 1_000_001, ..PENDING })
        }),
        ("pending at rest isn't", || {
            [true, false]
                .into_iter()
                .all(|wel| refused::by_every_call::<C>(State { wel, left: 0, ..PENDING }))
        }),
        ("pending on the 008A isn't", || {
            let busy = State { chip: F25L008A, left: 5, ..PENDING };
            refused::by_every_call::<C>(busy)
                && refused::by_every_call::<C>(State { pending_bits: 0, ..busy })
        }),
        ("bits without pending aren't", || {
            [F25L008A, F25L05PA].into_iter().all(|chip| {
                let none = State { chip, pending: false, ..PENDING };
                refused::by_every_call::<C>(none)
                    && refused::by_every_call::<C>(State { left: 0, ..none })
            })
        }),
        ("pending without WEL, armed or in power-down isn't", || {
            let others = [
                State { wel: false, ..PENDING },
                State { armed: true, ..PENDING },
                State { power_down: true, ..PENDING },
            ];
            others.into_iter().all(refused::by_every_call::<C>)
        }),
        ("of the bits only 2 to 5 and 7 are", || {
            (0..=255).all(|pending_bits| {
                let state = State { pending_bits, ..PENDING };
                match pending_bits & 0x43 {
                    0 => is_sound::<C>(state),
                    _ => C::power_up(state) == Answer { number: 1, state },
                }
            }) && [0x01, 0x02, 0x40, 0x1D]
                .into_iter()
                .all(|pending_bits| refused::by_every_call::<C>(State { pending_bits, ..PENDING }))
        }),
    ]
}

/// Whether it is taken, and the bits come when the time is over, or are lost with the power.
fn is_sound<C: Calls>(state: State) -> bool {
    let State { left, pending_bits: bits, bp, tb, bpl, .. } = state;
    let rest = State { chip: F25L05PA, ..State::default() };
    let over = State { bp: bits >> 2 & 7, tb: bits & 0x20 != 0, bpl: bits & 0x80 != 0, ..rest };
    let accepted = |state| Answer { number: 0, state };
    C::power_up(state) == accepted(State { bp, tb, bpl, ..rest })
        && C::wait(state, left) == accepted(over)
        && C::wait(state, left - 1) == accepted(State { left: 1, ..state })
}
