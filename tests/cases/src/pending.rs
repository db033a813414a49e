//! Status writes that are pending (02, A4): states with one, and states in which what the fields say of
//! one isn't sound.

use model::State;

use crate::{states, Rng, CHIPS, F25L008A, F25L05PA};

/// The bits that a status write sets: BP, TB and BPL.
pub const WRITABLE: u8 = 0b1011_1100;

/// What soundness asks of the two fields.
#[derive(Clone, Copy, Debug, PartialEq, Eq, PartialOrd, Ord)]
pub enum Clause {
    /// Pending only while time is left.
    Busy,
    /// Pending only on the chip whose status write takes time.
    Timed,
    /// No bits where nothing is pending.
    NoneKept,
    /// Only bits that a status write sets.
    Writable,
}

impl Clause {
    pub const ALL: [Self; 4] = [Self::Busy, Self::Timed, Self::NoneKept, Self::Writable];

    /// The chips on which it can be the only one that a state breaks.
    pub fn chips(self) -> &'static [u8] {
        match self {
            Self::Busy | Self::Writable => &[F25L05PA],
            Self::Timed => &[F25L008A],
            Self::NoneKept => &CHIPS,
        }
    }

    /// The only one that a state breaks that is sound but for these two fields.
    pub fn broken_alone(state: &State) -> Option<Self> {
        let State { chip, pending, pending_bits, left, .. } = *state;
        let broken = [
            (pending && left == 0, Self::Busy),
            (pending && chip != F25L05PA, Self::Timed),
            (!pending && pending_bits != 0, Self::NoneKept),
            (pending_bits & !WRITABLE != 0, Self::Writable),
        ];
        let mut broken = broken.into_iter().filter_map(|(broken, clause)| broken.then_some(clause));
        let first = broken.next()?;
        let rest = State { pending: false, pending_bits: 0, ..*state };
        (broken.next().is_none() && states::is_sound(&rest)).then_some(first)
    }

    /// A state that breaks it alone.
    fn broken(self, rng: &mut Rng) -> State {
        let chip = rng.pick(self.chips());
        let bits = bits(rng);
        match self {
            Self::Busy if rng.one_in(4) => {
                State { pending: true, pending_bits: bits, ..states::in_power_down(rng) }
            }
            Self::Busy => State { pending: true, pending_bits: bits, ..states::at_rest(rng, chip) },
            Self::Timed => State { pending: true, pending_bits: bits, ..states::busy(rng, chip) },
            Self::NoneKept => {
                let pending_bits = bits | rng.pick(&[0x04, 0x08, 0x10, 0x20, 0x80]);
                State { pending: false, pending_bits, ..states::sound(rng, chip) }
            }
            Self::Writable => {
                let state = state(rng);
                let others = rng.pick(&[0x01, 0x02, 0x40, 0x43]);
                State { pending_bits: state.pending_bits | others, ..state }
            }
        }
    }
}

/// A sound state in which one is pending. The time left may be any that the chip can have.
pub fn state(rng: &mut Rng) -> State {
    let left = match rng.below(3) {
        0 => rng.pick(&[1, 2, 4_999, 5_000, 5_001, 15_000, 90_000, 999_999, 1_000_000]),
        1 => rng.between(1, 5_000) as u32,
        _ => rng.between(1, 1_000_000) as u32,
    };
    State {
        wel: true,
        armed: false,
        pending: true,
        pending_bits: bits(rng),
        left,
        ..states::at_rest(rng, F25L05PA)
    }
}

/// A state that breaks one clause alone; that which two chips can break is drawn for each.
pub fn unsound(rng: &mut Rng) -> State {
    let [busy, timed, none_kept, writable] = Clause::ALL;
    rng.pick(&[busy, timed, none_kept, none_kept, writable]).broken(rng)
}

/// Bits that a status write sets.
fn bits(rng: &mut Rng) -> u8 {
    match rng.below(3) {
        0 => rng.pick(&[0x00, 0x04, 0x1C, 0x20, 0x80, WRITABLE]),
        _ => rng.byte() & WRITABLE,
    }
}
