//! What the cases met of status writes that take time (02, A4).

use model::{Model, Reason, State};

use super::sorts::{holding, sorts};
use super::{goals::Goals, known, Counts, Met};
use crate::case::{Case, Mask, On};
use crate::pending::Clause;
use crate::states::is_sound;
use crate::unread::Cycle;
use crate::{CHIPS, F25L008A, F25L05PA};

sorts!(MaskSort {
    Empty,
    Zero,
    Ones,
    /// One byte that is neither.
    Byte01,
    Byte7F,
    Byte80,
    Byte0F,
    OtherByte,
    TwoZeros,
    TwoOnes,
    Longer,
});

/// The calls that are given a state.
const CALLS: [&str; 9] = [
    "power_up",
    "wait",
    "frame",
    "cut_frame",
    "run",
    "plan",
    "book_is_read",
    "book_count",
    "book_mark",
];
const OF_NAMES: [&str; 4] = ["names_is_read", "names_mark", "names_move", "names_back"];

/// The refusal for a mask.
const WRONG_MASK: u32 = 5;

impl Counts {
    /// Counts the call of a chip in which one is pending, or in which only what is said of one isn't
    /// sound.
    pub(super) fn note_pending(&mut self, call: &'static str, state: &State, number: u32) {
        if state.pending && is_sound(state) {
            self.count(Met::Pending { call, number });
        }
        if let (1, Some(clause)) = (number, Clause::broken_alone(state)) {
            self.count(Met::PendingBroken { call, chip: known(state.chip), clause });
        }
    }

    /// Counts an interrupted 01, and an 05 while one runs, that is accepted or refused for its mask.
    pub(super) fn note_status_cut(&mut self, case: &Case, number: u32) {
        let Case::Cut { on, frame, mask, .. } = case else { return };
        let refused = number == WRONG_MASK;
        if number != 0 && !refused {
            return;
        }
        let chip = on.state.chip;
        for mask in of_mask(mask) {
            match frame[0] {
                0x01 => {
                    let verdict = Model::verdict(&on.state, on.wp_high, frame);
                    let ignored = verdict.and_then(Result::err);
                    self.count(Met::StatusCut { chip, ignored, mask, refused });
                    self.note_bits(on, frame, mask, refused || ignored.is_some());
                }
                0x05 if on.state.pending => self.count(Met::StatusReadCut { mask, refused }),
                _ => {}
            }
        }
    }

    /// That the old bits and the new aren't the same.
    fn note_bits(&mut self, on: &On, frame: &[u8], mask: MaskSort, undone: bool) {
        let State { chip, bp, tb, bpl, .. } = on.state;
        let old = bp << 2 | u8::from(tb) << 5 | u8::from(bpl) << 7;
        if chip == F25L05PA && !undone && frame[1] & 0xBC != old {
            self.count(Met::OtherBits { mask });
        }
    }

    /// Counts what a script did with them.
    pub fn note_cycles(&mut self, cycles: &[Cycle]) {
        for &cycle in cycles {
            self.count(Met::Cycle { cycle });
        }
    }
}

fn of_mask(mask: &Mask) -> impl Iterator<Item = MaskSort> {
    let bytes = mask.bytes();
    holding([
        (bytes.is_empty(), MaskSort::Empty),
        (*bytes == [0x00], MaskSort::Zero),
        (*bytes == [0xFF], MaskSort::Ones),
        (*bytes == [0x01], MaskSort::Byte01),
        (*bytes == [0x7F], MaskSort::Byte7F),
        (*bytes == [0x80], MaskSort::Byte80),
        (*bytes == [0x0F], MaskSort::Byte0F),
        (bytes.len() == 1 && !matches!(bytes[0], 0x00 | 0xFF), MaskSort::OtherByte),
        (*bytes == [0x00; 2], MaskSort::TwoZeros),
        (*bytes == [0xFF; 2], MaskSort::TwoOnes),
        (bytes.len() > 2, MaskSort::Longer),
    ])
}

pub fn goals() -> Vec<Goals> {
    let goal = |name, least, each| Goals { name, least, each };
    let bits = [MaskSort::Zero, MaskSort::Ones].map(|mask| Met::OtherBits { mask });
    vec![
        goal("calls while a status write is pending", 100, pending()),
        goal("calls about flags by name while one is pending", 10, pending_with_names()),
        goal("clauses about a pending one, each alone broken", 15, broken(&CALLS)),
        goal("the same, flags by name", 4, broken(&OF_NAMES)),
        goal("status writes cut, by mask", 20, cut()),
        goal("ignored status writes cut, by reason and mask", 10, ignored_cut()),
        goal("05 cut while one is pending, by mask", 10, read_cut()),
        goal("status writes cut that bring other bits", 100, bits.into()),
        goal("what scripts do with status writes", 100, cycles()),
    ]
}

/// What plans refuses with 7, all else answers.
fn pending() -> Vec<Met> {
    let refused = |call| matches!(call, "plan" | "book_mark");
    let number = |call| if refused(call) { 7 } else { 0 };
    CALLS.map(|call| Met::Pending { call, number: number(call) }).into()
}

fn pending_with_names() -> Vec<Met> {
    let number = |call| if call == "names_is_read" { 0 } else { 7 };
    OF_NAMES.map(|call| Met::Pending { call, number: number(call) }).into()
}

fn broken(calls: &[&'static str]) -> Vec<Met> {
    let mut all = Vec::new();
    for &call in calls {
        for clause in Clause::ALL {
            let chips = clause.chips().iter();
            all.extend(chips.map(|&chip| Met::PendingBroken { call, chip, clause }));
        }
    }
    all
}

/// Those that are taken: on the 05PA by 00 and FF and nothing else, on the 008A by the empty mask.
fn cut() -> Vec<Met> {
    let on_each = |&mask| {
        CHIPS.map(|chip| {
            let right = match chip {
                F25L008A => mask == MaskSort::Empty,
                _ => matches!(mask, MaskSort::Zero | MaskSort::Ones),
            };
            Met::StatusCut { chip, ignored: None, mask, refused: !right }
        })
    };
    MaskSort::ALL.iter().flat_map(on_each).collect()
}

fn ignored_cut() -> Vec<Met> {
    const MASKS: [MaskSort; 5] =
        [MaskSort::Empty, MaskSort::Zero, MaskSort::Ones, MaskSort::OtherByte, MaskSort::TwoZeros];
    let mut all = Vec::new();
    for chip in CHIPS {
        let own = if chip == F25L008A { Reason::InAai } else { Reason::InPowerDown };
        for reason in [Reason::Busy, own, Reason::WrongLength, Reason::NotArmed, Reason::Locked] {
            all.extend(MASKS.map(|mask| {
                let refused = mask != MaskSort::Empty;
                Met::StatusCut { chip, ignored: Some(reason), mask, refused }
            }));
        }
    }
    all
}

fn read_cut() -> Vec<Met> {
    [(MaskSort::Empty, false), (MaskSort::Zero, true), (MaskSort::Ones, true)]
        .map(|(mask, refused)| Met::StatusReadCut { mask, refused })
        .into()
}

fn cycles() -> Vec<Met> {
    Cycle::ALL.map(|cycle| Met::Cycle { cycle }).into()
}
