//! Going through random cases with the right model on one side and somebody else on the other.

use model::{Model, SECTOR};

use super::calls::Names;
use super::case::{Case, Outcome};
use super::items::{item, Item};
use crate::board::{Board, MARGIN};
use crate::Rng;

/// The arrays are compared whole after this many cases; in each case's sectors always.
const WHOLE_EVERY: usize = 128;

/// A case in which the other side answered otherwise, or changed what it must not.
pub struct Difference {
    /// The number of the case.
    pub index: usize,
    pub call: &'static str,
    pub what: String,
    /// The case as Rust text that can be pasted.
    pub text: String,
}

/// A case that went well.
pub struct Seen<'a> {
    pub item: &'a Item,
    pub outcome: Outcome,
    /// The chip's array.
    pub array: &'a [u8],
    pub script: &'a [u8],
}

/// Goes through so many random cases up to the first difference. `note` sees each that went well.
pub fn explore(
    other: &Names,
    seed: u64,
    cases: usize,
    mut note: impl FnMut(&Seen),
) -> Result<(), Difference> {
    let mut rng = Rng::new(seed);
    let mut board = Board::new(&mut rng);
    let mut sides =
        Sides { right: Names::of::<Model>(), other: other.clone(), buffers: Default::default() };
    for index in 0..cases {
        let item = item(&mut rng, &mut board);
        let outcome = sides.compare(&item.case, &mut board, index).and_then(|outcome| {
            let whole = index % WHOLE_EVERY == 0 || index + 1 == cases;
            match whole.then(|| board.difference()).flatten() {
                Some((chip, at)) => Err(format!("the array of chip {chip} at {at:#X}")),
                None => Ok(outcome),
            }
        });
        let outcome = outcome.map_err(|what| {
            let array = board.of(item.case.on.array_of).array();
            let image = |start: usize| array.get(start..start.saturating_add(SECTOR));
            let sectors = item.case.sectors().into_iter();
            let text = item.case.text(sectors.filter_map(|start| Some((start, image(start)?))));
            Difference { index, call: item.case.call(), what, text }
        })?;
        let script = &sides.buffers[0][MARGIN..][..outcome.length()];
        let array = board.of(item.case.on.state.chip).array();
        note(&Seen { item: &item, outcome, array, script });
    }
    Ok(())
}

struct Sides {
    right: Names,
    other: Names,
    /// Each side's buffer, with margins.
    buffers: [Vec<u8>; 2],
}

impl Sides {
    /// Makes the call on both sides; what differs, if anything does.
    fn compare(&mut self, case: &Case, board: &mut Board, index: usize) -> Result<Outcome, String> {
        let room = case.room();
        let untouched = 0xA5 ^ index as u8;
        for buffer in &mut self.buffers {
            buffer.clear();
            buffer.resize(room + 2 * MARGIN, untouched);
        }
        let [left, right] = &mut self.buffers;
        let twins = board.of(case.on.array_of);
        let (left_array, right_array) = twins.lent(case.on.array);
        let outcome = case.run(&self.right, left_array, &mut left[MARGIN..][..room]);
        let given = case.run(&self.other, right_array, &mut right[MARGIN..][..room]);
        if given != outcome {
            return Err(format!("answer {given:?}\nright  {outcome:?}"));
        }
        if let Some(at) = left.iter().zip(&*right).position(|(left, right)| left != right) {
            let place = at as isize - MARGIN as isize;
            return Err(format!(
                "buffer byte {place}: {:#04X}, right {:#04X}",
                right[at], left[at]
            ));
        }
        if left[MARGIN + outcome.length()..].iter().any(|byte| *byte != untouched) {
            return Err("both sides wrote where nothing is to be written".into());
        }
        let size = twins.array().len();
        let inside = case.sectors().into_iter().filter(|start| *start < size);
        let mut windows = inside.map(|start| start..(start + SECTOR).min(size));
        match windows.find_map(|window| twins.difference_near(&window)) {
            Some(at) => Err(format!("the array at {at:#X}")),
            None => Ok(outcome),
        }
    }
}
