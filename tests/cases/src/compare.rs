//! Going through the cases with the right model on one side and somebody else on the other.

use model::{Calls, Model};

use crate::board::Board;
use crate::case::{Case, Outcome};
use crate::generator::{Generator, Item};
use crate::literal;
use crate::side::{Run, Side, Written};
use crate::sweep::Sweep;
use crate::Rng;

/// The arrays are compared whole after this many cases; near each case's windows always.
const WHOLE_EVERY: usize = 128;

/// A case in which the other side answered otherwise, or was found to have changed what it must
/// not.
pub struct Difference {
    seed: u64,
    pub index: usize,
    pub call: &'static str,
    pub what: String,
}

/// Goes through the sweep and so many random cases up to the first difference. `note` sees each
/// case that went well, its outcome and what it wrote.
pub fn explore<R: Calls>(
    seed: u64,
    cases: usize,
    mut note: impl FnMut(&Item, &Outcome, Written),
) -> Result<(), Difference> {
    go(Case::run::<R>, seed, Sweep::length() + cases, usize::MAX, &mut note)
}

impl Difference {
    /// The same, looked at closely: some earlier case may have changed the array far away.
    pub fn traced<R: Calls>(self) -> Self {
        let closely_from = self.index.saturating_sub(WHOLE_EVERY);
        let total = self.index + 1;
        let again = go(Case::run::<R>, self.seed, total, closely_from, &mut |_, _, _| ());
        again.err().unwrap_or(self)
    }

    /// The case as text that can be pasted.
    pub fn case(&self) -> String {
        let mut comparison = Comparison::new(self.seed);
        for index in 0..self.index {
            let item = comparison.generator.next(&mut comparison.board);
            comparison
                .compare(Case::run::<Model>, &item.case, index)
                .expect("the right model agrees with itself");
        }
        let item = comparison.generator.next(&mut comparison.board);
        literal::text(&item.case, &mut comparison.board)
    }
}

/// Compares whole arrays now and then, and from case `closely_from` on after each case.
fn go(
    other: Run,
    seed: u64,
    total: usize,
    closely_from: usize,
    note: &mut dyn FnMut(&Item, &Outcome, Written),
) -> Result<(), Difference> {
    let mut comparison = Comparison::new(seed);
    for index in 0..total {
        let item = comparison.generator.next(&mut comparison.board);
        let difference = |what| Difference { seed, index, call: item.case.call(), what };
        let outcome = comparison.compare(other, &item.case, index).map_err(difference)?;
        note(&item, &outcome, comparison.sides[0].written(&item.case));
        if index % WHOLE_EVERY == 0 || index >= closely_from || index + 1 == total {
            if let Some((chip, at)) = comparison.board.difference() {
                return Err(difference(format!("the array of chip {chip} at {at:#X}")));
            }
        }
    }
    Ok(())
}

struct Comparison {
    board: Board,
    generator: Generator,
    /// The right model's and the other's.
    sides: [Side; 2],
    /// What stood in both before the call.
    before: Side,
}

impl Comparison {
    fn new(seed: u64) -> Self {
        let mut rng = Rng::new(seed);
        Self {
            board: Board::new(&mut rng),
            generator: Generator::new(rng),
            sides: Default::default(),
            before: Side::default(),
        }
    }

    /// Makes the call on both sides; what differs, if anything does.
    fn compare(&mut self, other: Run, case: &Case, index: usize) -> Result<Outcome, String> {
        self.before.fill(case, index);
        self.sides.iter_mut().for_each(|side| side.copy_from(&self.before));
        let [left, right] = &mut self.sides;
        let (outcome, other_outcome) = match case.on() {
            Some(on) => {
                let (left_array, right_array) = self.board.of(on.array_of).lent(on.array);
                (
                    left.call(Case::run::<Model>, case, left_array),
                    right.call(other, case, right_array),
                )
            }
            None => {
                (left.call(Case::run::<Model>, case, &mut []), right.call(other, case, &mut []))
            }
        };
        if outcome != other_outcome {
            return Err(format!("answer {other_outcome:?}\nright  {outcome:?}"));
        }
        if let Some(what) =
            right.difference(left).or_else(|| left.wrong(&self.before, case, &outcome))
        {
            return Err(what);
        }
        if let Some(at) = self.array_difference(case) {
            return Err(format!("the array at {at:#X}"));
        }
        self.generator.learn(case, &outcome, self.sides[0].written(case).buffer);
        Ok(outcome)
    }

    /// The first address at which the arrays differ where the case could have changed them.
    fn array_difference(&mut self, case: &Case) -> Option<isize> {
        let twins = self.board.of(case.on()?.array_of);
        match case {
            Case::Run { .. } => twins.difference(),
            _ => case
                .windows()
                .iter()
                .filter(|window| window.end <= twins.array().len())
                .find_map(|window| twins.difference_near(window)),
        }
    }
}
