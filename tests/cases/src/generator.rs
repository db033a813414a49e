//! The stream of cases: first the sweep, then random ones.

use model::{Calls, Model, State, LONGEST_FRAME};

use crate::board::Board;
use crate::case::{Case, Line, On, Outcome};
use crate::frames::{self, FATES};
use crate::spoil::{self, Planted};
use crate::sweep::Sweep;
use crate::{
    book, first_protected, malform, masks, plans, scripts, size, states, Rng, CHIPS, F25L008A,
    F25L05PA,
};

/// A case and the refusals that were planted in it.
pub struct Item {
    pub case: Case,
    pub planted: Planted,
    /// Whether it is a plan or a mark given one byte less room than its script has.
    pub one_short: bool,
}

impl Item {
    pub fn new(case: Case, planted: Planted) -> Self {
        Self { case, planted, one_short: false }
    }
}

pub struct Generator {
    rng: Rng,
    sweep: Sweep,
    /// Each chip's state as the last accepted call left it.
    walk: [State; 2],
    /// A case that the last one asks for.
    follow_up: Option<Case>,
}

/// Longer than any plan's script.
const ROOMY: usize = 27_000;

impl Generator {
    pub fn new(rng: Rng) -> Self {
        Self {
            rng,
            sweep: Sweep::new(),
            walk: CHIPS.map(|chip| <Model>::new_chip(chip).state),
            follow_up: None,
        }
    }

    /// The next case; the board's arrays get contents to suit it.
    pub fn next(&mut self, board: &mut Board) -> Item {
        let unspoilt = |case| Item::new(case, Planted::default());
        if let Some(case) = self.sweep.next(&mut self.rng) {
            return unspoilt(case);
        }
        if let Some(case) = self.follow_up.take() {
            return unspoilt(case);
        }
        let chip = self.rng.pick(&CHIPS);
        match self.rng.below(120) {
            0 => unspoilt(Case::New { chip: self.rng.byte() }),
            1 | 2 => self.power_up(chip),
            3..=8 => self.wait(chip),
            9..=14 => self.read(chip),
            15..=18 => self.survey(chip),
            19..=30 => self.run(chip),
            31..=48 => self.plan(chip, board),
            49..=65 => self.frame(chip, board, true),
            66..=99 => self.frame(chip, board, false),
            100..=110 => self.question(chip, board),
            _ => book::mark(&mut self.rng, chip, board),
        }
    }

    /// Takes notice of what the right model answered.
    pub fn learn(&mut self, case: &Case, outcome: &Outcome, buffer: &[u8]) {
        match (case, outcome) {
            (_, Outcome::Frame { number: 0, state }) => self.walk_on(*state),
            (_, Outcome::Ran(ran)) if ran.number == 0 => self.walk_on(ran.state),
            (Case::Wait { .. }, Outcome::Answer(answer)) if answer.number == 0 => {
                self.walk_on(answer.state)
            }
            (Case::Plan { on, .. }, Outcome::Planned(planned)) if planned.number == 0 => {
                self.run_one_in(2, on, &buffer[..planned.length as usize]);
            }
            (Case::BookMark { on, .. }, Outcome::Planned(planned)) if planned.number == 0 => {
                self.run_one_in(4, on, &buffer[..planned.length as usize]);
            }
            _ => {}
        }
    }

    /// Has one in so many plans run next.
    fn run_one_in(&mut self, many: usize, on: &On, script: &[u8]) {
        if self.rng.one_in(many) {
            self.follow_up = Some(Case::Run {
                on: on.clone(),
                script: script.to_vec(),
                line: Line::of(scripts::frame_bytes(script)),
            });
        }
    }

    fn walk_on(&mut self, state: State) {
        self.walk[usize::from(state.chip != F25L008A)] = state;
    }

    fn power_up(&mut self, chip: u8) -> Item {
        let mut planted = Planted::default();
        let state = self.maybe_unsound(chip, &mut planted);
        let case = Case::PowerUp { state };
        Item::new(case, planted)
    }

    fn wait(&mut self, chip: u8) -> Item {
        let mut planted = Planted::default();
        let state = self.maybe_unsound(chip, &mut planted);
        let microseconds = match self.rng.below(5) {
            0 => state.left,
            1 => state.left.wrapping_sub(1),
            2 => state.left.wrapping_add(1),
            3 => self.rng.below(state.left as usize + 1) as u32,
            _ => scripts::wait(&mut self.rng),
        };
        let case = Case::Wait { state, microseconds };
        Item::new(case, planted)
    }

    fn maybe_unsound(&mut self, chip: u8, planted: &mut Planted) -> State {
        match self.rng.below(4) {
            0 => {
                planted.plant(1);
                states::unsound(&mut self.rng)
            }
            1 => self.walk[usize::from(chip != F25L008A)],
            2 if chip == F25L008A && self.rng.coin() => states::in_aai(&mut self.rng, true),
            2 => states::busy(&mut self.rng, chip),
            _ => states::sound(&mut self.rng, chip),
        }
    }

    fn frame(&mut self, chip: u8, board: &mut Board, cut: bool) -> Item {
        let rng = &mut self.rng;
        // A status write has more masks to be cut with than there are lengths.
        let opcode = if cut && rng.one_in(6) { 0x01 } else { frames::opcode(rng, chip) };
        let fate = rng.pick(&FATES);
        let (mut state, wp_high, mut frame) = frames::frame(rng, chip, opcode, fate);
        if rng.one_in(5) {
            state = self.walk[usize::from(chip != F25L008A)];
        }
        let mut on = On::new(state, wp_high);
        let mut planted = Planted::default();
        let spoils = rng.one_in(6);
        if spoils {
            spoil::chip(rng, &mut on, &mut planted);
            if rng.one_in(3) {
                planted.plant(3);
                let length = rng.pick(&[0, 0, LONGEST_FRAME + 1, LONGEST_FRAME + 2, 5_000]);
                frame.resize(length, 0);
            }
        }
        let mut line = Line::of(frame.len());
        if spoils && rng.one_in(3) {
            planted.plant(4);
            line = spoil::line(rng, frame.len());
        }
        let case = if cut {
            let mask = masks::mask(rng, &on, &frame, spoils, &mut planted);
            Case::Cut { on, frame, line, mask }
        } else {
            Case::Frame { on, frame, line }
        };
        for window in case.windows() {
            board.of(chip).dress(&window, rng);
        }
        Item::new(case, planted)
    }

    fn plan(&mut self, chip: u8, board: &mut Board) -> Item {
        let rng = &mut self.rng;
        let mut planted = Planted::default();
        let spoils = rng.one_in(3);
        let (mut start, length) = plans::region(rng, chip);
        let around = start.saturating_sub(1)..(start + length + 1).min(size(chip));
        board.of(chip).dress(&around, rng);
        let array = board.of(chip).array();
        let old = &array[start..][..length];
        let mut wanted = plans::wanted(rng, start, old);
        let mut on = On::new(states::at_rest(rng, chip), rng.coin());
        if chip == F25L008A && rng.coin() {
            on.state.bp = plans::level_within(start, length).unwrap_or(on.state.bp);
        }

        if spoils && rng.coin() {
            let last = old.iter().zip(&wanted).rposition(|(old, new)| old != new);
            on.state.bpl = true;
            on.wp_high = false;
            on.state.bp = rng.pick(&[5, 6, 7, on.state.bp]);
            if last.is_some_and(|last| start + last >= first_protected(chip, on.state.bp)) {
                planted.plant(9);
            }
        }
        let mut script = vec![0; ROOMY];
        let exact = <Model>::plan(on.state, true, array, start, &wanted, &mut script);
        let exact = exact.length as usize;
        let mut room = match rng.below(3) {
            0 => exact,
            1 => exact + rng.below(40),
            _ => ROOMY,
        };
        if spoils {
            if rng.one_in(2) && exact > 0 {
                planted.plant(10);
                room = spoil::room(rng, exact);
            }
            if rng.one_in(3) && plans::raise(rng, old, &mut wanted) {
                planted.plant(8);
            }
            if rng.one_in(4) {
                planted.plant(7);
                on.state = spoil::not_at_rest(rng, chip);
            }
            if rng.one_in(4) {
                planted.plant(6);
                spoil::region(rng, chip, &mut start, &mut wanted);
            }
            if rng.one_in(4) {
                spoil::chip(rng, &mut on, &mut planted);
            }
        }
        let case = Case::Plan { on, start, wanted, room };
        Item { case, planted, one_short: room + 1 == exact }
    }

    fn run(&mut self, chip: u8) -> Item {
        let rng = &mut self.rng;
        let mut planted = Planted::default();
        let mut script = scripts::script(rng, chip);
        let mut state = match rng.below(3) {
            0 => states::sound(rng, chip),
            1 => self.walk[usize::from(chip != F25L008A)],
            _ => State { bp: 0, bpl: rng.one_in(4), ..states::at_rest(rng, chip) },
        };
        if rng.one_in(5) {
            // Nothing sets WEL, which is rare by chance.
            state = states::disabled(state);
            script = scripts::disabled(rng, &script);
        } else if chip == F25L05PA && rng.one_in(10) {
            // Protection that is to go, and programs in between, which are rare by chance.
            state = State { bp: rng.pick(&[1, 2, 3, 5, 6, 7]), ..states::at_rest(rng, chip) };
            script = scripts::too_early(rng);
        }
        let mut on = On::new(state, rng.coin());
        let spoils = rng.one_in(3);
        if spoils {
            spoil::chip(rng, &mut on, &mut planted);
            spoil::script(rng, &mut script, &mut planted);
        }
        let length = scripts::frame_bytes(&script);
        let mut line = Line::of(length);
        if spoils && rng.coin() {
            planted.plant(4);
            line = spoil::line(rng, length);
        }
        let case = Case::Run { on, script, line };
        Item::new(case, planted)
    }

    fn question(&mut self, chip: u8, board: &mut Board) -> Item {
        let walk = self.walk[usize::from(chip != F25L008A)];
        book::question(&mut self.rng, chip, walk, board)
    }

    fn survey(&mut self, chip: u8) -> Item {
        let rng = &mut self.rng;
        let mut planted = Planted::default();
        let mut script = scripts::script(rng, chip);
        if !rng.one_in(3) {
            spoil::script(rng, &mut script, &mut planted);
        }
        let case = Case::Survey { script };
        Item::new(case, planted)
    }

    fn read(&mut self, chip: u8) -> Item {
        let rng = &mut self.rng;
        let mut planted = Planted::default();
        let mut script = scripts::script(rng, chip);
        if rng.coin() {
            malform::somewhere(rng, &mut script);
        }
        if rng.one_in(8) {
            planted.plant(11);
            spoil::lengthen(rng, &mut script);
        }
        let length = script.len();
        let boundaries = scripts::boundaries(&script);
        let offset = match rng.below(10) {
            0 => length,
            1 => rng.below(length + 1),
            2 => {
                planted.plant(14);
                rng.pick(&[length + 1, length + 2, length + 7, usize::MAX - 3, usize::MAX])
            }
            3..=5 => boundaries[boundaries.len() - 1],
            _ => rng.pick(&boundaries),
        };
        let case = Case::Read { script, offset };
        Item::new(case, planted)
    }
}
