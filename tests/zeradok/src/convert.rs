//! The library's values as the model's, and back.

use crate::binding;

impl From<model::State> for binding::State {
    fn from(state: model::State) -> Self {
        Self {
            chip: state.chip,
            bp: state.bp,
            tb: state.tb.into(),
            bpl: state.bpl.into(),
            wel: state.wel.into(),
            aai: state.aai.into(),
            armed: state.armed.into(),
            power_down: state.power_down.into(),
            pending: state.pending.into(),
            pending_bits: state.pending_bits,
            left: state.left,
            next: state.next,
        }
    }
}

impl From<binding::State> for model::State {
    fn from(state: binding::State) -> Self {
        Self {
            chip: state.chip,
            bp: state.bp,
            tb: state.tb.into(),
            bpl: state.bpl.into(),
            wel: state.wel.into(),
            aai: state.aai.into(),
            armed: state.armed.into(),
            power_down: state.power_down.into(),
            pending: state.pending.into(),
            pending_bits: state.pending_bits,
            left: state.left,
            next: state.next,
        }
    }
}

impl From<binding::Answer> for model::Answer {
    fn from(answer: binding::Answer) -> Self {
        Self { number: answer.number, state: answer.state.into() }
    }
}

impl From<binding::Ran> for model::Ran {
    fn from(ran: binding::Ran) -> Self {
        Self {
            number: ran.number,
            state: ran.state.into(),
            frames: ran.frames,
            microseconds: ran.microseconds,
            offset: ran.offset,
        }
    }
}

impl From<binding::Surveyed> for model::Surveyed {
    fn from(surveyed: binding::Surveyed) -> Self {
        Self {
            number: surveyed.number,
            frames: surveyed.frames,
            microseconds: surveyed.microseconds,
            offset: surveyed.offset,
            output: surveyed.output,
        }
    }
}

impl From<binding::Planned> for model::Planned {
    fn from(planned: binding::Planned) -> Self {
        Self {
            number: planned.number,
            state: planned.state.into(),
            length: planned.length,
            frames: planned.frames,
            microseconds: planned.microseconds,
        }
    }
}

impl From<binding::Told> for model::Told {
    fn from(told: binding::Told) -> Self {
        Self { number: told.number, state: told.state.into(), value: told.value }
    }
}

impl From<binding::Returned> for model::Returned {
    fn from(returned: binding::Returned) -> Self {
        Self {
            number: returned.number,
            state: returned.state.into(),
            length: returned.length,
            frames: returned.frames,
            microseconds: returned.microseconds,
            unlisted: returned.unlisted,
        }
    }
}

impl From<binding::Salvaged> for model::Salvaged {
    fn from(salvaged: binding::Salvaged) -> Self {
        Self { number: salvaged.number, length: salvaged.length, kept: salvaged.kept }
    }
}

impl From<binding::Record> for model::Record {
    fn from(record: binding::Record) -> Self {
        Self {
            number: record.number,
            kind: record.kind,
            start: record.start,
            length: record.length,
            microseconds: record.microseconds,
            next: record.next,
        }
    }
}
