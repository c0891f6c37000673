//! What can be observed of a call: all that it gives and leaves.

use crate::data::call::{Call, Case};
use crate::data::ring::normalized;
use ofersky::{Findings, Outcome, Part, Reading, Replayed, State, Verdict};

/// All that can be observed of a call. A field that the call does not give is zero on both sides.
#[derive(Clone, Debug, Default, PartialEq, Eq)]
pub struct Observed {
    pub outcome: Outcome,
    /// How many words were consumed in a run.
    pub words: u32,
    pub sound: bool,
    pub part: Part,
    pub reading: Reading,
    pub written: usize,
    /// Where the record begins that a replay refused.
    pub place: usize,
    /// What the reads and checks of a replay found.
    pub findings: Findings,
    /// The verdict of a replay: its code, and what the wrapper makes of that.
    pub code: u32,
    pub verdict: Option<Verdict>,
    /// A byte beside a lent memory or output was changed, or a number beside the pairs.
    pub outside: bool,
    /// The bytes of RDRAM, DMEM, IMEM, of the output or the buffer, and those of the next word
    /// after a look.
    pub bytes: [Vec<u8>; 5],
    /// The addresses and the values that a burst was lent.
    pub pairs: [Vec<u32>; 2],
}

/// A side of the comparison.
pub type Side = fn(&Case) -> Observed;

impl Observed {
    /// Memory as it is lent. A call that takes none gets no bytes to compare.
    pub(crate) fn lent(case: &Case) -> Observed {
        let [rdram, dmem, imem] = if case.call.takes_memory() {
            case.lent.bytes()
        } else {
            Default::default()
        };
        Observed {
            bytes: [rdram, dmem, imem, case.call.output(), Vec::new()],
            pairs: case.call.pairs().map(<[u32]>::to_vec),
            ..Observed::default()
        }
    }

    /// The number of the refusal, wherever the call gives it.
    pub fn number(&self) -> u32 {
        self.outcome.answer.number + self.reading.number
    }

    /// With the ring normalized where the call was accepted: its head and the slots without a word
    /// may be any. A refused call must leave every slot as it was.
    pub(crate) fn normalize(mut self, case: &Case) -> Observed {
        if !case.call.keeps_state(self.number()) {
            self.outcome.state = normalized(&self.outcome.state);
        }
        self
    }

    /// All that a replay gives.
    pub(crate) fn take(&mut self, replayed: Replayed) {
        Replayed {
            outcome: self.outcome,
            written: self.written,
            place: self.place,
            findings: self.findings,
        } = replayed;
    }
}

/// The bytes of a part, if they are there.
pub(crate) fn part_of<'a>(part: &Part, rdram: &'a [u8], dmem: &'a [u8]) -> Option<&'a [u8]> {
    let memory = if part.memory == 0 { rdram } else { dmem };
    let from = part.offset as usize;
    memory.get(from..from + part.length as usize)
}

/// The state after a call on the model's side, for a walk from call to call.
pub fn next_state(case: &Case, seen: &Observed) -> State {
    match case.call {
        Call::PowerUp | Call::IsSound | Call::Look | Call::Verdict { .. } => case.state,
        Call::ReadRecord { .. } | Call::WriteRecord { .. } => case.state,
        _ => seen.outcome.state,
    }
}
