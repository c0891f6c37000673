//! A call with all that it is handed.

use crate::data::memory::{output, Lent};
use ofersky::{Outcome, Record, Replayed, State};

/// As many pairs may be in a burst.
pub const LONGEST_BURST: usize = 64;

/// A public call and its arguments other than the state and the memories. `out` is the length of
/// the output that is lent.
#[derive(Clone, Debug, PartialEq, Eq)]
pub enum Call {
    PowerUp,
    IsSound,
    Read {
        address: u32,
    },
    Write {
        address: u32,
        value: u32,
    },
    /// A burst. The lengths may differ.
    WriteRegisters {
        addresses: Vec<u32>,
        values: Vec<u32>,
    },
    Tick {
        n: u32,
    },
    Break,
    Acknowledge,
    SpTurn,
    /// What is left of the current row.
    SpRow,
    DpTurn,
    ConsumerTurn,
    /// The budgets of the SP, the DP and the consumer.
    Run {
        budgets: [u32; 3],
        out: usize,
    },
    Look,
    ReadRecord {
        recording: Vec<u8>,
        place: usize,
    },
    WriteRecord {
        record: Record,
        buffer: Vec<u8>,
        place: usize,
    },
    Replay {
        recording: Vec<u8>,
        out: usize,
    },
    /// The verdict of a struct that no replay need have given. Its state is that of the case.
    Verdict {
        replayed: Box<Replayed>,
    },
}

/// A call on a state and memories.
#[derive(Clone, Debug, PartialEq, Eq)]
pub struct Case {
    pub state: State,
    pub lent: Lent,
    pub call: Call,
}

/// The names of the calls, in the order of `Call::index`.
pub const NAMES: [&str; 18] = [
    "power_up",
    "is_sound",
    "read_register",
    "write_register",
    "write_registers",
    "tick",
    "sp_break",
    "acknowledge",
    "sp_turn",
    "sp_row",
    "dp_turn",
    "consumer_turn",
    "run",
    "look_ahead",
    "read_record",
    "write_record",
    "replay",
    "verdict",
];

impl Call {
    pub fn index(&self) -> usize {
        match self {
            Call::PowerUp => 0,
            Call::IsSound => 1,
            Call::Read { .. } => 2,
            Call::Write { .. } => 3,
            Call::WriteRegisters { .. } => 4,
            Call::Tick { .. } => 5,
            Call::Break => 6,
            Call::Acknowledge => 7,
            Call::SpTurn => 8,
            Call::SpRow => 9,
            Call::DpTurn => 10,
            Call::ConsumerTurn => 11,
            Call::Run { .. } => 12,
            Call::Look => 13,
            Call::ReadRecord { .. } => 14,
            Call::WriteRecord { .. } => 15,
            Call::Replay { .. } => 16,
            Call::Verdict { .. } => 17,
        }
    }

    pub fn name(&self) -> &'static str {
        NAMES[self.index()]
    }

    /// Does it take any of the three memories?
    pub fn takes_memory(&self) -> bool {
        matches!(
            self,
            Call::SpTurn
                | Call::SpRow
                | Call::DpTurn
                | Call::Run { .. }
                | Call::Look
                | Call::Replay { .. }
        )
    }

    /// Does it take memory or a buffer?
    pub fn takes_bytes(&self) -> bool {
        self.takes_memory() || matches!(self, Call::WriteRecord { .. })
    }

    /// Does a refusal by this number give the state back as handed in? All do, but those that stop
    /// a replay at a record or a burst at a pair.
    pub fn keeps_state(&self, number: u32) -> bool {
        match self {
            Call::Replay { .. } => matches!(number, 1..=4 | 9),
            Call::WriteRegisters { .. } => matches!(number, 4 | 11),
            _ => number != 0,
        }
    }

    /// The addresses and the values that a burst is lent, none where it is another call.
    pub fn pairs(&self) -> [&[u32]; 2] {
        match self {
            Call::WriteRegisters { addresses, values } => [addresses, values],
            _ => [&[]; 2],
        }
    }

    /// The output that it is lent, empty where it takes none. Of a record that is written it is the
    /// buffer.
    pub fn output(&self) -> Vec<u8> {
        match self {
            Call::Run { out, .. } | Call::Replay { out, .. } => output(*out),
            Call::WriteRecord { buffer, .. } => buffer.clone(),
            _ => Vec::new(),
        }
    }
}

/// What a verdict is asked of: the struct, with this state in it.
pub fn judged(state: State, replayed: &Replayed) -> Replayed {
    let outcome = Outcome {
        state,
        ..replayed.outcome
    };
    Replayed {
        outcome,
        ..*replayed
    }
}

/// Are the lengths of a burst allowed?
pub fn burst_is_allowed([addresses, values]: [&[u32]; 2]) -> bool {
    addresses.len() == values.len() && addresses.len() <= LONGEST_BURST
}
