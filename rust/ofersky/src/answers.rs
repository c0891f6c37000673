//! What calls give back. Nothing is left out: a refused call gives these, too.

use crate::{Record, State};

/// Number, value and count.
#[repr(C)]
#[derive(Clone, Copy, Debug, Default, PartialEq, Eq)]
pub struct Answer {
    /// 0 for success, or the number of the [`Refusal`](crate::Refusal).
    pub number: u32,
    /// What a read, a consumer turn or the writer gives; 0 otherwise.
    pub value: u64,
    /// How many words, pairs or records; each call says which.
    pub count: u32,
}

/// The next state, or after a refusal the state as handed in, and the answer. There are two
/// exceptions: a replay that stops at a record gives the state that the records before it left, and
/// a burst that stops at a pair the state that the pairs before it left.
#[repr(C)]
#[derive(Clone, Copy, Debug, Default, PartialEq, Eq)]
pub struct Outcome {
    /// The state after the call.
    pub state: State,
    /// Number, value and count.
    pub answer: Answer,
}

/// What a run gives.
#[repr(C)]
#[derive(Clone, Copy, Debug, Default, PartialEq, Eq)]
pub struct Ran {
    /// Its count is the number of words that the SP moved.
    pub outcome: Outcome,
    /// How many words were consumed; they are in the output, from its start on.
    pub words: u32,
}

/// Where the next drawing word is.
#[repr(C)]
#[derive(Clone, Copy, Debug, Default, PartialEq, Eq)]
pub struct Part {
    /// 0 for RDRAM, 1 for DMEM.
    pub memory: u32,
    /// The first byte.
    pub offset: u32,
    /// 8, or 0 where there is no such word.
    pub length: u32,
}

/// What the reader gives: the record and the place after it; or the number of the refusal, kind 0
/// and place 0.
#[repr(C)]
#[derive(Clone, Copy, Debug, Default, PartialEq, Eq)]
pub struct Reading {
    /// The record.
    pub item: Record,
    /// The place after it, where the next record begins.
    pub place: usize,
    /// 0 for success, or the number of the [`Refusal`](crate::Refusal).
    pub number: u32,
}

/// What the reads (kind 2) and checks (kind 9) of a replay found, over the records that it
/// accepted, whatever stopped it. All of it is 0 for a replay that did not begin: 9, 1, 2, 3, 4.
#[repr(C)]
#[derive(Clone, Copy, Debug, Default, PartialEq, Eq)]
pub struct Findings {
    /// How many were compared with what they expect.
    pub compared: u32,
    /// How many of them found something else.
    pub differed: u32,
    /// The first that differed: its index among all records, from 0 on; 0 where none differed.
    pub first_index: u32,
    /// The byte of the recording where it begins; 0 where none differed.
    pub first_place: usize,
}

/// What a replay gives.
#[repr(C)]
#[derive(Clone, Copy, Debug, Default, PartialEq, Eq)]
pub struct Replayed {
    /// Its count is the number of accepted records.
    pub outcome: Outcome,
    /// How many bytes of the listing were written.
    pub written: usize,
    /// The byte of the recording where the refused record begins; 0 where no record was refused.
    pub place: usize,
    /// What its reads and checks found.
    pub findings: Findings,
}
