//! Every public call as one function: it takes the whole state and the lent
//! memories, for every input, and gives the number, the answer and the next
//! state. A call that is declined gives the state back as it was handed in; a
//! burst or a replay that stops midway keeps what was done before.
//!
//! The states here are as a caller hands them over: a flag is a byte, which
//! may be neither 0 nor 1. The rules themselves are in `machine` and
//! `recording`, which know sound states only.

use crate::machine::{Dp, Machine, Sp, BANK_BYTES};
use crate::recording::{self, Record};

pub use crate::recording::Findings;

/// The number for an RDRAM whose length is not allowed.
pub const BAD_RDRAM: u32 = 1;
/// The number for a DMEM that has not 4,096 bytes.
pub const BAD_DMEM: u32 = 2;
/// The number for an IMEM that has not 4,096 bytes.
pub const BAD_IMEM: u32 = 3;
/// The number for a state that is not sound.
pub const NOT_SOUND: u32 = 4;
/// The number for a burst whose lengths differ or are above 64.
pub const BAD_BURST: u32 = 11;

const LARGEST_RDRAM: usize = 16_777_216;
const WORD_BYTES: usize = 8;
/// A burst may have this many pairs and no more.
const LONGEST_BURST: usize = 64;
/// Slots of the ring that a caller keeps the queued words in.
const SLOTS: u8 = 32;

/// The SP engine. In `signals`, SIG0 to SIG7 are bits 0 to 7.
#[derive(Clone, Copy, Debug, Default, PartialEq, Eq)]
pub struct SpState {
    pub sp_latch: u32,
    pub ram_latch: u32,
    pub sp_addr: u32,
    pub ram_addr: u32,
    pub len: u32,
    pub count: u32,
    pub skip: u32,
    pub row_len: u32,
    pub waiting_word: u32,
    pub busy: u8,
    pub storing: u8,
    pub full: u8,
    pub waiting_storing: u8,
    pub halted: u8,
    pub broke: u8,
    pub single_step: u8,
    pub interrupt_on_break: u8,
    pub signals: u8,
    pub line: u8,
    pub semaphore: u8,
}

/// The DP engine.
#[derive(Clone, Copy, Debug, Default, PartialEq, Eq)]
pub struct DpState {
    pub start: u32,
    pub end: u32,
    pub current: u32,
    pub limit: u32,
    pub clock: u32,
    pub cmd_busy_count: u32,
    pub pipe_busy_count: u32,
    pub tmem_busy_count: u32,
    pub start_pending: u8,
    pub end_pending: u8,
    pub xbus: u8,
    pub freeze: u8,
    pub flush: u8,
    pub pipe_busy: u8,
    pub words_left: u8,
    pub line: u8,
    /// The slot of the oldest queued word in a caller's ring. The model keeps
    /// its queue without slots, so it hands this number on as it was handed in.
    pub head: u8,
}

/// Both engines, and the queued words, the oldest first.
#[derive(Clone, Debug, Default, PartialEq, Eq)]
pub struct State {
    pub sp: SpState,
    pub dp: DpState,
    pub queue: Vec<u64>,
}

/// What a call gives back beside the state; number 0 is success.
#[derive(Clone, Copy, Debug, Default, PartialEq, Eq)]
pub struct Answer {
    pub number: u32,
    pub value: u64,
    pub count: u32,
}

#[derive(Clone, Debug, Default, PartialEq, Eq)]
pub struct Outcome {
    pub state: State,
    pub answer: Answer,
}

/// A run's outcome, whose count is the SP's, and the consumer's count.
#[derive(Clone, Debug, Default, PartialEq, Eq)]
pub struct Ran {
    pub outcome: Outcome,
    pub words: u32,
}

/// A part of a lent memory: 0 is RDRAM, 1 is DMEM. It has 8 bytes, or none
/// and then offset 0.
#[derive(Clone, Copy, Debug, Default, PartialEq, Eq)]
pub struct Part {
    pub memory: u32,
    pub offset: u32,
    pub length: u32,
}

/// A record that was read, and the place after it.
#[derive(Clone, Copy, Debug, Default, PartialEq, Eq)]
pub struct Reading {
    pub number: u32,
    pub kind: u8,
    pub address: u32,
    pub value: u64,
    pub place: usize,
}

/// A replay's outcome, the place where the refused record begins, which is 0 if
/// there is none, how many bytes of its listing were written, and what its reads
/// and checks found.
#[derive(Clone, Debug, Default, PartialEq, Eq)]
pub struct Replayed {
    pub outcome: Outcome,
    pub place: usize,
    pub written: usize,
    pub findings: Findings,
}

/// What a replay says of the recording.
#[derive(Clone, Copy, Debug, PartialEq, Eq)]
pub enum Verdict {
    /// Every read and check found what it expects, and there was one at least.
    Passed { compared: u32 },
    /// It came to its end, and some found something else.
    Differs {
        compared: u32,
        differed: u32,
        first_index: u32,
        first_place: usize,
    },
    /// It came to its end with nothing to compare, so it says nothing.
    NothingCompared,
    /// It did not come to its end, whatever was found before.
    Refused {
        number: u32,
        compared: u32,
        differed: u32,
    },
}

impl Verdict {
    /// The number that programs know a verdict by. None of them is 0, or a
    /// number of a refusal.
    pub fn code(&self) -> u32 {
        match self {
            Verdict::Passed { .. } => 100,
            Verdict::Differs { .. } => 101,
            Verdict::NothingCompared => 102,
            Verdict::Refused { .. } => 103,
        }
    }
}

/// A flag's byte, if it is one.
fn flag(byte: u8) -> Option<bool> {
    match byte {
        0 => Some(false),
        1 => Some(true),
        _ => None,
    }
}

/// The SP engine as the rules know it, or none where a byte is no flag.
fn sp_of(state: &SpState) -> Option<Sp> {
    Some(Sp {
        spaddr_latch: state.sp_latch,
        ramaddr_latch: state.ram_latch,
        waiting_word: state.waiting_word,
        waiting_stores: flag(state.waiting_storing)?,
        spaddr: state.sp_addr,
        ramaddr: state.ram_addr,
        len: state.len,
        row: state.row_len,
        count: state.count,
        skip: state.skip,
        stores: flag(state.storing)?,
        busy: flag(state.busy)?,
        full: flag(state.full)?,
        halted: flag(state.halted)?,
        broke: flag(state.broke)?,
        sstep: flag(state.single_step)?,
        intbreak: flag(state.interrupt_on_break)?,
        signals: std::array::from_fn(|i| state.signals >> i & 1 == 1),
        semaphore: flag(state.semaphore)?,
        line: flag(state.line)?,
    })
}

/// The DP engine and its queue as the rules know them, or none where a byte is
/// no flag.
fn dp_of(state: &DpState, queue: &[u64]) -> Option<Dp> {
    Some(Dp {
        start: state.start,
        end: state.end,
        current: state.current,
        limit: state.limit,
        start_pending: flag(state.start_pending)?,
        end_pending: flag(state.end_pending)?,
        xbus: flag(state.xbus)?,
        freeze: flag(state.freeze)?,
        flush: flag(state.flush)?,
        pipe_busy: flag(state.pipe_busy)?,
        words_left: state.words_left.into(),
        queue: queue.iter().copied().collect(),
        clock: state.clock,
        cmd_busy_counter: state.cmd_busy_count,
        pipe_busy_counter: state.pipe_busy_count,
        tmem_busy_counter: state.tmem_busy_count,
        line: flag(state.line)?,
    })
}

/// The SP engine as a caller knows it.
fn sp_state(sp: &Sp) -> SpState {
    let signals = sp.signals.iter().rev();
    SpState {
        sp_latch: sp.spaddr_latch,
        ram_latch: sp.ramaddr_latch,
        sp_addr: sp.spaddr,
        ram_addr: sp.ramaddr,
        len: sp.len,
        count: sp.count,
        skip: sp.skip,
        row_len: sp.row,
        waiting_word: sp.waiting_word,
        busy: sp.busy.into(),
        storing: sp.stores.into(),
        full: sp.full.into(),
        waiting_storing: sp.waiting_stores.into(),
        halted: sp.halted.into(),
        broke: sp.broke.into(),
        single_step: sp.sstep.into(),
        interrupt_on_break: sp.intbreak.into(),
        signals: signals.fold(0, |byte, signal| byte << 1 | u8::from(*signal)),
        line: sp.line.into(),
        semaphore: sp.semaphore.into(),
    }
}

/// The DP engine as a caller knows it.
fn dp_state(dp: &Dp, head: u8) -> DpState {
    DpState {
        start: dp.start,
        end: dp.end,
        current: dp.current,
        limit: dp.limit,
        clock: dp.clock,
        cmd_busy_count: dp.cmd_busy_counter,
        pipe_busy_count: dp.pipe_busy_counter,
        tmem_busy_count: dp.tmem_busy_counter,
        start_pending: dp.start_pending.into(),
        end_pending: dp.end_pending.into(),
        xbus: dp.xbus.into(),
        freeze: dp.freeze.into(),
        flush: dp.flush.into(),
        pipe_busy: dp.pipe_busy.into(),
        words_left: dp.words_left as u8,
        line: dp.line.into(),
        head,
    }
}

/// A machine over these memories, or the number 4.
fn machine<M>(state: &State, rdram: M, dmem: M, imem: M) -> Result<Machine<M>, u32> {
    let sp = sp_of(&state.sp).ok_or(NOT_SOUND)?;
    let dp = dp_of(&state.dp, &state.queue).ok_or(NOT_SOUND)?;
    let machine = Machine {
        sp,
        dp,
        rdram,
        dmem,
        imem,
    };
    if machine.is_sound() && state.dp.head < SLOTS {
        Ok(machine)
    } else {
        Err(NOT_SOUND)
    }
}

/// A machine for a call that takes no memory.
fn without_memory(state: &State) -> Result<Machine<()>, u32> {
    machine(state, (), (), ())
}

/// The state that a machine is in, after a call on this one.
fn state_of<M>(before: &State, machine: &Machine<M>) -> State {
    State {
        sp: sp_state(&machine.sp),
        dp: dp_state(&machine.dp, before.dp.head),
        queue: machine.dp.queue.iter().copied().collect(),
    }
}

/// The length of RDRAM is a multiple of 8 from 0 to 16,777,216.
fn check_rdram(rdram: &[u8]) -> Result<(), u32> {
    if rdram.len() % WORD_BYTES == 0 && rdram.len() <= LARGEST_RDRAM {
        Ok(())
    } else {
        Err(BAD_RDRAM)
    }
}

/// A bank has 4,096 bytes; which one it is decides the number.
fn check_bank(bank: &[u8], number: u32) -> Result<(), u32> {
    if bank.len() == BANK_BYTES as usize {
        Ok(())
    } else {
        Err(number)
    }
}

/// A burst has as many values as addresses, and at most 64 of each.
fn check_burst(addresses: &[u32], values: &[u32]) -> Result<(), u32> {
    if addresses.len() == values.len() && addresses.len() <= LONGEST_BURST {
        Ok(())
    } else {
        Err(BAD_BURST)
    }
}

/// A machine for a call that takes all three memories.
fn with_all<'a>(
    state: &State,
    rdram: &'a mut [u8],
    dmem: &'a mut [u8],
    imem: &'a mut [u8],
) -> Result<Machine<&'a mut [u8]>, u32> {
    check_rdram(rdram)?;
    check_bank(dmem, BAD_DMEM)?;
    check_bank(imem, BAD_IMEM)?;
    machine(state, rdram, dmem, imem)
}

/// A machine for the DP turn and the look, which take no IMEM.
fn without_imem<'a>(
    state: &State,
    rdram: &'a [u8],
    dmem: &'a [u8],
) -> Result<Machine<&'a [u8]>, u32> {
    check_rdram(rdram)?;
    check_bank(dmem, BAD_DMEM)?;
    machine(state, rdram, dmem, &[])
}

/// A call's outcome: the state, value and count of a success, or the number
/// and the state as handed in.
fn outcome(state: &State, done: Result<(State, u64, u32), u32>) -> Outcome {
    let (number, (state, value, count)) = match done {
        Ok(success) => (0, success),
        Err(number) => (number, (state.clone(), 0, 0)),
    };
    Outcome {
        state,
        answer: Answer {
            number,
            value,
            count,
        },
    }
}

/// Power-up: every register and flag zero.
pub fn power_up() -> State {
    State::default()
}

pub fn is_sound(state: &State) -> bool {
    without_memory(state).is_ok()
}

/// Reads a register by any of its addresses. A read of SEMAPHORE changes the
/// state.
pub fn read_register(state: &State, address: u32) -> Outcome {
    let done = without_memory(state).and_then(|mut machine| {
        let value = machine.read(address)?;
        Ok((state_of(state, &machine), value.into(), 0))
    });
    outcome(state, done)
}

/// Writes a register by any of its addresses.
pub fn write_register(state: &State, address: u32, value: u32) -> Outcome {
    let done = without_memory(state).and_then(|mut machine| {
        machine.write(address, value)?;
        Ok((state_of(state, &machine), 0, 0))
    });
    outcome(state, done)
}

/// A burst: writes value k at address k, in order, each on the state that the
/// last one left. It stops at the first write that is refused, with its number,
/// and what the writes before it did stays done. The count is their number.
pub fn write_registers(state: &State, addresses: &[u32], values: &[u32]) -> Outcome {
    // Lengths that are not allowed are refused before anything else.
    let ready = check_burst(addresses, values).and_then(|()| without_memory(state));
    let (state, number, count) = match ready {
        Ok(mut machine) => {
            let (written, last) = machine.write_all(addresses, values);
            (state_of(state, &machine), last.err().unwrap_or(0), written)
        }
        Err(number) => (state.clone(), number, 0),
    };
    let answer = Answer {
        number,
        value: 0,
        count,
    };
    Outcome { state, answer }
}

pub fn tick(state: &State, n: u32) -> Outcome {
    let done = without_memory(state).map(|mut machine| {
        machine.tick(n);
        (state_of(state, &machine), 0, 0)
    });
    outcome(state, done)
}

pub fn sp_break(state: &State) -> Outcome {
    let done = without_memory(state).map(|mut machine| {
        machine.break_();
        (state_of(state, &machine), 0, 0)
    });
    outcome(state, done)
}

pub fn acknowledge(state: &State) -> Outcome {
    let done = without_memory(state).map(|mut machine| {
        machine.acknowledge();
        (state_of(state, &machine), 0, 0)
    });
    outcome(state, done)
}

/// One SP turn. The count is 1 if it moved a word.
pub fn sp_turn(state: &State, rdram: &mut [u8], dmem: &mut [u8], imem: &mut [u8]) -> Outcome {
    let done = with_all(state, rdram, dmem, imem).map(|mut machine| {
        let count = machine.sp_turn();
        (state_of(state, &machine), 0, count)
    });
    outcome(state, done)
}

/// Finishes the current SP row. The count is the number of its words that were
/// left, or 0 if the engine was idle.
pub fn sp_row(state: &State, rdram: &mut [u8], dmem: &mut [u8], imem: &mut [u8]) -> Outcome {
    let done = with_all(state, rdram, dmem, imem).map(|mut machine| {
        let count = machine.sp_row();
        (state_of(state, &machine), 0, count)
    });
    outcome(state, done)
}

/// One DP turn: a fetch into the queue. The count is 1 if it fetched a word.
pub fn dp_turn(state: &State, rdram: &[u8], dmem: &[u8]) -> Outcome {
    let done = without_imem(state, rdram, dmem).map(|mut machine| {
        let count = machine.dp_turn();
        (state_of(state, &machine), 0, count)
    });
    outcome(state, done)
}

/// One consumer turn, which takes no memory. The value is the word handed out,
/// and the count is 1 if there was one.
pub fn consumer_turn(state: &State) -> Outcome {
    let done = without_memory(state).map(|mut machine| {
        let word = machine.consumer_turn();
        let count = u32::from(word.is_some());
        (state_of(state, &machine), word.unwrap_or(0), count)
    });
    outcome(state, done)
}

/// A run by turns of the SP, the DP and the consumer. The outcome's count is the
/// number of words that the SP moved; `words` are those that the consumer handed
/// out into `out`.
#[allow(clippy::too_many_arguments)]
pub fn run(
    state: &State,
    sp_budget: u32,
    dp_budget: u32,
    consumer_budget: u32,
    rdram: &mut [u8],
    dmem: &mut [u8],
    imem: &mut [u8],
    out: &mut [u8],
) -> Ran {
    let mut words = 0;
    let done = with_all(state, rdram, dmem, imem).map(|mut machine| {
        let counts = machine.run(sp_budget, dp_budget, consumer_budget, out);
        words = counts.consumed;
        (state_of(state, &machine), 0, counts.moved)
    });
    Ran {
        outcome: outcome(state, done),
        words,
    }
}

/// Where the word at CURRENT stands, also while the queue is full. An empty part
/// is at the start of the memory that XBUS selects, or of RDRAM where a byte of
/// the state is no flag.
pub fn look_ahead(state: &State, rdram: &[u8], dmem: &[u8]) -> Part {
    let (Some(_), Some(dp)) = (sp_of(&state.sp), dp_of(&state.dp, &state.queue)) else {
        return Part::default();
    };
    let empty = Part {
        memory: dp.xbus.into(),
        ..Part::default()
    };
    if without_imem(state, rdram, dmem).is_err() || !dp.runs() || dp.freeze {
        return empty;
    }
    let (memory, offset) = if dp.xbus {
        (dmem, dp.current % BANK_BYTES)
    } else {
        (rdram, dp.current)
    };
    if offset as usize + WORD_BYTES > memory.len() {
        return empty;
    }
    Part {
        offset,
        length: WORD_BYTES as u32,
        ..empty
    }
}

/// The kind, address and value of a record; fields that it does not have
/// are 0.
fn fields(record: Record) -> (u8, u32, u64) {
    match record {
        Record::Write { address, value } => (1, address, value.into()),
        Record::Read { address, expected } => (2, address, expected.into()),
        Record::SpRun { budget } => (3, 0, budget.into()),
        Record::DpRun { budget } => (4, 0, budget.into()),
        Record::Tick { n } => (5, 0, n.into()),
        Record::Break => (6, 0, 0),
        Record::Acknowledge => (7, 0, 0),
        Record::Store { address, word } => (8, address, word),
        Record::Check { address, expected } => (9, address, expected),
        Record::Run {
            sp_budget,
            dp_budget,
        } => (10, 0, u64::from(sp_budget) << 32 | u64::from(dp_budget)),
    }
}

/// Reads the record at a place, whatever the place is.
pub fn read_record(recording: &[u8], place: usize) -> Reading {
    match recording::record_at(recording, place) {
        Ok((record, place)) => {
            let (kind, address, value) = fields(record);
            Reading {
                number: 0,
                kind,
                address,
                value,
                place,
            }
        }
        Err(number) => Reading {
            number,
            ..Reading::default()
        },
    }
}

/// Appends one record to a buffer from a place on, whatever the place is. The
/// value is the place after it. A field that the kind does not have plays no
/// part, nor do the upper 32 bits of the value for kinds 1 to 5.
pub fn write_record(kind: u8, address: u32, value: u64, buffer: &mut [u8], place: usize) -> Answer {
    let written = Record::of(kind, address, value)
        .and_then(|record| recording::append(record, buffer, place));
    match written {
        Ok(place) => Answer {
            value: place as u64,
            ..Answer::default()
        },
        Err(number) => Answer {
            number,
            ..Answer::default()
        },
    }
}

/// Replays a recording and writes as much of its listing as `out` has room
/// for. It stops at the first record that is refused, and what the records
/// before it did stays done.
pub fn replay(
    state: &State,
    recording: &[u8],
    rdram: &mut [u8],
    dmem: &mut [u8],
    imem: &mut [u8],
    out: &mut [u8],
) -> Replayed {
    // A recording that is too long is refused before anything else.
    let ready =
        recording::check_length(recording).and_then(|()| with_all(state, rdram, dmem, imem));
    let (state, replay) = match ready {
        Ok(mut machine) => {
            let replay = recording::replay(&mut machine, recording);
            (state_of(state, &machine), replay)
        }
        Err(number) => (state.clone(), recording::refused(number)),
    };
    let listing = replay.listing.as_bytes();
    let written = listing.len().min(out.len());
    out[..written].copy_from_slice(&listing[..written]);
    let answer = Answer {
        number: replay.number,
        value: 0,
        count: replay.count,
    };
    Replayed {
        outcome: Outcome { state, answer },
        place: replay.place,
        written,
        findings: replay.findings,
    }
}

/// The verdict of a replay, for every value of the struct, also one that no
/// replay gives.
pub fn verdict(replayed: &Replayed) -> Verdict {
    let number = replayed.outcome.answer.number;
    let Findings {
        compared,
        differed,
        first_index,
        first_place,
    } = replayed.findings;
    if number != 0 {
        Verdict::Refused {
            number,
            compared,
            differed,
        }
    } else if differed > 0 {
        Verdict::Differs {
            compared,
            differed,
            first_index,
            first_place,
        }
    } else if compared == 0 {
        Verdict::NothingCompared
    } else {
        Verdict::Passed { compared }
    }
}
