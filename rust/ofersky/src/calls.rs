//! The public calls. Each hands its input through and gives the library's whole answer.

use crate::{raw, Answer, Outcome, Part, Ran, Reading, Record, Replayed, State};

/// The version of the library that the program is linked with; see [`VERSION`](crate::VERSION).
///
/// ```
/// assert_eq!(ofersky::version(), ofersky::VERSION);
/// ```
pub fn version() -> u32 {
    // SAFETY: no pointer is handed over.
    unsafe { raw::ofersky_version() }
}

/// Every register and flag zero.
pub fn power_up() -> State {
    // SAFETY: no pointer is handed over, and every value gets an answer.
    unsafe { raw::ofersky_power_up() }
}

/// Whether the calls accept a state.
pub fn is_sound(state: State) -> bool {
    // SAFETY: no pointer is handed over, and every value gets an answer.
    unsafe { raw::ofersky_is_sound(state) }
}

/// Reads a register, by its address or a mirror of it. Bit 6 of DP STATUS says that a word is
/// queued. Refusals: 4, 10, 5.
pub fn read_register(state: State, address: u32) -> Outcome {
    // SAFETY: no pointer is handed over, and every value gets an answer.
    unsafe { raw::ofersky_read_register(state, address) }
}

/// Writes a register, by its address or a mirror of it. A write to DP STATUS that sets FLUSH
/// empties the queue, also where it is on already. Refusals: 4, 10, 5.
///
/// ```
/// let refusal = |address| ofersky::write_register(ofersky::power_up(), address, 0).answer.number;
/// assert_eq!(refusal(0x0404_001C), 0);
/// // Not a multiple of 4, and a multiple of 4 that is no register's address.
/// assert_eq!(refusal(0x0404_001E), 10);
/// assert_eq!(refusal(0x0404_0020), 5);
/// ```
pub fn write_register(state: State, address: u32, value: u32) -> Outcome {
    // SAFETY: no pointer is handed over, and every value gets an answer.
    unsafe { raw::ofersky_write_register(state, address, value) }
}

/// A burst: writes value k at address k, one pair after the other, each on the state that the last
/// one left. It stops at the first pair that is refused, and what the pairs before it did stays
/// done. The value is 0, the count the number of pairs written. Refusals: 11, where the lengths
/// differ or are more than 64, and 4, both with nothing done; then those of a pair: 10, 5.
///
/// ```
/// let (ramaddr, rdlen, outside) = (0x0404_0004, 0x0404_0008, 0x0404_0020);
/// let burst = |addresses: &[u32], values: &[u32]| {
///     let done = ofersky::write_registers(ofersky::power_up(), addresses, values);
///     let sp = done.state.sp;
///     (done.answer.number, done.answer.count, sp.ram_latch, sp.busy)
/// };
/// assert_eq!(burst(&[ramaddr, rdlen], &[0x2000, 0x0F]), (0, 2, 0x2000, 1));
/// // The pair in the middle is refused: RAMADDR is written, and no transfer starts.
/// assert_eq!(burst(&[ramaddr, outside, rdlen], &[0x2000, 0, 0x0F]), (5, 1, 0x2000, 0));
/// // An address without its value.
/// assert_eq!(burst(&[ramaddr, rdlen], &[0x2000]), (11, 0, 0, 0));
/// assert_eq!(burst(&[], &[]), (0, 0, 0, 0));
/// ```
pub fn write_registers(state: State, addresses: &[u32], values: &[u32]) -> Outcome {
    let [a, v] = [addresses, values].map(shared);
    // SAFETY: each pointer and length are of one slice, borrowed for the call, and nothing is
    // written.
    unsafe { raw::ofersky_write_registers(state, a.0, a.1, v.0, v.1) }
}

/// Adds to the clock; to the CMD_BUSY counter if a word is queued; and to the PIPE_BUSY counter if
/// that flag is on. Refusal: 4.
pub fn tick(state: State, n: u32) -> Outcome {
    // SAFETY: no pointer is handed over, and every value gets an answer.
    unsafe { raw::ofersky_tick(state, n) }
}

/// The SP meets a BREAK. Refusal: 4.
pub fn sp_break(state: State) -> Outcome {
    // SAFETY: no pointer is handed over, and every value gets an answer.
    unsafe { raw::ofersky_sp_break(state) }
}

/// The DP interrupt is acknowledged. Refusal: 4.
pub fn acknowledge(state: State) -> Outcome {
    // SAFETY: no pointer is handed over, and every value gets an answer.
    unsafe { raw::ofersky_acknowledge(state) }
}

/// One SP turn. Refusals: 1, 2, 3, 4.
pub fn sp_turn(state: State, rdram: &mut [u8], dmem: &mut [u8], imem: &mut [u8]) -> Outcome {
    let [r, d, i] = [rdram, dmem, imem].map(lent);
    // SAFETY: each pointer and length are of one slice, borrowed for the call, and a mutable borrow
    // overlaps nothing.
    unsafe { raw::ofersky_sp_turn(state, r.0, r.1, d.0, d.1, i.0, i.1) }
}

/// Finishes the current row: LEN/8 + 1 SP turns in one call, or none if the engine is idle. Behind
/// the last row a waiting transfer has started, and no word of it is moved. The value is 0, the
/// count the number of words moved; those that read as zeros and those that are dropped count too.
/// Refusals: 1, 2, 3, 4.
///
/// ```
/// let (mut rdram, mut dmem, mut imem) = ([1; 0x28], [2; 4096], [0; 4096]);
/// // RDLEN: two rows of two words, and 16 bytes are skipped between them. One word is moved alone.
/// let started = ofersky::write_register(ofersky::power_up(), 0x0404_0008, 0x0100_100F).state;
/// let state = ofersky::sp_turn(started, &mut rdram, &mut dmem, &mut imem).state;
/// let mut row = |state| ofersky::sp_row(state, &mut rdram, &mut dmem, &mut imem);
/// let first = row(state);
/// assert_eq!((first.answer.count, first.state.sp.ram_addr), (1, 0x20));
/// let second = row(first.state);
/// assert_eq!((second.answer.count, second.state.sp.busy), (2, 0));
/// assert_eq!(row(second.state).answer.count, 0);
/// // RDRAM ends before the last word of the second row.
/// assert_eq!(dmem[..0x28], [[1; 8], [1; 8], [1; 8], [0; 8], [2; 8]].concat());
/// ```
pub fn sp_row(state: State, rdram: &mut [u8], dmem: &mut [u8], imem: &mut [u8]) -> Outcome {
    let [r, d, i] = [rdram, dmem, imem].map(lent);
    // SAFETY: each pointer and length are of one slice, borrowed for the call, and a mutable borrow
    // overlaps nothing.
    unsafe { raw::ofersky_sp_row(state, r.0, r.1, d.0, d.1, i.0, i.1) }
}

/// One DP turn: fetches the word at CURRENT into the queue, if a list runs, FREEZE is off and fewer
/// than 32 words are queued. The value is 0, the count 1 if it fetched. Refusals: 1, 2, 4.
pub fn dp_turn(state: State, rdram: &[u8], dmem: &[u8]) -> Outcome {
    let [r, d] = [rdram, dmem].map(shared);
    // SAFETY: each pointer and length are of one slice, borrowed for the call, and nothing is
    // written.
    unsafe { raw::ofersky_dp_turn(state, r.0, r.1, d.0, d.1) }
}

/// One consumer turn: takes the oldest word from the queue, if there is one and FREEZE is off. The
/// value is the word, the count 1; otherwise both are 0. Here the word counts for its command, and
/// a SYNC_FULL turns PIPE_BUSY off and raises the DP line. Refusal: 4.
///
/// ```
/// // A list of one word, which begins a SYNC_FULL.
/// let (rdram, dmem) = ([0x29, 0, 0, 0, 0, 0, 0, 7], [0; 4096]);
/// let started = ofersky::write_register(ofersky::power_up(), 0x0410_0004, 8).state;
/// let fetched = ofersky::dp_turn(started, &rdram, &dmem);
/// assert_eq!((fetched.answer.value, fetched.answer.count), (0, 1));
/// assert!(fetched.state.queued_words().eq([0x2900_0000_0000_0007]));
/// // PIPE_BUSY (bits 3 and 5) and a queued word (bit 6).
/// assert_eq!(ofersky::read_register(fetched.state, 0x0410_000C).answer.value, 0xE8);
/// let consumed = ofersky::consumer_turn(fetched.state);
/// assert_eq!((consumed.answer.value, consumed.answer.count), (0x2900_0000_0000_0007, 1));
/// assert_eq!((consumed.state.dp.pipe_busy, consumed.state.dp.line), (0, 1));
/// // The queue is empty.
/// assert_eq!(ofersky::consumer_turn(consumed.state).answer.count, 0);
/// ```
pub fn consumer_turn(state: State) -> Outcome {
    // SAFETY: no pointer is handed over, and every value gets an answer.
    unsafe { raw::ofersky_consumer_turn(state) }
}

/// Rounds of SP turn, DP turn and consumer turn, each until its budget is used or it would do
/// nothing, and the consumer's also until `out` has no room for a word. The run ends when none of
/// the three would act: without room the DP still fetches until the queue is full, and the next run
/// begins with those words. Where the SP writes bytes that are yet to be fetched, this order
/// decides. Refusals: 1, 2, 3, 4.
///
/// ```
/// let (mut rdram, mut dmem, mut imem) = ([0; 64], [1; 4096], [0; 4096]);
/// let mut out = [0xFF; 16];
/// let mut state = ofersky::power_up();
/// // The SP stores the first two words of DMEM at 0 and 8, and the list has the words at 8 and 16.
/// for (address, value) in [(0x0404_000C, 0x0F), (0x0410_0000, 8), (0x0410_0004, 24)] {
///     state = ofersky::write_register(state, address, value).state;
/// }
/// let ran = ofersky::run(state, 100, 100, 100, &mut rdram, &mut dmem, &mut imem, &mut out);
/// assert_eq!((ran.outcome.answer.count, ran.words), (2, 2));
/// // The word at 8 is fetched before the SP's second turn stores it.
/// assert_eq!((rdram[8], out), (1, [0; 16]));
/// ```
#[allow(clippy::too_many_arguments)]
pub fn run(
    state: State,
    sp_budget: u32,
    dp_budget: u32,
    consumer_budget: u32,
    rdram: &mut [u8],
    dmem: &mut [u8],
    imem: &mut [u8],
    out: &mut [u8],
) -> Ran {
    let [r, d, i, o] = [rdram, dmem, imem, out].map(lent);
    // SAFETY: each pointer and length are of one slice, borrowed for the call, and a mutable borrow
    // overlaps nothing.
    unsafe {
        raw::ofersky_run(
            state,
            sp_budget,
            dp_budget,
            consumer_budget,
            r.0,
            r.1,
            d.0,
            d.1,
            i.0,
            i.1,
            o.0,
            o.1,
        )
    }
}

/// Where the word at CURRENT stands, which the next fetch takes, also while the queue is full; or
/// an empty part.
pub fn look_ahead(state: State, rdram: &[u8], dmem: &[u8]) -> Part {
    let [r, d] = [rdram, dmem].map(shared);
    // SAFETY: each pointer and length are of one slice, borrowed for the call, and nothing is
    // written.
    unsafe { raw::ofersky_look_ahead(state, r.0, r.1, d.0, d.1) }
}

/// The bytes that [`look_ahead`] finds.
pub fn next_word<'a>(state: State, rdram: &'a [u8], dmem: &'a [u8]) -> &'a [u8] {
    let part = look_ahead(state, rdram, dmem);
    let memory = if part.memory == 0 { rdram } else { dmem };
    &memory[part.offset as usize..][..part.length as usize]
}

/// The record at a place of a recording, and the place after it. Refusals: 9, 7, 8, and then 10 and
/// 5 for a register's address, 6 for one of memory.
pub fn read_record(recording: &[u8], place: usize) -> Reading {
    let r = shared(recording);
    // SAFETY: each pointer and length are of one slice, borrowed for the call, and nothing is
    // written.
    unsafe { raw::ofersky_read_record(r.0, r.1, place) }
}

/// Appends a record to a buffer from a place on; the value is the place after it, and no other byte
/// changes. Of kinds 1 to 5 only the lower half of the value is written. Refusals: 7; 10, 5 or 6 as
/// in reading; and then 14, where the record would end past the buffer or past 16,383 bytes.
///
/// ```
/// use ofersky::{read_record, write_record, Record};
///
/// let load = Record { kind: 1, address: 0x0404_0008, value: 0x0F };
/// // The SP's budget is 100, and that of the DP and of the consumer 20.
/// let run = Record { kind: 10, address: 0, value: 100 << 32 | 20 };
/// let mut buffer = [0; 18];
/// let after = write_record(load, &mut buffer, 0).value as usize;
/// let end = write_record(run, &mut buffer, after).value as usize;
/// assert_eq!(buffer, [1, 4, 4, 0, 8, 0, 0, 0, 0x0F, 10, 0, 0, 0, 100, 0, 0, 0, 20]);
/// assert_eq!(read_record(&buffer, 0).item, load);
/// assert_eq!(read_record(&buffer, after).item, run);
/// // The buffer is full.
/// assert_eq!(write_record(run, &mut buffer, end).number, 14);
/// ```
pub fn write_record(item: Record, buffer: &mut [u8], place: usize) -> Answer {
    let b = lent(buffer);
    // SAFETY: each pointer and length are of one slice, borrowed for the call, and a mutable borrow
    // overlaps nothing.
    unsafe { raw::ofersky_write_record(item, b.0, b.1, place) }
}

/// Replays a recording and writes its listing to `out`. It stops at a record that is refused, and
/// what the records before it did stays done. A record of kind 3 is a run with the budgets b, 0, 0;
/// of kind 4 with 0, b, b; of kind 10 with a, b, b. Each has room for 256 words; words that are
/// still queued then wait for the next run. Refusals: 9, 1, 2, 3, 4, and those of its records: 7,
/// 8, 10, 5, 6.
///
/// ```
/// let (mut rdram, mut dmem, mut imem) = ([0; 64], [0; 4096], [0; 4096]);
/// let mut out = vec![0; ofersky::LISTING_BYTES];
/// // A tick, then a read of an address that is not a multiple of 4; it begins at byte 5.
/// let recording = [5, 0, 0, 0, 1, 2, 4, 4, 0, 2, 0, 0, 0, 0];
/// let state = ofersky::power_up();
/// let done = ofersky::replay(state, &recording, &mut rdram, &mut dmem, &mut imem, &mut out);
/// let answer = done.outcome.answer;
/// assert_eq!((answer.count, answer.number, done.place), (1, 10, 5));
/// assert_eq!(&out[..done.written], b"replay 1\nstop 1 10 5\n");
/// ```
pub fn replay(
    state: State,
    recording: &[u8],
    rdram: &mut [u8],
    dmem: &mut [u8],
    imem: &mut [u8],
    out: &mut [u8],
) -> Replayed {
    let s = shared(recording);
    let [r, d, i, o] = [rdram, dmem, imem, out].map(lent);
    // SAFETY: each pointer and length are of one slice, borrowed for the call, and a mutable borrow
    // overlaps nothing.
    unsafe { raw::ofersky_replay(state, s.0, s.1, r.0, r.1, d.0, d.1, i.0, i.1, o.0, o.1) }
}

/// A slice as C takes it.
fn shared<T>(items: &[T]) -> (*const T, usize) {
    (items.as_ptr(), items.len())
}

/// A mutable slice as C takes it.
fn lent(bytes: &mut [u8]) -> (*mut u8, usize) {
    (bytes.as_mut_ptr(), bytes.len())
}
