//! PIPE_BUSY: every word fetched sets it, a SYNC_FULL that is consumed clears
//! it, and nothing else changes it. STATUS shows it in bits 3 and 5, and its
//! counter counts while it is on.

mod common;

use common::*;
use model::calls::*;
use model::machine::{DP_CLOCK, DP_CURRENT, DP_END, DP_PIPE_BUSY, DP_START, DP_STATUS, REGISTERS};

/// Power-up but for PIPE_BUSY, over words from 0x2000 on that begin with these
/// bytes.
fn with_words(pipe_busy: u8, first_bytes: &[u8]) -> Bench {
    let mut bench = Bench::new();
    bench.state.dp.pipe_busy = pipe_busy;
    for (i, byte) in first_bytes.iter().enumerate() {
        bench.rdram[0x2000 + 8 * i] = *byte;
    }
    bench
}

/// The same, with a list begun over these words.
fn begun(pipe_busy: u8, first_bytes: &[u8]) -> Bench {
    let mut bench = with_words(pipe_busy, first_bytes);
    let end = 0x2000 + 8 * first_bytes.len() as u32;
    bench.writes(&[(DP_START, 0x2000), (DP_END, end)]);
    bench
}

/// PIPE_BUSY is this, in the state and in bits 3 and 5 of STATUS. The other
/// bits of STATUS are those of `others`.
fn expect_status(bench: &mut Bench, others: u32, pipe_busy: u8) {
    assert_eq!(bench.state.dp.pipe_busy, pipe_busy);
    let both_bits = if pipe_busy == 1 { 0x28 } else { 0 };
    bench.reads(&[(DP_STATUS, others | both_bits)]);
}

/// A fetch, which turns it on, then a consumer turn of the same word, and what
/// that leaves. Nothing is queued before and after them.
fn takes(bench: &mut Bench, others: u32, pipe_busy: u8) {
    bench.fetches(1);
    assert_eq!((bench.state.queue.len(), bench.state.dp.pipe_busy), (1, 1));
    assert_eq!(bench.consumer_turn().count, 1);
    expect_status(bench, others, pipe_busy);
}

/// The whole rule: what a word that is consumed leaves of PIPE_BUSY.
fn after_word(pipe_busy: u8, words_left: u8, first_byte: u8) -> u8 {
    let sync_full = words_left == 0 && first_byte % 64 == 0x29;
    if sync_full {
        0
    } else {
        pipe_busy
    }
}

#[test]
fn an_empty_list_leaves_it_as_it_was() {
    for pipe_busy in [0, 1] {
        for end in [0x2000, 0x1FF8, 0] {
            let mut bench = with_words(pipe_busy, &[]);
            bench.writes(&[(DP_START, 0x2000), (DP_END, end)]);
            expect_status(&mut bench, 0x80, pipe_busy);
            assert_eq!(bench.fetch_and_consume(), success(0, 0));
            expect_status(&mut bench, 0x80, pipe_busy);
        }
    }
}

#[test]
fn an_end_write_that_starts_a_list_leaves_it_as_it_was() {
    for pipe_busy in [0, 1] {
        let mut bench = with_words(pipe_busy, &[]);
        bench.writes(&[(DP_START, 0x2000)]);
        expect_status(&mut bench, 0x480, pipe_busy);
        bench.writes(&[(DP_END, 0x2010)]);
        expect_status(&mut bench, 0x180, pipe_busy);
        takes(&mut bench, 0x180, 1);
        takes(&mut bench, 0x80, 1);
    }
}

#[test]
fn a_status_write_that_starts_the_waiting_list_leaves_it_as_it_was() {
    for pipe_busy in [0, 1] {
        for (end, started) in [(0x2008, 0x180), (0x2000, 0x80), (0x1000, 0x80)] {
            let mut bench = with_words(pipe_busy, &[]);
            bench.writes(&[(DP_STATUS, 8), (DP_START, 0x2000), (DP_END, end)]);
            expect_status(&mut bench, 0x682, pipe_busy);
            bench.writes(&[(DP_STATUS, 4)]);
            expect_status(&mut bench, started, pipe_busy);
            bench.reads(&[(DP_CURRENT, 0x2000)]);
        }
    }
}

/// The waiting list starts in the fetch of a word, which turns it on, and the
/// word alone decides when it is consumed.
#[test]
fn a_turn_that_starts_the_waiting_list_goes_by_its_word() {
    for pipe_busy in [0, 1] {
        for (end, started) in [(0x3008, 0x180), (0x3000, 0x80), (0x1000, 0x80)] {
            for (byte, after) in [(0x00, 1), (0x27, 1), (0x29, 0), (0xE9, 0)] {
                let mut bench = begun(pipe_busy, &[byte]);
                bench.writes(&[(DP_START, 0x3000), (DP_END, end)]);
                expect_status(&mut bench, 0x780, pipe_busy);
                takes(&mut bench, started, after);
                bench.reads(&[(DP_CURRENT, 0x3000)]);
                bench.lines(0, 1 - after);
            }
        }
    }
}

#[test]
fn moving_end_leaves_it_as_it_was() {
    for pipe_busy in [0, 1] {
        let mut bench = with_words(pipe_busy, &[]);
        bench.writes(&[(DP_START, 0x2000), (DP_END, 0x2000)]);
        // Onto a list, further, back, to CURRENT, below it and on again.
        let ends = [
            (0x2008, 0x180),
            (0x2020, 0x180),
            (0x2010, 0x180),
            (0x2000, 0x80),
            (0x1FF8, 0x80),
            (0x2010, 0x180),
        ];
        for (end, others) in ends {
            bench.writes(&[(DP_END, end)]);
            expect_status(&mut bench, others, pipe_busy);
            bench.writes(&[(DP_STATUS, 8), (DP_END, end)]);
            expect_status(&mut bench, others | 2, pipe_busy);
            bench.writes(&[(DP_STATUS, 4)]);
            expect_status(&mut bench, others, pipe_busy);
        }
        takes(&mut bench, 0x180, 1);
        bench.writes(&[(DP_END, 0x2008)]);
        expect_status(&mut bench, 0x80, 1);
    }
}

/// Commands of every length; each word after the first looks like a SYNC_FULL.
#[test]
fn each_word_of_a_command_sets_it() {
    let lengths = [
        (0x00, 1),
        (0x24, 2),
        (0x08, 4),
        (0x09, 6),
        (0x0A, 12),
        (0x0B, 14),
        (0x0E, 20),
        (0x0F, 22),
    ];
    for (opcode, length) in lengths {
        for pipe_busy in [0, 1] {
            let mut bytes = vec![0xE9; length];
            bytes[0] = opcode;
            let mut bench = begun(0, &bytes);
            for left in (0..length).rev() {
                // It may be off within a command too: such a state is sound.
                bench.state.dp.pipe_busy = pipe_busy;
                let others = if left > 0 { 0x180 } else { 0x80 };
                takes(&mut bench, others, 1);
                assert_eq!(usize::from(bench.state.dp.words_left), left);
            }
            bench.lines(0, 0);
        }
    }
}

/// What a consumed word leaves of the command words left.
fn left_after_word(words_left: u8, first_byte: u8) -> u8 {
    match (words_left, first_byte % 64) {
        (0, 0x08) => 3,
        (0, 0x09) => 5,
        (0, 0x0A | 0x0C) => 11,
        (0, 0x0B | 0x0D) => 13,
        (0, 0x0E) => 19,
        (0, 0x0F) => 21,
        (0, 0x24 | 0x25) => 1,
        _ => words_left.saturating_sub(1),
    }
}

/// Every first byte as the first word of a command, and with every number of
/// words left. Nothing of the state but what the rules name is changed: the
/// fetch frames nothing, and no consumed word turns it on.
#[test]
fn every_first_byte_leaves_it_but_for_a_sync_full() {
    let mut bench = Bench::new();
    for (words_left, byte) in (0..=21).flat_map(|left| (0..=255).map(move |byte| (left, byte))) {
        for pipe_busy in [0, 1] {
            bench.rdram[0x2000] = byte;
            bench.state = power_up();
            bench.state.dp.current = 0x2000;
            bench.state.dp.limit = 0x2010;
            bench.state.dp.words_left = words_left;
            bench.state.dp.pipe_busy = pipe_busy;
            let mut after = bench.state.clone();
            let word = u64::from(byte) << 56;
            bench.fetches(1);
            after.dp.current = 0x2008;
            after.dp.pipe_busy = 1;
            after.queue = vec![word];
            assert_eq!(bench.state, after, "{words_left} {byte:02X} {pipe_busy}");

            // A state with words queued and PIPE_BUSY off is sound, too.
            bench.state.dp.pipe_busy = pipe_busy;
            assert_eq!(bench.consumer_turn(), success(word, 1));
            after.queue.clear();
            after.dp.pipe_busy = after_word(pipe_busy, words_left, byte);
            after.dp.line = u8::from(words_left == 0 && byte % 64 == 0x29);
            after.dp.words_left = left_after_word(words_left, byte);
            assert_eq!(bench.state, after, "{words_left} {byte:02X} {pipe_busy}");
        }
    }
}

/// SYNC_FULLs in the midst of a list and at its end, the line up or not; one
/// that is only the second word of a command; and more of it by END alone.
#[test]
fn a_word_after_sync_full_sets_it_again() {
    for pipe_busy in [0, 1] {
        let bytes = [0x27, 0x29, 0x27, 0xE9, 0x29, 0x24];
        let mut bench = begun(pipe_busy, &bytes);
        bench.rdram[0x2030] = 0x29;
        bench.rdram[0x2038] = 0x69;
        for after in [1, 0, 1, 0, 0] {
            takes(&mut bench, 0x180, after);
        }
        takes(&mut bench, 0x80, 1);
        bench.writes(&[(DP_END, 0x2040)]);
        expect_status(&mut bench, 0x180, 1);
        takes(&mut bench, 0x180, 1);
        takes(&mut bench, 0x80, 0);
        bench.writes(&[(DP_END, 0x2048)]);
        expect_status(&mut bench, 0x180, 0);
        takes(&mut bench, 0x80, 1);
    }
}

/// A list waits all the while, and does not start with the SYNC_FULL's turn.
#[test]
fn sync_full_clears_it_though_a_list_waits() {
    for pipe_busy in [0, 1] {
        let mut bench = begun(pipe_busy, &[0x29, 0x27, 0xA9, 0x00]);
        bench.writes(&[(DP_START, 0x3000), (DP_END, 0x3008)]);
        expect_status(&mut bench, 0x780, pipe_busy);
        for after in [0, 1, 0] {
            takes(&mut bench, 0x780, after);
        }
        takes(&mut bench, 0x180, 1);
        takes(&mut bench, 0x80, 1);
        bench.lines(0, 1);
    }
}

/// With XBUS it is DMEM's word that counts, and a word past the lent length
/// is one of zeros.
#[test]
fn words_from_dmem_and_past_the_lent_length_set_it() {
    let mut bench = Bench::new();
    bench.dmem[0xFF8] = 0x27;
    bench.dmem[0] = 0x29;
    bench.rdram[0x5FF8] = 0x29;
    bench.rdram[0x6000] = 0x27;
    bench.writes(&[(DP_STATUS, 2), (DP_START, 0x5FF8), (DP_END, 0x6008)]);
    expect_status(&mut bench, 0x181, 0);
    takes(&mut bench, 0x181, 1);
    takes(&mut bench, 0x81, 0);

    bench.rdram[0xFFF8] = 0x29;
    bench.rdram[0] = 0x29;
    bench.writes(&[(DP_STATUS, 1), (DP_START, 0xFFF8), (DP_END, 0x1_0010)]);
    takes(&mut bench, 0x180, 0);
    takes(&mut bench, 0x180, 1);
    bench.state.dp.pipe_busy = 0;
    bench.state.dp.words_left = 2;
    takes(&mut bench, 0x80, 1);
}

#[test]
fn a_turn_that_fetches_nothing_leaves_it_as_it_was() {
    let stopped = [
        (0x2000, 0, 0),
        (0x1FF8, 0, 0),
        (0x2000, 0, 1),
        (0x2000, 1, 0),
        (0x2010, 1, 0),
    ];
    for (limit, freeze, flush) in stopped {
        for (pipe_busy, words_left, byte) in [(0, 0, 0x27), (1, 0, 0x29), (0, 5, 0), (1, 5, 0)] {
            let mut bench = with_words(pipe_busy, &[byte, byte]);
            bench.state.dp.current = 0x2000;
            bench.state.dp.limit = limit;
            bench.state.dp.freeze = freeze;
            bench.state.dp.flush = flush;
            bench.state.dp.words_left = words_left;
            let before = bench.clone();
            assert_eq!(bench.dp_turn(), success(0, 0));
            assert_eq!(bench.consumer_turn(), success(0, 0));
            assert!(bench == before);
            assert_eq!(bench.run_dp(u32::MAX, &mut [0; 64]), 0);
            assert!(bench == before);
        }
    }
}

/// A run that its budget ends fetches and consumes word by word, and its last
/// word decides. Where the room ends the consumer, the fetches that go on turn
/// it on again.
#[test]
fn a_run_leaves_what_its_last_turn_left() {
    let bytes = [0x27, 0x29, 0x27, 0x24, 0x29, 0xE9];
    for pipe_busy in [0, 1] {
        let after = [pipe_busy, 1, 0, 1, 1, 1, 0];
        for (words, after) in after.into_iter().enumerate() {
            let count = words as u32;
            let mut bench = begun(pipe_busy, &bytes);
            let mut cramped = bench.clone();
            assert_eq!(bench.run_dp(count, &mut [0; 64]), count);
            assert_eq!(bench.state.dp.pipe_busy, after, "{words}");
            let mut room = vec![0; 8 * words + 7];
            assert_eq!(cramped.run_dp(u32::MAX, &mut room), count);
            let after = u8::from(words < 6);
            assert_eq!(cramped.state.dp.pipe_busy, after, "{words}");
        }
    }
}

/// Within a command or not, with a list running, waiting or neither.
#[test]
fn flush_leaves_it_as_it_was() {
    for pipe_busy in [0, 1] {
        for (limit, words_left) in [(0x2010, 0), (0x2010, 3), (0x2000, 0), (0x2000, 3)] {
            let mut bench = with_words(pipe_busy, &[]);
            bench.state.dp.current = 0x2000;
            bench.state.dp.limit = limit;
            bench.state.dp.words_left = words_left;
            bench.writes(&[(DP_STATUS, 8), (DP_START, 0x4000), (DP_END, 0x4008)]);
            bench.writes(&[(DP_STATUS, 0x24)]);
            expect_status(&mut bench, 0x84, pipe_busy);
            // Under FLUSH, a list and an END alone leave nothing running.
            bench.writes(&[(DP_START, 0x3000), (DP_END, 0x3010)]);
            expect_status(&mut bench, 0x84, pipe_busy);
            bench.writes(&[(DP_END, 0x3020)]);
            expect_status(&mut bench, 0x84, pipe_busy);
            bench.writes(&[(DP_STATUS, 0x10)]);
            expect_status(&mut bench, 0x80, pipe_busy);
        }
    }
}

/// Every STATUS write, also those that zero counters, freeze, flush or start
/// the waiting list.
#[test]
fn a_status_write_leaves_it_as_it_was() {
    for value in 0..0x400 {
        for (pipe_busy, freeze) in [(0, 0), (0, 1), (1, 0), (1, 1)] {
            for (limit, end_pending) in [(0x98, 0), (0x90, 0), (0xA0, 1), (0x90, freeze)] {
                let mut state = full_state();
                state.dp.limit = limit;
                state.dp.end_pending = end_pending;
                state.dp.freeze = freeze;
                state.dp.pipe_busy = pipe_busy;
                let outcome = write_register(&state, DP_STATUS, value);
                assert_eq!(outcome.answer, success(0, 0));
                assert_eq!(outcome.state.dp.pipe_busy, pipe_busy, "{value:03X}");
            }
        }
    }
}

#[test]
fn an_acknowledge_leaves_it_as_it_was() {
    let mut bench = begun(0, &[0x29, 0x27]);
    for after in [0, 1] {
        assert_eq!(bench.fetch_and_consume().count, 1);
        bench.lines(0, 1);
        let outcome = acknowledge(&bench.state);
        assert_eq!(outcome.answer, success(0, 0));
        let dp = outcome.state.dp;
        assert_eq!((dp.line, dp.pipe_busy), (0, after));
    }
}

/// A tick, and what the counter then reads as.
fn ticks(bench: &mut Bench, n: u32, counted: u32) {
    let outcome = tick(&bench.state, n);
    bench.took(outcome, success(0, 0));
    bench.reads(&[(DP_PIPE_BUSY, counted)]);
}

/// Each tick is a power of two, so that the sum tells which were counted.
#[test]
fn the_counter_counts_from_the_first_word_until_sync_full() {
    let mut bench = with_words(0, &[0x27, 0x24, 0x29, 0x29, 0x27]);
    ticks(&mut bench, 0x01, 0);
    bench.writes(&[(DP_START, 0x2000), (DP_END, 0x2000)]);
    ticks(&mut bench, 0x02, 0);
    bench.writes(&[(DP_END, 0x2020)]);
    ticks(&mut bench, 0x04, 0);
    // A word; the first and the second of a command, which is no SYNC_FULL.
    for (n, counted) in [(0x08, 0x08), (0x10, 0x18), (0x20, 0x38)] {
        assert_eq!(bench.fetch_and_consume().count, 1);
        ticks(&mut bench, n, counted);
    }
    bench.writes(&[(DP_STATUS, 8)]);
    assert_eq!(bench.fetch_and_consume(), success(0, 0));
    ticks(&mut bench, 0x40, 0x78);
    bench.writes(&[(DP_STATUS, 4)]);
    assert_eq!(bench.fetch_and_consume(), success(0x29 << 56, 1));
    ticks(&mut bench, 0x80, 0x78);
    bench.writes(&[(DP_END, 0x2028)]);
    ticks(&mut bench, 0x100, 0x78);
    assert_eq!(bench.fetch_and_consume(), success(0x27 << 56, 1));
    ticks(&mut bench, 0x200, 0x278);
    bench.writes(&[(DP_STATUS, 0x20)]);
    ticks(&mut bench, 0x400, 0x678);
    // To zero the counter does not stop it.
    bench.writes(&[(DP_STATUS, 0x80)]);
    bench.reads(&[(DP_PIPE_BUSY, 0)]);
    ticks(&mut bench, 0x800, 0x800);
    bench.reads(&[(DP_CLOCK, 0xFFF)]);
}

/// A write (1) or a read (2) as bytes.
fn record(kind: u8, address: u32, value: u32) -> Vec<u8> {
    [&[kind], &address.to_be_bytes()[..], &value.to_be_bytes()].concat()
}

#[test]
fn a_recording_shows_it() {
    let run = vec![4, 0, 0, 0, 1];
    let records = [
        record(1, DP_START, 0x2000),
        record(1, DP_END, 0x2000),
        record(2, DP_STATUS, 0x80),
        record(1, DP_END, 0x2010),
        record(2, DP_STATUS, 0x180),
        run.clone(),
        record(2, DP_STATUS, 0x1A8),
        vec![5, 0, 0, 0, 3],
        run,
        record(2, DP_STATUS, 0x80),
        vec![5, 0, 0, 0, 4],
        record(2, DP_PIPE_BUSY, 3),
    ];
    let mut bench = with_words(0, &[0x27, 0xE9]);
    let (state, listing) = bench.replay_to_end(&records.concat(), 12);
    let expected = "replay 1\nR 0410000C 00000080 ok\nR 0410000C 00000180 ok\n\
        D 00000001\nR 0410000C 000001A8 ok\nD 00000001\nR 0410000C 00000080 ok\n\
        R 04100018 00000003 ok\nend 12\n";
    assert_eq!(listing, expected);
    assert_eq!((state.dp.pipe_busy, state.dp.line), (0, 1));
}

/// Words left above 0 with PIPE_BUSY off is sound: words set it, and no clause
/// joins the two.
#[test]
fn it_may_be_off_within_a_command() {
    for words_left in 0..=21 {
        for pipe_busy in [0, 1] {
            let mut state = power_up();
            state.dp.words_left = words_left;
            state.dp.pipe_busy = pipe_busy;
            assert!(is_sound(&state));
            assert_eq!(tick(&state, 0).state, state);
        }
    }
}

/// A declined turn or run gives the flag back as it was, like all else.
#[test]
fn a_declined_turn_leaves_it_as_it_was() {
    for pipe_busy in [0, 1] {
        let mut bench = Bench::running();
        bench.state.dp.pipe_busy = pipe_busy;
        bench.dmem.pop();
        expect_numbers(&bench, 2, 2);
        bench.rdram.pop();
        expect_numbers(&bench, 1, 1);
    }
}

/// Any sound state and any call. Half of the words begin like a SYNC_FULL.
#[test]
fn only_a_fetch_and_a_consumed_sync_full_change_it() {
    let mut random = Random(0x0F1E_2D3C_4B5A_6979);
    let mut bench = Bench::running();
    for _ in 0..4_000 {
        let mut state = random.sound_state();
        let value = random.number();
        state.dp.words_left *= value as u8 & 1;
        let mut outcomes = vec![tick(&state, value), sp_break(&state), acknowledge(&state)];
        for address in REGISTERS {
            outcomes.push(read_register(&state, address));
            outcomes.push(write_register(&state, address, value));
        }
        outcomes.push(write_registers(&state, &REGISTERS, &[value; 16]));
        for outcome in outcomes {
            assert_eq!(outcome.answer.number, 0);
            assert_eq!(outcome.state.dp.pipe_busy, state.dp.pipe_busy);
        }
        let pipe_busy = state.dp.pipe_busy;
        bench.state = state.clone();
        assert_eq!(bench.run_sp(value % 64).number, 0);
        assert_eq!(bench.state.dp.pipe_busy, pipe_busy);

        bench.state = state.clone();
        plant(&mut bench, value);
        let fetched = bench.dp_turn().count == 1;
        let expected = if fetched { 1 } else { pipe_busy };
        assert_eq!(bench.state.dp.pipe_busy, expected);

        bench.state = state;
        plant(&mut bench, value);
        let words_left = bench.state.dp.words_left;
        let turn = bench.consumer_turn();
        let expected = match turn.count {
            1 => after_word(pipe_busy, words_left, (turn.value >> 56) as u8),
            _ => pipe_busy,
        };
        assert_eq!(bench.state.dp.pipe_busy, expected);
    }
}

/// Puts the first byte of a SYNC_FULL where the next word to fetch stands and
/// into the oldest word queued, for one value in two.
fn plant(bench: &mut Bench, value: u32) {
    if value & 2 != 0 {
        return;
    }
    let byte = value as u8 & 0xC0 | 0x29;
    let look = bench.look();
    if look.length == 8 {
        let memories = [&mut bench.rdram, &mut bench.dmem];
        memories[look.memory as usize][look.offset as usize] = byte;
    }
    if let Some(oldest) = bench.state.queue.first_mut() {
        *oldest = *oldest << 8 >> 8 | u64::from(byte) << 56;
    }
}
