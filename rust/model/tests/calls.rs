//! The single calls against the rules: its marked examples, every refusal in
//! its case and order, the look, and what each call leaves as it was.

mod common;

use common::*;
use model::calls::*;
use model::machine::{
    DP_CLOCK, DP_CMD_BUSY, DP_CURRENT, DP_END, DP_PIPE_BUSY, DP_START, DP_STATUS, DP_TMEM_BUSY,
    REGISTERS, SP_DMA_BUSY, SP_DMA_FULL, SP_RAMADDR, SP_RDLEN, SP_SEMAPHORE, SP_SPADDR, SP_STATUS,
    SP_WRLEN,
};

#[test]
fn m1_status_at_power_up() {
    let mut bench = Bench::new();
    assert_eq!(bench.state, State::default());
    bench.reads(&[(SP_STATUS, 0), (DP_STATUS, 0x80)]);
    bench.lines(0, 0);
}

#[test]
fn m2_and_m3_a_load_with_rows() {
    let mut bench = Bench::new();
    bench.writes(&[(SP_RAMADDR, 0x1000), (SP_RDLEN, 0x0200_B03F)]);
    bench.sp_turns(9);
    bench.reads(&[(SP_RAMADDR, 0x1068), (SP_SPADDR, 0x48)]);
    bench.reads(&[(SP_RDLEN, 0x0200_A030), (SP_WRLEN, 0x0200_A030)]);
    bench.reads(&[(SP_DMA_BUSY, 1), (SP_STATUS, 4)]);
    bench.sp_turns(96 - 9);
    bench.reads(&[(SP_RAMADDR, 0x1460), (SP_SPADDR, 0x300)]);
    bench.reads(&[(SP_RDLEN, 0x0200_0FF8), (SP_WRLEN, 0x0200_0FF8)]);
    bench.reads(&[(SP_DMA_BUSY, 0), (SP_STATUS, 0)]);
    bench.lines(0, 0);
    let idle = bench.clone();
    assert_eq!(bench.sp_turn(), success(0, 0));
    assert!(bench == idle);
}

#[test]
fn m4_the_longest_load() {
    let mut bench = Bench::new();
    bench.writes(&[(SP_RDLEN, 0xFFFF_FFFF)]);
    let mut turns = 0;
    while bench.state.sp.busy == 1 {
        assert_eq!(bench.sp_turn(), success(0, 1));
        turns += 1;
    }
    assert_eq!(turns, 131_072);
    bench.reads(&[(SP_RAMADDR, 0x1F_E808), (SP_DMA_BUSY, 0)]);
    bench.lines(0, 0);
}

#[test]
fn m5_the_bank_wraps() {
    let mut bench = Bench::new();
    bench.writes(&[(SP_SPADDR, 0xFFFF_FFFF), (SP_RDLEN, 0x0F)]);
    bench.sp_turns(2);
    bench.reads(&[(SP_SPADDR, 0x1008), (SP_DMA_BUSY, 0)]);
    bench.lines(0, 0);
}

#[test]
fn m6_sp_status_pairs() {
    let mut bench = Bench::new();
    bench.writes(&[(SP_STATUS, 0x0100_0000)]);
    bench.reads(&[(SP_STATUS, 0x4000)]);
    assert_eq!(bench.state.sp.signals, 0x80);
    for halted in [1, 0] {
        bench.writes(&[(SP_STATUS, halted + 1)]);
        bench.reads(&[(SP_STATUS, 0x4000 | halted)]);
        bench.writes(&[(SP_STATUS, 3)]);
        bench.reads(&[(SP_STATUS, 0x4000 | halted)]);
    }
    bench.lines(0, 0);
    bench.writes(&[(SP_STATUS, 0x10)]);
    bench.lines(1, 0);
    bench.writes(&[(SP_STATUS, 0x18)]);
    bench.lines(1, 0);
    bench.writes(&[(SP_STATUS, 0x08)]);
    bench.lines(0, 0);
}

#[test]
fn m7_semaphore() {
    let mut bench = Bench::new();
    bench.reads(&[(SP_SEMAPHORE, 0), (SP_SEMAPHORE, 1)]);
    bench.writes(&[(SP_SEMAPHORE, 1)]);
    bench.reads(&[(SP_SEMAPHORE, 0)]);
    bench.lines(0, 0);
}

#[test]
fn m8_an_empty_list() {
    let mut bench = Bench::new();
    bench.writes(&[(DP_START, 0x2000), (DP_END, 0x2000)]);
    bench.reads(&[(DP_STATUS, 0x80)]);
    bench.lines(0, 0);
    assert_eq!(bench.dp_turn(), success(0, 0));
}

#[test]
fn m9_a_waiting_list() {
    let mut bench = Bench::new();
    bench.writes(&[(DP_START, 0x2000), (DP_END, 0x2018)]);
    bench.writes(&[(DP_START, 0x3000), (DP_END, 0x3008)]);
    bench.reads(&[(DP_STATUS, 0x780)]);
    for _ in 0..3 {
        assert_eq!(bench.fetch_and_consume(), success(0, 1));
    }
    bench.reads(&[(DP_CURRENT, 0x3000), (DP_STATUS, 0x1A8)]);
    bench.lines(0, 0);
}

#[test]
fn m10_freeze() {
    let mut bench = Bench::new();
    bench.writes(&[(DP_STATUS, 8), (DP_START, 0x2000), (DP_END, 0x2008)]);
    bench.reads(&[(DP_STATUS, 0x682)]);
    assert_eq!(bench.fetch_and_consume(), success(0, 0));
    bench.writes(&[(DP_STATUS, 4)]);
    bench.reads(&[(DP_STATUS, 0x180)]);
    bench.lines(0, 0);
}

#[test]
fn m11_sync_full_with_top_bits() {
    let mut bench = Bench::new();
    bench.rdram[0x2000] = 0xE9;
    bench.writes(&[(DP_START, 0x2000), (DP_END, 0x2008)]);
    bench.lines(0, 0);
    assert_eq!(bench.fetch_and_consume(), success(0xE9 << 56, 1));
    bench.lines(0, 1);
    bench.reads(&[(DP_STATUS, 0x80)]);
    let raised = bench.state.clone();
    bench.took(acknowledge(&raised), success(0, 0));
    bench.lines(0, 0);
}

/// One fetch and no consumer turn.
#[test]
fn m12_flush() {
    let mut bench = Bench::new();
    bench.writes(&[(DP_START, 0x2000), (DP_END, 0x2018)]);
    bench.fetches(1);
    bench.reads(&[(DP_STATUS, 0x1E8)]);
    bench.writes(&[(DP_STATUS, 0x20)]);
    bench.reads(&[(DP_CURRENT, 0x2008), (DP_STATUS, 0xAC)]);
    bench.lines(0, 0);
}

/// A call changes what its rule names and keeps every other field.
#[test]
fn break_acknowledge_and_tick_change_only_their_fields() {
    let full = full_state();
    let mut after = full.clone();
    after.sp.halted = 1;
    after.sp.broke = 1;
    after.sp.line = 1;
    let outcome = sp_break(&full);
    assert_eq!(outcome.answer, success(0, 0));
    assert_eq!(outcome.state, after);

    let mut quiet = full.clone();
    quiet.sp.interrupt_on_break = 0;
    after.sp.interrupt_on_break = 0;
    after.sp.line = 0;
    assert_eq!(sp_break(&quiet).state, after);

    let mut after = full.clone();
    after.dp.line = 0;
    assert_eq!(acknowledge(&full).state, after);

    // 24 bits: the second sum wraps, and a tick is cut like its sum.
    after = full.clone();
    after.dp.clock = 0x1010;
    after.dp.cmd_busy_count = 0x0F;
    after.dp.pipe_busy_count = 0x1030;
    let outcome = tick(&full, 0xAB00_1000);
    assert_eq!((outcome.state, outcome.answer), (after, success(0, 0)));
}

#[test]
fn counters_stand_where_their_status_bits_are_off() {
    let mut state = full_state();
    state.dp.cmd_busy_count = 0x20;
    // Words left play no part in CMD_BUSY: a queued word does.
    for (queued, words_left) in [(0, 0), (0, 21), (1, 0), (1, 21), (2, 0), (32, 1)] {
        for pipe_busy in [0, 1] {
            state.queue = vec![0; queued];
            state.dp.words_left = words_left;
            state.dp.pipe_busy = pipe_busy;
            let mut after = state.clone();
            after.dp.clock = 0x13;
            after.dp.cmd_busy_count = if queued > 0 { 0x23 } else { 0x20 };
            after.dp.pipe_busy_count = if pipe_busy == 1 { 0x33 } else { 0x30 };
            assert_eq!(tick(&state, 3).state, after);
        }
    }
}

/// Every register reads its own field of a state that has no two alike.
#[test]
fn each_register_reads_its_field() {
    let state = full_state();
    let length = 0x50 << 20 | 0x40 << 12 | 0x30;
    let expected = [
        (SP_SPADDR, 0x1018),
        (SP_RAMADDR, 0x20),
        (SP_RDLEN, length),
        (SP_WRLEN, length),
        (SP_STATUS, 0xA5 << 7 | 0x6C),
        (SP_DMA_FULL, 1),
        (SP_DMA_BUSY, 1),
        (SP_SEMAPHORE, 0),
        (DP_START, 0x70),
        (DP_END, 0x80),
        (DP_CURRENT, 0x90),
        (DP_STATUS, 0x7E9),
        (DP_CLOCK, 0x10),
        (DP_CMD_BUSY, 0xFF_F00F),
        (DP_PIPE_BUSY, 0x30),
        (DP_TMEM_BUSY, 0x40),
    ];
    assert!(expected.iter().map(|pair| pair.0).eq(REGISTERS));
    for (address, value) in expected {
        let outcome = read_register(&state, address);
        assert_eq!(outcome.answer, success(value, 0), "{address:08X}");
        let mut after = state.clone();
        after.sp.semaphore = u8::from(address == SP_SEMAPHORE);
        assert_eq!(outcome.state, after, "{address:08X}");
    }
}

/// Writes to registers that can only be read succeed and do nothing, and so
/// does every bit pair that is wholly on.
#[test]
fn writes_that_do_nothing() {
    let state = full_state();
    let only_read = [SP_DMA_FULL, SP_DMA_BUSY, DP_CURRENT, DP_CLOCK];
    for address in only_read {
        expect_kept(&state, address, u32::MAX);
    }
    for address in [DP_CMD_BUSY, DP_PIPE_BUSY, DP_TMEM_BUSY] {
        expect_kept(&state, address, u32::MAX);
    }
    expect_kept(&state, SP_STATUS, 0xFFFF_FFFB);
    expect_kept(&state, DP_STATUS, 0xFFFF_FC3F);
}

fn expect_kept(state: &State, address: u32, value: u32) {
    let outcome = write_register(state, address, value);
    assert_eq!(outcome.answer, success(0, 0), "{address:08X}");
    assert_eq!(outcome.state, *state, "{address:08X}");
}

/// Both directions, both banks, by turns and by a run with a budget.
#[test]
fn a_run_is_its_turns() {
    let mut bench = Bench::new();
    bench.fill();
    bench.writes(&[(SP_SPADDR, 0x1FE0), (SP_RAMADDR, 0xFFC0)]);
    bench.writes(&[(SP_RDLEN, 0x0180_2017)]);
    bench.writes(&[(SP_SPADDR, 0x0FF0), (SP_RAMADDR, 0x0100)]);
    bench.writes(&[(SP_WRLEN, 0x0080_101F)]);
    assert_eq!(
        (bench.state.sp.full, bench.state.sp.waiting_storing),
        (1, 1)
    );
    for budget in [0, 1, 8, 9, 16, 17, 18, u32::MAX] {
        let mut turned = bench.clone();
        let moved = budget.min(9 + 8);
        turned.sp_turns(moved);
        let mut run = bench.clone();
        assert_eq!(run.run_sp(budget), success(0, moved));
        assert!(run == turned, "{budget}");
    }
    let before = bench.clone();
    assert_eq!(bench.run_sp(9), success(0, 9));
    assert!(bench.rdram == before.rdram && bench.dmem == before.dmem);
    // Words 0 to 2 of row 0 stand in RDRAM at 0xFFC0, at the bank's end.
    assert_eq!(bench.imem[0xFE0..0xFF8], before.rdram[0xFFC0..0xFFD8]);
    assert_eq!(bench.imem[0xFF8..], before.rdram[0xFFF0..0xFFF8]);
    assert_eq!(bench.imem[..8], before.rdram[0xFFF8..]);
    // The rest lies past the lent length and reads as zeros.
    assert_eq!(bench.imem[8..0x28], [0; 0x20]);
    assert_eq!(bench.imem[0x28..0xFE0], before.imem[0x28..0xFE0]);
}

#[test]
fn a_store_takes_its_words_from_the_bank_by_rows() {
    let mut bench = Bench::new();
    bench.fill();
    bench.writes(&[(SP_SPADDR, 0x0FF0), (SP_RAMADDR, 0x0100)]);
    bench.writes(&[(SP_WRLEN, 0x0080_101F)]);
    let before = bench.clone();
    let mut expected = before.rdram.clone();
    expected[0x100..0x110].copy_from_slice(&before.dmem[0xFF0..]);
    expected[0x110..0x120].copy_from_slice(&before.dmem[..0x10]);
    expected[0x128..0x148].copy_from_slice(&before.dmem[0x10..0x30]);
    assert_eq!(bench.run_sp(u32::MAX), success(0, 8));
    assert!(bench.rdram == expected);
    assert!(bench.dmem == before.dmem && bench.imem == before.imem);
    // No SKIP follows the last row.
    bench.reads(&[(SP_RAMADDR, 0x148), (SP_SPADDR, 0x030)]);
}

#[test]
fn a_store_past_the_lent_length_counts_and_is_dropped() {
    let mut bench = Bench::new();
    bench.fill();
    bench.writes(&[(SP_SPADDR, 0x10), (SP_RAMADDR, 0xFFF8)]);
    bench.writes(&[(SP_WRLEN, 0x0F)]);
    let mut expected = bench.rdram.clone();
    expected[0xFFF8..].copy_from_slice(&bench.dmem[0x10..0x18]);
    assert!(expected != bench.rdram);
    bench.sp_turns(2);
    assert!(bench.rdram == expected);
    bench.reads(&[(SP_RAMADDR, 0x1_0008)]);
}

/// The output may have any length; whole words only are written.
#[test]
fn a_run_of_the_dp_writes_whole_words_and_leaves_the_rest() {
    let mut bench = Bench::new();
    bench.fill();
    bench.writes(&[(DP_START, 0x4000), (DP_END, 0x4028)]);
    for (length, budget, words) in [
        (0, u32::MAX, 0),
        (7, u32::MAX, 0),
        (8, u32::MAX, 1),
        (15, u32::MAX, 1),
        (16, u32::MAX, 2),
        (47, u32::MAX, 5),
        (99, u32::MAX, 5),
        (99, 3, 3),
        (99, 0, 0),
    ] {
        let mut run = bench.clone();
        let mut out = vec![0x55; length];
        assert_eq!(run.run_dp(budget, &mut out), words);
        let bytes = 8 * words as usize;
        assert_eq!(out[..bytes], bench.rdram[0x4000..0x4000 + bytes]);
        assert!(out[bytes..].iter().all(|byte| *byte == 0x55));
        // The room ends the consumer alone: all five words are fetched there.
        let mut turned = bench.clone();
        turned.fetches(budget.min(5));
        for _ in 0..words {
            assert_eq!(turned.consumer_turn().count, 1);
        }
        assert!(run == turned, "{length} {budget}");
    }
}

#[test]
fn a_run_of_the_dp_goes_on_into_the_waiting_list_and_stops_when_frozen() {
    let mut bench = Bench::new();
    bench.fill();
    bench.writes(&[(DP_START, 0x4000), (DP_END, 0x4010)]);
    bench.writes(&[(DP_START, 0x1FF8), (DP_END, 0x2008)]);
    bench.writes(&[(DP_STATUS, 0x0A)]);
    let mut out = [0x55; 40];
    assert_eq!(bench.run_dp(u32::MAX, &mut out), 0);
    assert_eq!(out, [0x55; 40]);
    bench.writes(&[(DP_STATUS, 0x04)]);
    assert_eq!(bench.run_dp(u32::MAX, &mut out), 4);
    // With XBUS, the words are those of DMEM by the low 12 bits.
    let expected = [
        &bench.dmem[..0x10],
        &bench.dmem[0xFF8..],
        &bench.dmem[..8],
        &[0x55; 8],
    ];
    assert_eq!(out[..], expected.concat());
}

#[test]
fn a_dp_word_past_the_lent_length_is_zeros_and_counts() {
    let mut bench = Bench::new();
    bench.fill();
    bench.writes(&[(DP_START, 0xFFF8), (DP_END, 0x1_0008)]);
    let last = u64::from_be_bytes(bench.rdram[0xFFF8..].try_into().expect("8 bytes"));
    assert!(last != 0);
    bench.fetches(2);
    assert_eq!(bench.dp_turn(), success(0, 0));
    assert_eq!(bench.consumer_turn(), success(last, 1));
    assert_eq!(bench.consumer_turn(), success(0, 1));
    assert_eq!(bench.consumer_turn(), success(0, 0));
}

#[test]
fn refusals_1_2_and_3_have_their_edges() {
    for length in [0, 8, 65_536, 16_777_208, 16_777_216] {
        expect_memories(length, BANK, BANK, 0);
    }
    for length in [1, 4, 7, 9, 65_532, 16_777_215, 16_777_217, 16_777_224] {
        expect_memories(length, BANK, BANK, 1);
    }
    for length in [0, 8, 4_088, 4_095, 4_097, 4_104, 8_192] {
        expect_memories(64, length, BANK, 2);
        expect_memories(64, BANK, length, 3);
    }
}

/// What the calls give for memories of these lengths.
fn expect_memories(rdram: usize, dmem: usize, imem: usize, number: u32) {
    let mut bench = Bench::running();
    bench.rdram = vec![0x11; rdram];
    bench.dmem = vec![0x22; dmem];
    bench.imem = vec![0x33; imem];
    let without_imem = if number == 3 { 0 } else { number };
    expect_numbers(&bench, number, without_imem);
}

/// Where several things are wrong, the first in the table is given.
#[test]
fn refusals_come_in_the_order_of_the_table() {
    for wrong in 0..16 {
        let is = |bit: u32| wrong >> bit & 1 == 1;
        let mut bench = Bench::running();
        bench.rdram = vec![0x11; if is(0) { 65 } else { 64 }];
        bench.dmem = vec![0x22; if is(1) { 4_095 } else { BANK }];
        bench.imem = vec![0x33; if is(2) { 4_097 } else { BANK }];
        bench.state.dp.words_left = if is(3) { 22 } else { 0 };
        let first = |bits: &[u32]| bits.iter().copied().find(|bit| is(*bit));
        let all = first(&[0, 1, 2, 3]).map_or(0, |bit| bit + 1);
        let without_imem = first(&[0, 1, 3]).map_or(0, |bit| bit + 1);
        expect_numbers(&bench, all, without_imem);
        // A kind that is unknown comes after all of these.
        expect_replay(&bench, &[0], if all == 0 { 7 } else { all });
        // Calls that take no memory look at the state alone.
        expect_register_calls(&bench.state, if is(3) { 4 } else { 0 });
        // A recording that is too long comes before everything.
        expect_replay(&bench, &[6; 16_384], 9);
    }
}

/// The register calls give this number for an address, and 4 before it.
fn expect_address(address: u32, number: u32) {
    let state = running();
    for outcome in with_address(&state, address) {
        assert_eq!(outcome.answer.number, number, "{address:08X}");
        if number != 0 {
            assert_eq!(outcome, declined(&state, number));
        }
    }
    let mut unsound = state;
    unsound.sp.count = 256;
    for outcome in with_address(&unsound, address) {
        assert_eq!(outcome, declined(&unsound, 4), "{address:08X}");
    }
}

/// Every call that takes a register's address.
fn with_address(state: &State, address: u32) -> [Outcome; 3] {
    [
        read_register(state, address),
        write_register(state, address, 0),
        write_registers(state, &[address], &[0]),
    ]
}

#[test]
fn refusal_10_is_for_each_misaligned_address_and_5_for_the_rest() {
    for address in MISALIGNED {
        expect_address(address, 10);
    }
    for address in OUTSIDE {
        expect_address(address, 5);
    }
    for address in REGISTERS {
        expect_address(address, 0);
    }
    for (address, _) in MIRRORS {
        expect_address(address, 0);
    }
}

/// Every address near an edge, by its last bits.
#[test]
fn refusals_10_and_5_have_their_edges() {
    let bases = [
        0,
        0x0403_FFF0,
        0x0404_0010,
        0x040F_FFF0,
        0x0410_0010,
        0x041F_FFF0,
        u32::MAX - 16,
    ];
    for address in bases.iter().flat_map(|base| *base..=base + 16) {
        let number = match (address % 4, address) {
            (0, 0x0404_0000..=0x0404_001C | 0x0410_0000..=0x041F_FFFC) => 0,
            (0, _) => 5,
            _ => 10,
        };
        expect_address(address, number);
    }
}

#[test]
fn a_byte_that_is_no_flag_is_refused_and_comes_back() {
    assert_eq!(FLAGS.len(), 17);
    for (name, field) in FLAGS {
        for byte in [2, 255] {
            let mut state = running();
            *field(&mut state) = byte;
            expect_unsound(&state, name);
        }
    }
}

/// Each flag is a field of its own: in a state where it may be either, both
/// bytes are sound and come back.
#[test]
fn both_bytes_of_a_flag_are_sound() {
    for (name, field) in FLAGS {
        for byte in [0, 1] {
            let mut state = running();
            state.dp.start_pending = 1;
            if name == "flush" {
                state.dp.limit = state.dp.current;
            }
            *field(&mut state) = byte;
            assert!(is_sound(&state), "{name} {byte}");
            assert_eq!(tick(&state, 0).state, state, "{name} {byte}");
        }
    }
}

#[test]
fn every_byte_of_signals_is_sound_and_comes_back() {
    for byte in 0..=255 {
        let mut state = running();
        state.sp.signals = byte;
        assert!(is_sound(&state));
        assert_eq!(tick(&state, 0).state, state);
        let status = read_register(&state, SP_STATUS).answer.value;
        assert_eq!(status, u64::from(byte) << 7 | 4);
    }
}

/// Each number at the edge of its field, and just past it.
#[test]
fn every_number_must_fit_its_field() {
    for (name, field, widest, step) in NUMBERS {
        let mut state = power_up();
        *field(&mut state) = widest;
        assert!(is_sound(&state), "{name}");
        assert_eq!(tick(&state, 0).state, state, "{name}");
        // The waiting word has all 32 bits, so nothing is past its edge.
        let past = widest.checked_add(step);
        let odd = if step == 8 { 1..8 } else { 0..0 };
        for value in odd.chain(past) {
            *field(&mut state) = value;
            expect_unsound(&state, name);
        }
    }
}

fn expect_unsound(state: &State, name: &str) {
    assert!(!is_sound(state), "{name}");
    let mut bench = Bench::running();
    bench.state = state.clone();
    expect_numbers(&bench, 4, 4);
    expect_register_calls(state, 4);
}

/// The clauses that join two fields: each with a state that breaks it alone
/// and neighbours that keep it.
#[test]
fn full_implies_busy_and_busy_implies_len_at_most_row() {
    let mut state = power_up();
    state.sp.full = 1;
    expect_unsound(&state, "full");
    state.sp.busy = 1;
    assert!(is_sound(&state));
    state.sp.len = 0x10;
    expect_unsound(&state, "len above row");
    state.sp.row_len = 0x08;
    expect_unsound(&state, "len above row");
    state.sp.row_len = 0x10;
    assert!(is_sound(&state));
    state.sp.row_len = 0x18;
    assert!(is_sound(&state));
    state.sp = SpState {
        len: 0xFF8,
        ..SpState::default()
    };
    assert!(is_sound(&state));
}

#[test]
fn end_pending_implies_start_pending_and_a_list_that_runs_or_freeze() {
    let mut state = power_up();
    state.dp.current = 0x100;
    state.dp.limit = 0x108;
    state.dp.end_pending = 1;
    expect_unsound(&state, "end pending without start pending");
    state.dp.start_pending = 1;
    assert!(is_sound(&state));
    for limit in [0x100, 0x0F8] {
        state.dp.limit = limit;
        state.dp.freeze = 0;
        expect_unsound(&state, "end pending with nothing running");
        state.dp.freeze = 1;
        assert!(is_sound(&state));
    }
}

#[test]
fn flush_implies_that_nothing_runs() {
    let mut state = power_up();
    state.dp.flush = 1;
    state.dp.current = 0x100;
    for (limit, sound) in [(0x0F8, true), (0x100, true), (0x108, false)] {
        state.dp.limit = limit;
        assert_eq!(is_sound(&state), sound);
    }
    expect_unsound(&state, "flush with a list running");
}

#[test]
fn command_words_left_are_0_to_21() {
    for words_left in 0..=255 {
        let mut state = power_up();
        state.dp.words_left = words_left;
        assert_eq!(is_sound(&state), words_left <= 21, "{words_left}");
    }
    let mut state = power_up();
    state.dp.words_left = 22;
    expect_unsound(&state, "words left");
}

/// At most 32 words, of any 64 bits each; nothing else of the state has to fit
/// them.
#[test]
fn at_most_32_words_are_queued() {
    for queued in 0..=70 {
        for word in [0, u64::MAX, 0x29 << 56] {
            let mut state = power_up();
            state.queue = vec![word; queued];
            assert_eq!(is_sound(&state), queued <= 32, "{queued}");
            for (words_left, flush, pipe_busy) in [(21, 0, 0), (0, 1, 1), (3, 1, 0)] {
                state.dp.words_left = words_left;
                (state.dp.flush, state.dp.pipe_busy) = (flush, pipe_busy);
                assert_eq!(is_sound(&state), queued <= 32, "{queued}");
            }
        }
    }
    for queued in [33, 34, 64, 255] {
        let mut state = power_up();
        state.queue = vec![0; queued];
        expect_unsound(&state, "queued");
    }
}

/// The slot of the oldest word is a number of 5 bits. No call looks at it
/// otherwise, and each hands it on.
#[test]
fn the_slot_of_the_oldest_word_is_below_32() {
    for head in 0..=255 {
        let mut state = running();
        state.dp.head = head;
        assert_eq!(is_sound(&state), head < 32, "{head}");
        if head >= 32 {
            expect_unsound(&state, "head");
            continue;
        }
        let outcomes = [
            consumer_turn(&state),
            dp_turn(&state, &[], &[0; BANK]),
            write_register(&state, DP_STATUS, 0x20),
            write_registers(&state, &[DP_STATUS; 2], &[0x20, 0x10]),
            tick(&state, 1),
        ];
        for outcome in outcomes {
            assert_eq!((outcome.answer.number, outcome.state.dp.head), (0, head));
        }
    }
}

fn part(memory: u32, offset: u32, length: u32) -> Part {
    Part {
        memory,
        offset,
        length,
    }
}

/// The look shows the bytes that the next fetch queues, where they stand, and
/// the same bytes while the queue is full.
#[test]
fn the_look_is_the_next_fetchs_word() {
    let mut bench = Bench::new();
    bench.fill();
    for (current, xbus, expected) in [
        (0, 0, part(0, 0, 8)),
        (0x2000, 0, part(0, 0x2000, 8)),
        (0xFFF8, 0, part(0, 0xFFF8, 8)),
        (0, 1, part(1, 0, 8)),
        (0x5FF8, 1, part(1, 0xFF8, 8)),
        (0xFF_FFF0, 1, part(1, 0xFF0, 8)),
    ] {
        bench.state.dp.current = current;
        bench.state.dp.limit = current + 8;
        bench.state.dp.xbus = xbus;
        let look = bench.look();
        assert_eq!(look, expected, "{current:06X} {xbus}");
        let memory = if xbus == 1 { &bench.dmem } else { &bench.rdram };
        let place = look.offset as usize;
        let word = memory[place..place + 8].try_into().expect("8 bytes");
        let turn = dp_turn(&bench.state, &bench.rdram, &bench.dmem);
        assert_eq!(turn.answer, success(0, 1));
        assert_eq!(turn.state.queue, [u64::from_be_bytes(word)]);
        let mut full = bench.clone();
        full.state.queue = vec![5; 32];
        assert_eq!(full.look(), expected, "{current:06X} {xbus}");
        assert_eq!(full.dp_turn(), success(0, 0));
    }
}

/// Each reason for an empty part, in both memories. The list stands away from
/// the start, so the offset would show.
#[test]
fn the_look_is_empty_in_each_case() {
    for xbus in [0, 1] {
        let mut good = Bench::running();
        good.state.dp.xbus = xbus;
        let memory = u32::from(xbus);
        assert_eq!(good.look(), part(memory, 0x28, 8));
        let empty = |change: fn(&mut Bench)| {
            let mut bench = good.clone();
            change(&mut bench);
            assert_eq!(bench.look(), part(memory, 0, 0));
        };
        empty(|bench| bench.state.dp.limit = bench.state.dp.current);
        empty(|bench| bench.state.dp.limit = bench.state.dp.current - 8);
        empty(|bench| bench.state.dp.freeze = 1);
        empty(|bench| bench.rdram.truncate(0xFFF9));
        empty(|bench| bench.rdram = vec![0; 16_777_224]);
        empty(|bench| bench.dmem.truncate(4_088));
        empty(|bench| bench.dmem.push(0));
        empty(|bench| bench.state.sp.sp_addr = 4);
        empty(|bench| bench.state.dp.end = 0x0100_0000);
    }
}

#[test]
fn the_look_is_empty_where_the_word_is_not_fitted() {
    let mut bench = Bench::running();
    for (length, fitted) in [(0, false), (0x28, false), (0x30, true), (0x38, true)] {
        bench.rdram = vec![0; length];
        bench.state.dp.xbus = 0;
        let expected = if fitted {
            part(0, 0x28, 8)
        } else {
            part(0, 0, 0)
        };
        assert_eq!(bench.look(), expected, "{length}");
        // DMEM is always long enough.
        bench.state.dp.xbus = 1;
        assert_eq!(bench.look(), part(1, 0x28, 8));
    }
}

/// A byte that is no flag leaves nothing to select a memory by.
#[test]
fn the_look_is_empty_in_rdram_where_a_byte_is_no_flag() {
    for (name, field) in FLAGS {
        for byte in [2, 255] {
            let mut bench = Bench::running();
            bench.state.dp.xbus = 1;
            *field(&mut bench.state) = byte;
            assert_eq!(bench.look(), part(0, 0, 0), "{name} {byte}");
        }
    }
}

/// "Every call on a sound state leaves a sound one": `took` sees to it.
#[test]
fn every_call_on_a_sound_state_leaves_a_sound_one() {
    let mut random = Random(0x1234_5678_9ABC_DEF1);
    let mut bench = Bench::running();
    for _ in 0..4_000 {
        let state = random.sound_state();
        let value = random.number();
        for address in REGISTERS {
            let read = read_register(&state, address);
            let value_read = read.answer.value;
            bench.took(read, success(value_read, 0));
            bench.took(write_register(&state, address, value), success(0, 0));
        }
        let burst = write_registers(&state, &REGISTERS, &[value; 16]);
        bench.took(burst, success(0, 16));
        bench.took(tick(&state, value), success(0, 0));
        bench.took(sp_break(&state), success(0, 0));
        bench.took(acknowledge(&state), success(0, 0));
        bench.state = state.clone();
        assert_eq!(bench.sp_turn(), success(0, state.sp.busy.into()));
        assert_eq!(bench.run_sp(value % 64).number, 0);
        bench.state = state.clone();
        assert_eq!(bench.sp_row().number, 0);
        bench.state = state.clone();
        let runs = state.dp.current < state.dp.limit && state.dp.freeze == 0;
        let fetches = runs && state.queue.len() < 32;
        assert_eq!(bench.dp_turn(), success(0, u32::from(fetches)));
        bench.run_dp(value % 64, &mut [0; 400]);
        bench.state = state.clone();
        let oldest = state.queue.first().filter(|_| state.dp.freeze == 0);
        let expected = oldest.map_or(success(0, 0), |word| success(*word, 1));
        assert_eq!(bench.consumer_turn(), expected);
        bench.state = state;
        let budgets = [value % 64, value / 64 % 64, value / 4_096 % 64];
        let (answer, _) = bench.run(budgets, &mut [0; 400]);
        assert_eq!(answer.number, 0);
    }
}
