//! Several register writes in one call. Registers and states are worked out by hand,
//! and bursts are compared with the same writes done singly.

mod common;

use common::*;
use model::calls::*;
use model::machine::{
    DP_CLOCK, DP_CURRENT, DP_END, DP_START, DP_STATUS, READ_ONLY, REGISTERS, SP_DMA_BUSY,
    SP_DMA_FULL, SP_RAMADDR, SP_RDLEN, SP_SEMAPHORE, SP_SPADDR, SP_STATUS, SP_WRLEN,
};

/// One address for each number, with that number.
const BAD: [(u32, u32); 2] = [(0x0404_0002, 10), (0x0404_0020, 5)];

/// The answer of a burst that stops after this many writes.
fn stopped(number: u32, count: u32) -> Answer {
    Answer {
        number,
        value: 0,
        count,
    }
}

/// What a burst from power-up, over memories that are filled, leaves.
fn after(pairs: &[(u32, u32)]) -> Bench {
    let mut bench = Bench::new();
    bench.fill();
    assert_eq!(bench.burst(pairs), success(0, pairs.len() as u32));
    bench
}

/// Writes to the RAMADDR latch: write k, from 0 on, leaves 8(k + 1) there.
fn latches(count: u32) -> Vec<(u32, u32)> {
    (1..=count).map(|k| (SP_RAMADDR, 8 * k)).collect()
}

/// The RAMADDR latch of an idle engine, by the start that takes it.
fn expect_latch(mut bench: Bench, ramaddr: u32) {
    bench.writes(&[(SP_RDLEN, 0)]);
    bench.reads(&[(SP_RAMADDR, ramaddr)]);
}

/// States that are not sound, each for one reason.
fn unsound_states() -> Vec<State> {
    let mut states = Vec::new();
    let mut add = |change: &dyn Fn(&mut State)| {
        let mut state = full_state();
        change(&mut state);
        assert!(!is_sound(&state));
        states.push(state);
    };
    for (_, field) in FLAGS {
        add(&|state| *field(state) = 2);
        add(&|state| *field(state) = 255);
    }
    for (_, field, widest, step) in NUMBERS {
        if let Some(past) = widest.checked_add(step) {
            add(&|state| *field(state) = past);
        }
    }
    add(&|state| state.sp.busy = 0);
    add(&|state| state.sp.len = state.sp.row_len + 8);
    add(&|state| state.dp.limit = state.dp.current);
    add(&|state| state.dp.words_left = 22);
    add(&|state| state.queue = vec![0; 33]);
    add(&|state| state.dp.head = 32);
    states
}

#[test]
fn an_empty_burst_of_a_sound_state_succeeds() {
    for state in [power_up(), running(), full_state()] {
        let outcome = write_registers(&state, &[], &[]);
        assert_eq!(outcome.answer, success(0, 0));
        assert_eq!(outcome.state, state);
    }
}

#[test]
fn a_state_that_is_not_sound_gives_4() {
    for state in unsound_states() {
        let declined = declined(&state, 4);
        assert_eq!(write_registers(&state, &[], &[]), declined);
        assert_eq!(burst(&state, &[(SP_STATUS, 2)]), declined);
        assert_eq!(burst(&state, &latches(64)), declined);
        // 4 comes before the numbers of the addresses.
        for (bad, _) in BAD {
            assert_eq!(burst(&state, &[(bad, 0)]), declined);
            assert_eq!(burst(&state, &[(SP_STATUS, 2), (bad, 0)]), declined);
        }
    }
}

#[test]
fn at_most_64_pairs() {
    for count in [1, 2, 63, 64] {
        let bench = after(&latches(count));
        assert_eq!(bench.state.sp.ram_latch, 8 * count);
        expect_latch(bench, 8 * count);
    }
    // Some of these are 0 or 64 when cut to 8 or to 16 bits.
    for count in [65, 66, 127, 128, 256, 320, 1_000, 65_536, 65_600] {
        for state in [power_up(), full_state()] {
            let outcome = burst(&state, &latches(count));
            assert_eq!(outcome, declined(&state, 11), "{count}");
        }
    }
}

/// Lengths of the two slices that are not allowed.
const BAD_LENGTHS: [(usize, usize); 20] = [
    (0, 1),
    (1, 0),
    (1, 2),
    (2, 1),
    (62, 63),
    (63, 62),
    (63, 64),
    (64, 63),
    (64, 65),
    (65, 64),
    (65, 65),
    (65, 66),
    (66, 65),
    (0, 64),
    (64, 0),
    (0, 65),
    (65, 0),
    (0, 256),
    (64, 320),
    (65_536, 0),
];

/// 11 comes before 4, 10 and 5, and none of the writes that could be done is.
#[test]
fn lengths_that_differ_or_are_above_64_give_11_before_all_else() {
    let mut states = unsound_states();
    states.extend([power_up(), running(), full_state()]);
    let pairs = [(SP_STATUS, 2), (DP_STATUS, 0x3E2), BAD[0], BAD[1]];
    for (addresses, values) in BAD_LENGTHS {
        for (address, value) in pairs {
            let addresses = vec![address; addresses];
            let values = vec![value; values];
            for state in &states {
                let outcome = write_registers(state, &addresses, &values);
                assert_eq!(outcome, declined(state, 11));
            }
        }
    }
}

/// Each wrong input with each later one: lengths, state, address. Without any, HALTED
/// and the SP line are set; with a wrong address alone, only HALTED is.
#[test]
fn refusals_come_in_their_order() {
    for (wrong, (bad, number)) in (0..8).flat_map(|wrong| BAD.map(|bad| (wrong, bad))) {
        let is = |bit: u32| wrong >> bit & 1 == 1;
        let values = [2, 0x10, 0];
        let values = if is(0) { &values[..] } else { &values[..2] };
        let mut state = full_state();
        state.dp.line = if is(1) { 3 } else { 1 };
        let second = if is(2) { bad } else { SP_STATUS };
        let outcome = write_registers(&state, &[SP_STATUS, second], values);
        let expected = match (is(0), is(1), is(2)) {
            (true, ..) => stopped(11, 0),
            (_, true, _) => stopped(4, 0),
            (_, _, true) => stopped(number, 1),
            _ => success(0, 2),
        };
        assert_eq!(outcome.answer, expected);
        state.sp.halted = u8::from(expected.count >= 1);
        state.sp.line = u8::from(expected.count >= 2);
        assert_eq!(outcome.state, state);
    }
}

/// Addresses that are refused, each with its number.
fn refused_addresses() -> Vec<(u32, u32)> {
    let misaligned = MISALIGNED.map(|address| (address, 10));
    let outside = OUTSIDE.map(|address| (address, 5));
    [&misaligned[..], &outside].concat()
}

#[test]
fn a_bad_pair_first() {
    let rest = [(SP_SPADDR, 0x1010), (SP_RDLEN, 0x17), (DP_START, 0x3000)];
    for (bad, number) in refused_addresses() {
        for state in [power_up(), running(), full_state()] {
            let pairs = [&[(bad, 0x17)], &rest[..]].concat();
            assert_eq!(burst(&state, &pairs), declined(&state, number));
        }
    }
}

/// The two latches are kept, and no transfer or list is begun.
#[test]
fn a_bad_pair_in_the_middle() {
    for (bad, number) in refused_addresses() {
        let mut bench = Bench::new();
        let answer = bench.burst(&[
            (SP_SPADDR, 0x1017),
            (SP_RAMADDR, 0xFF00_202F),
            (bad, 0x27),
            (SP_RDLEN, 0x17),
            (DP_START, 0x3000),
        ]);
        assert_eq!(answer, stopped(number, 2), "{bad:08X}");
        bench.reads(&[(SP_DMA_BUSY, 0), (SP_SPADDR, 0), (SP_RAMADDR, 0)]);
        bench.reads(&[(DP_START, 0), (DP_STATUS, 0x80)]);
        bench.writes(&[(SP_RDLEN, 0x17)]);
        bench.reads(&[(SP_SPADDR, 0x1010), (SP_RAMADDR, 0x2028)]);
    }
}

#[test]
fn a_bad_pair_last() {
    for (bad, number) in refused_addresses() {
        let mut bench = Bench::new();
        let answer = bench.burst(&[
            (SP_SPADDR, 0x1017),
            (SP_RAMADDR, 0xFF00_202F),
            (SP_RDLEN, 0x17),
            (DP_START, 0x3007),
            (bad, 0x27),
        ]);
        assert_eq!(answer, stopped(number, 4), "{bad:08X}");
        bench.reads(&[(SP_SPADDR, 0x1010), (SP_RAMADDR, 0x2028)]);
        bench.reads(&[(SP_RDLEN, 0x10), (SP_STATUS, 4)]);
        bench.reads(&[(DP_START, 0x3000), (DP_STATUS, 0x480)]);
    }
}

/// In a burst of 64: the count is the refused pair's place, and neither it nor a later
/// one is done.
#[test]
fn a_bad_pair_at_each_place() {
    for (place, (bad, number)) in (0..64).flat_map(|place| BAD.map(|bad| (place, bad))) {
        let mut pairs = latches(64);
        pairs[place as usize].0 = bad;
        let mut bench = Bench::new();
        assert_eq!(bench.burst(&pairs), stopped(number, place));
        expect_latch(bench, 8 * place);
    }
}

/// The first decides, whichever number is greater. Of SIG0, SIG1 and SIG2, only the
/// one before it is set.
#[test]
fn of_two_bad_pairs_the_first_decides() {
    let [misaligned, outside] = BAD;
    for ((first, number), (second, _)) in [(misaligned, outside), (outside, misaligned)] {
        let mut bench = Bench::new();
        let answer = bench.burst(&[
            (SP_STATUS, 0x400),
            (first, 0),
            (SP_STATUS, 0x1000),
            (second, 0),
            (SP_STATUS, 0x4000),
        ]);
        assert_eq!(answer, stopped(number, 1));
        bench.reads(&[(SP_STATUS, 0x80)]);
        assert_eq!(bench.burst(&[(first, 0), (second, 0)]), stopped(number, 0));
        let pairs = [(SP_STATUS, 0x1000), (first, 0), (second, 0)];
        assert_eq!(bench.burst(&pairs), stopped(number, 1));
        bench.reads(&[(SP_STATUS, 0x180)]);
    }
}

/// The rest of a burst can be sent again from the refused pair on.
#[test]
fn a_burst_can_be_gone_on_with_after_the_refused_pair() {
    let pairs = [(SP_SPADDR, 0x40), (0, 0), (SP_RAMADDR, 0x80), (SP_WRLEN, 7)];
    let mut bench = Bench::new();
    let Answer { number, count, .. } = bench.burst(&pairs);
    assert_eq!((number, count), (5, 1));
    assert_eq!(bench.burst(&pairs[count as usize..]), stopped(5, 0));
    let rest = &pairs[count as usize + 1..];
    assert_eq!(bench.burst(rest), success(0, 2));
    bench.reads(&[(SP_SPADDR, 0x40), (SP_RAMADDR, 0x80), (SP_STATUS, 4)]);
}

/// Each of the 64 places in turn holds the one write that does something.
#[test]
fn every_place_of_a_full_burst_is_written() {
    let mut raised = power_up();
    raised.sp.signals = 1;
    for place in 0..64 {
        let mut pairs = [(DP_CLOCK, u32::MAX); 64];
        pairs[place] = (SP_STATUS, 0x400);
        assert_eq!(after(&pairs).state, raised, "{place}");
    }
}

#[test]
fn writes_to_read_only_registers_succeed_and_count() {
    let mut pairs = READ_ONLY.map(|address| (address, u32::MAX)).to_vec();
    let mut bench = Bench::new();
    bench.state = full_state();
    assert_eq!(bench.burst(&pairs), success(0, 7));
    assert_eq!(bench.state, full_state());
    pairs.extend([(0x0420_0000, 0), (SP_STATUS, 2)]);
    assert_eq!(bench.burst(&pairs), stopped(5, 7));
    assert_eq!(bench.state, full_state());
}

/// Address k is the first slice's and value k the second's, also where each could be
/// the other.
#[test]
fn addresses_and_values_are_not_exchanged() {
    let addresses = [SP_RAMADDR, DP_START];
    let values = [DP_START, SP_RAMADDR];
    let mut expected = power_up();
    expected.sp.ram_latch = 0x10_0000;
    expected.dp.start = 0x04_0000;
    expected.dp.start_pending = 1;
    let outcome = write_registers(&power_up(), &addresses, &values);
    assert_eq!((outcome.state, outcome.answer), (expected, success(0, 2)));
    // A value may be what no address is.
    let outcome = write_registers(&power_up(), &[SP_STATUS], &[0x0404_0002]);
    assert_eq!(outcome.answer, success(0, 1));
}

/// All sixteen in the order of their addresses, on a state with most flags on.
#[test]
fn a_burst_of_every_register() {
    let mut bench = Bench::new();
    bench.state = full_state();
    bench.state.sp.semaphore = 1;
    let mut expected = bench.state.clone();
    let values = [
        u32::MAX,
        u32::MAX,
        0x1234_5678,
        0x8765_4321,
        0x02,
        0,
        0,
        1,
        0x12AB_CDEF,
        u32::MAX,
        0,
        0x201,
        1,
        2,
        3,
        4,
    ];
    (expected.sp.sp_latch, expected.sp.ram_latch) = (0x1FF8, 0xFF_FFF8);
    // Busy and full: the second word replaces the first, which replaced the old one.
    (expected.sp.waiting_word, expected.sp.waiting_storing) = (0x8765_4321, 1);
    (expected.sp.halted, expected.sp.semaphore) = (1, 0);
    // A list runs and another waits for it, with START and END of now.
    (expected.dp.start, expected.dp.end) = (0xAB_CDE8, 0xFF_FFF8);
    (expected.dp.xbus, expected.dp.clock) = (0, 0);
    let outcome = write_registers(&bench.state, &REGISTERS, &values);
    bench.took(outcome, success(0, 16));
    assert_eq!(bench.state, expected);
}

/// START through the last copy and END through the second.
#[test]
fn mirrors_of_the_dp_registers() {
    let mut bench = after(&[(0x041F_FFE0, 0x2000), (0x0410_0024, 0x2018)]);
    bench.reads(&[(DP_START, 0x2000), (DP_END, 0x2018)]);
    bench.reads(&[(DP_CURRENT, 0x2000), (DP_STATUS, 0x180)]);
    // FREEZE by STATUS in two other copies, on and then off.
    let freeze = [(0x0414_000C, 8), (0x041F_FFEC, 4)];
    assert_eq!(bench.burst(&freeze[..1]), success(0, 1));
    bench.reads(&[(DP_STATUS, 0x182)]);
    assert_eq!(bench.burst(&freeze), success(0, 2));
    bench.reads(&[(DP_STATUS, 0x180)]);
    // Just past the copies there is none, and SP registers have no copies.
    for (address, number) in [
        (0x0420_0000, 5),
        (0x041F_FFFE, 10),
        (0x040F_FFFC, 5),
        (0x0404_0020, 5),
    ] {
        let pairs = [(0x041F_FFFC, 0), (address, 0), (DP_STATUS, 2)];
        assert_eq!(bench.burst(&pairs), stopped(number, 1), "{address:08X}");
        bench.reads(&[(DP_STATUS, 0x180)]);
    }
}

#[test]
fn a_burst_through_mirrors_is_that_of_the_first_copy() {
    for state in [power_up(), running(), full_state()] {
        for value in [0x20, 0x3C6, 0x2008, u32::MAX] {
            let mirrored = MIRRORS.map(|(mirror, _)| (mirror, value));
            let first = MIRRORS.map(|(_, register)| (register, value));
            let outcome = burst(&state, &mirrored);
            assert_eq!(outcome.answer, success(0, 18));
            assert_eq!(outcome, burst(&state, &first));
        }
    }
}

/// Any write clears SEMAPHORE, at whatever place it comes, but for one behind the
/// refused pair.
#[test]
fn semaphore() {
    let mut bench = Bench::new();
    bench.reads(&[(SP_SEMAPHORE, 0)]);
    assert_eq!(bench.burst(&[(SP_SEMAPHORE, 1)]), success(0, 1));
    bench.reads(&[(SP_SEMAPHORE, 0), (SP_SEMAPHORE, 1)]);
    assert_eq!(bench.burst(&[(0, 0), (SP_SEMAPHORE, 0)]), stopped(5, 0));
    bench.reads(&[(SP_SEMAPHORE, 1)]);
    assert_eq!(bench.burst(&[(SP_SEMAPHORE, 0), (1, 0)]), stopped(10, 1));
    bench.reads(&[(SP_SEMAPHORE, 0)]);
    assert_eq!(bench.burst(&[(SP_SEMAPHORE, 0); 64]), success(0, 64));
    bench.reads(&[(SP_SEMAPHORE, 0)]);
}

/// What a status reads after these writes from power-up.
fn expect_status(status: u32, values: &[u32], read: u32) {
    let pairs: Vec<(u32, u32)> = values.iter().map(|value| (status, *value)).collect();
    after(&pairs).reads(&[(status, read)]);
}

/// Of a flag that is set and cleared, the later write shows. Both bits of a pair in one
/// write have no effect, unlike both in two.
#[test]
fn the_later_of_two_status_writes_shows() {
    let signals = (0..8).map(|i| (SP_STATUS, 9 + 2 * i, 7 + i));
    let sp = [(SP_STATUS, 0, 0), (SP_STATUS, 5, 5), (SP_STATUS, 7, 6)];
    let dp = [(DP_STATUS, 0, 0), (DP_STATUS, 2, 1), (DP_STATUS, 4, 2)];
    for (status, clear_bit, read_bit) in sp.into_iter().chain(dp).chain(signals) {
        let (clear, set) = (1 << clear_bit, 2 << clear_bit);
        let off = if status == DP_STATUS { 0x80 } else { 0 };
        let on = off | 1 << read_bit;
        expect_status(status, &[set, clear], off);
        expect_status(status, &[clear, set], on);
        expect_status(status, &[set, clear, set], on);
        expect_status(status, &[set, set | clear], on);
        expect_status(status, &[set, clear, set | clear], off);
    }
}

#[test]
fn the_sp_line_and_broke() {
    after(&[(SP_STATUS, 0x10), (SP_STATUS, 0x08)]).lines(0, 0);
    after(&[(SP_STATUS, 0x08), (SP_STATUS, 0x10)]).lines(1, 0);
    after(&[(SP_STATUS, 0x10), (SP_STATUS, 0x18)]).lines(1, 0);
    // INTBREAK, and then a BREAK: HALTED and BROKE, and the line.
    let mut bench = after(&[(SP_STATUS, 0x100)]);
    bench.took(sp_break(&bench.state), success(0, 0));
    bench.reads(&[(SP_STATUS, 0x43)]);
    bench.lines(1, 0);
    let pairs = [(SP_STATUS, 4), (SP_STATUS, 0x08), (SP_STATUS, 0x80)];
    assert_eq!(bench.burst(&pairs), success(0, 3));
    bench.reads(&[(SP_STATUS, 1)]);
    bench.lines(0, 0);
}

/// The rules' M2 and M3, and M6.
#[test]
fn m2_m3_and_m6_by_bursts() {
    let mut bench = after(&[(SP_RAMADDR, 0x1000), (SP_RDLEN, 0x0200_B03F)]);
    bench.sp_turns(9);
    bench.reads(&[(SP_RAMADDR, 0x1068), (SP_SPADDR, 0x48)]);
    bench.reads(&[(SP_RDLEN, 0x0200_A030)]);
    bench.sp_turns(96 - 9);
    bench.reads(&[(SP_RAMADDR, 0x1460), (SP_SPADDR, 0x300)]);
    bench.reads(&[(SP_RDLEN, 0x0200_0FF8)]);
    expect_status(SP_STATUS, &[0x0100_0000], 0x4000);
    expect_status(SP_STATUS, &[0x0100_0000, 3], 0x4000);
    expect_status(SP_STATUS, &[0x0100_0000, 2, 3], 0x4001);
}

/// A length word takes the latches as they are then, and not those of the end.
#[test]
fn latches_behind_the_starting_length_word_are_not_its_own() {
    let mut bench = after(&[(SP_RDLEN, 0x0F), (SP_SPADDR, 0x40), (SP_RAMADDR, 0x80)]);
    bench.reads(&[(SP_SPADDR, 0), (SP_RAMADDR, 0), (SP_STATUS, 4)]);
    let mut bench = after(&[(SP_SPADDR, 0x40), (SP_RAMADDR, 0x80), (SP_RDLEN, 0x0F)]);
    bench.reads(&[(SP_SPADDR, 0x40), (SP_RAMADDR, 0x80), (SP_STATUS, 4)]);
}

/// A load of 2 rows of 2 words with SKIP 8, and a store of 3 rows of 3 with SKIP 0x18.
const BOTH_LENGTHS: [(u32, u32); 4] = [
    (SP_SPADDR, 0x40),
    (SP_RAMADDR, 0x80),
    (SP_RDLEN, 0x0080_100F),
    (SP_WRLEN, 0x0180_2017),
];

#[test]
fn of_both_lengths_the_first_starts_and_the_second_waits() {
    let mut bench = after(&BOTH_LENGTHS);
    let before = bench.clone();
    bench.reads(&[(SP_SPADDR, 0x40), (SP_RAMADDR, 0x80)]);
    bench.reads(&[(SP_RDLEN, 0x0080_1008), (SP_WRLEN, 0x0080_1008)]);
    bench.reads(&[(SP_DMA_FULL, 1), (SP_DMA_BUSY, 1), (SP_STATUS, 0x0C)]);
    bench.sp_turns(4);
    assert_eq!(bench.dmem[0x40..0x50], before.rdram[0x80..0x90]);
    assert_eq!(bench.dmem[0x50..0x60], before.rdram[0x98..0xA8]);
    assert!(bench.rdram == before.rdram);
    // The latches are as they were, so the store begins where the load did.
    bench.reads(&[(SP_SPADDR, 0x40), (SP_RAMADDR, 0x80)]);
    bench.reads(&[(SP_RDLEN, 0x0180_2010), (SP_STATUS, 0x04)]);
    bench.sp_turns(9);
    bench.reads(&[(SP_RDLEN, 0x0180_0FF8), (SP_STATUS, 0)]);
    assert_eq!(bench.rdram[0x80..0x98], bench.dmem[0x40..0x58]);
    assert_eq!(bench.rdram[0xB0..0xC8], bench.dmem[0x58..0x70]);
}

/// The other way round: a store runs, and a load waits.
#[test]
fn the_order_of_both_lengths_shows() {
    let [spaddr, ramaddr, load, store] = BOTH_LENGTHS;
    let mut bench = after(&[spaddr, ramaddr, store, load]);
    let before = bench.clone();
    bench.reads(&[(SP_RDLEN, 0x0180_2010), (SP_STATUS, 0x0C)]);
    bench.sp_turns(9);
    assert_eq!(bench.rdram[0x80..0x98], before.dmem[0x40..0x58]);
    assert!(bench.dmem == before.dmem);
    bench.reads(&[(SP_RDLEN, 0x0080_1008), (SP_STATUS, 0x04)]);
}

/// The third is a load of 4 words. The store that it replaces is never done.
#[test]
fn a_third_length_word_replaces_the_waiting_one() {
    let mut bench = after(&[&BOTH_LENGTHS[..], &[(SP_RDLEN, 0x1F)]].concat());
    let before = bench.clone();
    bench.reads(&[(SP_RDLEN, 0x0080_1008), (SP_STATUS, 0x0C)]);
    bench.sp_turns(4);
    bench.reads(&[(SP_RDLEN, 0x18), (SP_STATUS, 0x04)]);
    bench.sp_turns(4);
    bench.reads(&[(SP_RDLEN, 0xFF8), (SP_STATUS, 0)]);
    assert_eq!(bench.dmem[0x40..0x60], before.rdram[0x80..0xA0]);
    assert!(bench.rdram == before.rdram);
    assert_eq!(bench.sp_turn(), success(0, 0));
}

/// The latches of a transfer that waits are those last written before its start.
#[test]
fn latches_behind_a_waiting_length_word_are_its_own() {
    let mut bench = after(&[
        (SP_SPADDR, 0x40),
        (SP_RAMADDR, 0x80),
        (SP_RDLEN, 0x0F),
        (SP_WRLEN, 0x07),
        (SP_SPADDR, 0x1008),
        (SP_RAMADDR, 0x200),
    ]);
    let before = bench.clone();
    bench.reads(&[(SP_SPADDR, 0x40), (SP_RAMADDR, 0x80), (SP_RDLEN, 8)]);
    bench.sp_turns(2);
    bench.reads(&[(SP_SPADDR, 0x1008), (SP_RAMADDR, 0x200), (SP_RDLEN, 0)]);
    bench.reads(&[(SP_STATUS, 4)]);
    bench.sp_turns(1);
    bench.reads(&[(SP_SPADDR, 0x1010), (SP_RAMADDR, 0x208), (SP_STATUS, 0)]);
    assert_eq!(bench.rdram[0x200..0x208], before.imem[8..0x10]);
    assert_eq!(bench.dmem[0x40..0x50], before.rdram[0x80..0x90]);
}

/// Of the same latches, those behind the refused pair do not count.
#[test]
fn a_bad_pair_between_length_words_and_latches() {
    for (bad, number) in BAD {
        let mut bench = Bench::new();
        let pairs = [(SP_RDLEN, 0x0F), (bad, 7), (SP_WRLEN, 7)];
        assert_eq!(bench.burst(&pairs), stopped(number, 1));
        bench.reads(&[(SP_DMA_BUSY, 1), (SP_DMA_FULL, 0)]);
        let pairs = [
            (SP_WRLEN, 7),
            (SP_SPADDR, 0x48),
            (bad, 0),
            (SP_RAMADDR, 0x88),
        ];
        assert_eq!(bench.burst(&pairs), stopped(number, 2));
        bench.reads(&[(SP_DMA_BUSY, 1), (SP_DMA_FULL, 1)]);
        bench.sp_turns(2);
        bench.reads(&[(SP_SPADDR, 0x48), (SP_RAMADDR, 0), (SP_STATUS, 4)]);
    }
}

/// M9's two lists, of 3 words and of 1.
const TWO_LISTS: [(u32, u32); 4] = [
    (DP_START, 0x2000),
    (DP_END, 0x2018),
    (DP_START, 0x3000),
    (DP_END, 0x3008),
];

#[test]
fn m8_to_m10_by_bursts() {
    after(&[(DP_START, 0x2000), (DP_END, 0x2000)]).reads(&[(DP_STATUS, 0x80)]);
    // M9 is over zero words.
    let mut bench = Bench::new();
    assert_eq!(bench.burst(&TWO_LISTS), success(0, 4));
    bench.reads(&[(DP_STATUS, 0x780), (DP_CURRENT, 0x2000)]);
    bench.reads(&[(DP_START, 0x3000), (DP_END, 0x3008)]);
    for _ in 0..3 {
        assert_eq!(bench.fetch_and_consume(), success(0, 1));
    }
    bench.reads(&[(DP_CURRENT, 0x3000), (DP_STATUS, 0x1A8)]);

    let [start, end] = [(DP_START, 0x2000), (DP_END, 0x2008)];
    let [freeze, thaw] = [(DP_STATUS, 8), (DP_STATUS, 4)];
    after(&[freeze, start, end]).reads(&[(DP_STATUS, 0x682)]);
    after(&[freeze, start, end, thaw]).reads(&[(DP_STATUS, 0x180)]);
    // A list that started before FREEZE does not wait.
    after(&[start, end, freeze]).reads(&[(DP_STATUS, 0x182)]);
    after(&[start, freeze, end]).reads(&[(DP_STATUS, 0x682)]);
}

/// The waiting list has the START and END that were last written.
#[test]
fn a_third_list_replaces_the_waiting_one() {
    let third = [(DP_START, 0x4000), (DP_END, 0x4010)];
    let mut bench = after(&[&TWO_LISTS[..], &third].concat());
    bench.reads(&[(DP_STATUS, 0x780), (DP_CURRENT, 0x2000)]);
    bench.fetches(3);
    bench.reads(&[(DP_CURRENT, 0x4000)]);
    bench.fetches(2);
    bench.reads(&[(DP_CURRENT, 0x4010)]);
    assert_eq!(bench.dp_turn(), success(0, 0));
}

#[test]
fn the_order_of_start_and_end_shows() {
    // END alone moves the end of the running list.
    let mut bench = after(&[(DP_START, 0x2000), (DP_END, 0x2008), (DP_END, 0x2018)]);
    bench.reads(&[(DP_STATUS, 0x180)]);
    bench.fetches(3);
    assert_eq!(bench.dp_turn(), success(0, 0));
    // END before START moves it from 0 up, and START waits for its own END.
    let mut bench = after(&[(DP_END, 0x2018), (DP_START, 0x2000)]);
    bench.reads(&[(DP_STATUS, 0x580), (DP_CURRENT, 0), (DP_START, 0x2000)]);
}

/// The second START is written, and its END is not.
#[test]
fn a_bad_pair_between_start_and_end() {
    let [start, end, next_start, next_end] = TWO_LISTS;
    for (bad, number) in BAD {
        let mut bench = Bench::new();
        let pairs = [start, end, next_start, (bad, 0x3010), next_end];
        assert_eq!(bench.burst(&pairs), stopped(number, 3));
        bench.reads(&[(DP_STATUS, 0x580), (DP_CURRENT, 0x2000)]);
        bench.reads(&[(DP_START, 0x3000), (DP_END, 0x2018)]);
        assert_eq!(bench.burst(&[next_end]), success(0, 1));
        bench.reads(&[(DP_STATUS, 0x780)]);
    }
}

#[test]
fn flush_before_and_behind_a_list() {
    let [start, end] = [(DP_START, 0x2000), (DP_END, 0x2018)];
    let [set, clear] = [(DP_STATUS, 0x20), (DP_STATUS, 0x10)];
    let list = (DP_CURRENT, 0x2000);
    after(&[start, end, set]).reads(&[(DP_STATUS, 0x84), list]);
    after(&[set, start, end]).reads(&[(DP_STATUS, 0x84), list]);
    after(&[set, start, end, clear]).reads(&[(DP_STATUS, 0x80), list]);
    after(&[set, start, end, clear, end]).reads(&[(DP_STATUS, 0x180), list]);
    after(&[set, clear, start, end]).reads(&[(DP_STATUS, 0x180), list]);
    // START_PENDING goes with the flush, so END only moves the end: 0 to 0x2018 runs.
    let mut bench = after(&[start, set, clear, end]);
    bench.reads(&[(DP_STATUS, 0x180), (DP_CURRENT, 0), (DP_END, 0x2018)]);
}

/// Queue, pending bits and words left go, and an END behind it leaves nothing running.
/// The counters are zeroed by two writes.
#[test]
fn flush_of_a_state_with_most_flags_on() {
    let mut bench = Bench::new();
    bench.state = full_state();
    let mut expected = full_state();
    let dp = &mut expected.dp;
    (dp.flush, dp.limit, dp.end) = (1, 0x90, 0x200);
    (dp.start_pending, dp.end_pending, dp.words_left) = (0, 0, 0);
    (
        dp.clock,
        dp.cmd_busy_count,
        dp.pipe_busy_count,
        dp.tmem_busy_count,
    ) = (0, 0, 0, 0);
    expected.queue = Vec::new();
    let answer = bench.burst(&[
        (DP_STATUS, 0x20),
        (DP_END, 0x200),
        (DP_STATUS, 0x140),
        (DP_STATUS, 0x280),
    ]);
    assert_eq!(answer, success(0, 4));
    assert_eq!(bench.state, expected);
}

/// Each engine has its own writes in one burst.
#[test]
fn both_engines_in_one_burst() {
    let [start, end, next_start, next_end] = TWO_LISTS;
    let [spaddr, ramaddr, load, store] = BOTH_LENGTHS;
    let pairs = [
        start, spaddr, end, ramaddr, load, next_start, store, next_end,
    ];
    let apart = after(&[&TWO_LISTS[..], &BOTH_LENGTHS].concat());
    let mut bench = after(&pairs);
    assert_eq!(bench.state, apart.state);
    bench.reads(&[(SP_STATUS, 0x0C), (DP_STATUS, 0x780)]);
    bench.reads(&[(SP_RAMADDR, 0x80), (DP_CURRENT, 0x2000)]);
}

/// The same writes one by one, up to the first that is refused.
fn singly(state: &State, pairs: &[(u32, u32)]) -> Outcome {
    let mut state = state.clone();
    for (done, (address, value)) in (0..).zip(pairs) {
        let outcome = write_register(&state, *address, *value);
        let number = outcome.answer.number;
        if number != 0 {
            let answer = stopped(number, done);
            return Outcome { state, answer };
        }
        state = outcome.state;
    }
    let answer = success(0, pairs.len() as u32);
    Outcome { state, answer }
}

/// An address, of which one in 64 is refused, and a value, which often has few bits.
fn random_pair(random: &mut Random) -> (u32, u32) {
    let pick = random.number() as usize;
    let address = match random.number() % 64 {
        0 => {
            let refused = refused_addresses();
            refused[pick % refused.len()].0
        }
        1..=15 => MIRRORS[pick % MIRRORS.len()].0,
        _ => REGISTERS[pick % REGISTERS.len()],
    };
    let value = match random.number() % 4 {
        0 => 1 << (random.number() % 32),
        1 => random.number() % 0x1000,
        _ => random.number(),
    };
    (address, value)
}

fn random_burst(random: &mut Random) -> Vec<(u32, u32)> {
    let count = match random.number() % 8 {
        0 => 64,
        _ => random.number() % 65,
    };
    (0..count).map(|_| random_pair(random)).collect()
}

#[test]
fn a_burst_is_its_single_writes() {
    let mut random = Random(0x7B1D_42C9_03E5_A68F);
    let mut seen = [0; 3];
    for _ in 0..3_000 {
        let state = random.sound_state();
        let pairs = random_burst(&mut random);
        let outcome = burst(&state, &pairs);
        assert_eq!(outcome, singly(&state, &pairs), "{pairs:08X?}");
        assert!(is_sound(&outcome.state));
        match outcome.answer.number {
            0 => seen[0] += 1,
            5 => seen[1] += 1,
            10 => seen[2] += 1,
            number => panic!("{number}"),
        }
    }
    // Those that were all done, and those that stopped at either number.
    assert!(seen.iter().all(|bursts| *bursts >= 300), "{seen:?}");
}

/// Cut in two anywhere, the second burst goes on from what the first left; if the first
/// stops, all of it does.
#[test]
fn a_burst_is_its_two_parts() {
    let mut random = Random(0x2F60_9A84_D173_5BCE);
    for _ in 0..1_000 {
        let state = random.sound_state();
        let pairs = random_burst(&mut random);
        let cut = random.number() as usize % (pairs.len() + 1);
        let whole = burst(&state, &pairs);
        let first = burst(&state, &pairs[..cut]);
        if first.answer.number != 0 {
            assert_eq!(whole, first);
            continue;
        }
        assert_eq!(first.answer, success(0, cut as u32));
        let mut second = burst(&first.state, &pairs[cut..]);
        second.answer.count += cut as u32;
        assert_eq!(whole, second);
    }
}
