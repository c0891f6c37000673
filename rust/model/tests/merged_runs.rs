//! The run by turns of the SP, the DP and the consumer: its order, what ends it,
//! its two counts and its output, and record kind 10. Expected words are worked
//! out by hand.

mod common;

use common::*;
use model::calls::*;
use model::machine::{
    DP_CURRENT, DP_END, DP_START, DP_STATUS, SP_RAMADDR, SP_RDLEN, SP_SPADDR, SP_STATUS, SP_WRLEN,
};

/// A single turn that a run took.
#[derive(Clone, Copy, Debug, PartialEq, Eq)]
enum Turn {
    Sp,
    Dp,
    Consumer,
}

use Turn::{Consumer, Dp, Sp};

/// The largest budgets.
const MOST: [u32; 3] = [u32::MAX; 3];

/// How many turns of a kind there are.
fn count(turns: &[Turn], kind: Turn) -> usize {
    turns.iter().filter(|turn| **turn == kind).count()
}

/// Would a turn of this kind do anything?
fn acts(state: &State, kind: Turn) -> bool {
    let State { sp, dp, queue } = state;
    match kind {
        Sp => sp.busy == 1,
        Dp => dp.current < dp.limit && dp.freeze == 0 && queue.len() < 32,
        Consumer => !queue.is_empty() && dp.freeze == 0,
    }
}

/// The rule of the run over single turns: the turns go round, and one that would
/// do nothing or that may not be taken is passed over.
fn by_turns(bench: &mut Bench, budgets: [u32; 3], out: &mut [u8]) -> Vec<Turn> {
    let mut turns = Vec::new();
    let mut passed_over = 0;
    for (kind, budget) in [Sp, Dp, Consumer].into_iter().zip(budgets).cycle() {
        let place = 8 * count(&turns, Consumer);
        let room = kind != Consumer || out.len() - place >= 8;
        let taken = count(&turns, kind);
        if taken < budget as usize && room && acts(&bench.state, kind) {
            passed_over = 0;
            turns.push(kind);
            take(bench, kind, &mut out[place..]);
        } else {
            passed_over += 1;
        }
        if passed_over == 3 {
            break;
        }
    }
    turns
}

/// A turn that does something. A consumer's word goes to the start of the room.
fn take(bench: &mut Bench, kind: Turn, room: &mut [u8]) {
    match kind {
        Sp => assert_eq!(bench.sp_turn(), success(0, 1)),
        Dp => assert_eq!(bench.dp_turn(), success(0, 1)),
        Consumer => {
            let turn = bench.consumer_turn();
            assert_eq!(turn.count, 1);
            room[..8].copy_from_slice(&turn.value.to_be_bytes());
        }
    }
}

/// Runs, and takes the single turns beside it: state, memories, output and both
/// counts are the same. Gives the turns.
fn expect_turns(bench: &mut Bench, budgets: [u32; 3], out: &mut [u8]) -> Vec<Turn> {
    let mut turned = bench.clone();
    let mut turned_out = out.to_vec();
    let turns = by_turns(&mut turned, budgets, &mut turned_out);
    let (answer, words) = bench.run(budgets, out);
    assert_eq!(answer, success(0, count(&turns, Sp) as u32), "{budgets:?}");
    assert_eq!(words as usize, count(&turns, Consumer), "{budgets:?}");
    assert!(*bench == turned && out == turned_out, "{budgets:?}");
    turns
}

/// A word of which every byte is this one.
fn word(byte: u8) -> [u8; 8] {
    [byte; 8]
}

fn set_word(memory: &mut [u8], place: usize, byte: u8) {
    memory[place..place + 8].copy_from_slice(&word(byte));
}

/// RDRAM has 0x11, 0x12 and so on from 0 on, a word each, and DMEM has 0xB0,
/// 0xB1 and so on. Each is a command of one word, and none is a SYNC_FULL.
fn numbered() -> Bench {
    let mut bench = Bench::new();
    for i in 0..16 {
        set_word(&mut bench.rdram, 8 * i, 0x11 + i as u8);
        set_word(&mut bench.dmem, 8 * i, 0xB0 + i as u8);
    }
    bench
}

/// A store of so many words from DMEM 0 to this address, and a list.
fn store_and_list(words: u32, to: u32, list: (u32, u32)) -> Bench {
    let mut bench = numbered();
    bench.writes(&[(SP_RAMADDR, to), (SP_WRLEN, 8 * words - 1)]);
    bench.writes(&[(DP_START, list.0), (DP_END, list.1)]);
    bench
}

#[test]
fn turns_go_round_and_the_sp_begins() {
    const C: Turn = Consumer;
    let far = (0x40, 0x58);
    let mut bench = store_and_list(3, 0, far);
    let turns = expect_turns(&mut bench, MOST, &mut [0; 64]);
    assert_eq!(turns, [Sp, Dp, C, Sp, Dp, C, Sp, Dp, C]);
    // With its budget at 1 or 2, a kind of turn is passed over after that.
    for (budgets, expected) in [
        ([1, 2, 2], &[Sp, Dp, C, Dp, C][..]),
        ([2, 1, 1], &[Sp, Dp, C, Sp]),
        ([3, 1, 9], &[Sp, Dp, C, Sp, Sp]),
        ([1, 3, 1], &[Sp, Dp, C, Dp, Dp]),
        ([1, 1, 1], &[Sp, Dp, C]),
        ([0, 2, 2], &[Dp, C, Dp, C]),
        ([0, 2, 0], &[Dp, Dp]),
        ([2, 0, 0], &[Sp, Sp]),
        // Nothing is queued, and nothing comes.
        ([2, 0, 2], &[Sp, Sp]),
        ([0, 0, 2], &[]),
        ([0, 0, 0], &[]),
    ] {
        let mut bench = store_and_list(3, 0, far);
        let turns = expect_turns(&mut bench, budgets, &mut [0; 64]);
        assert_eq!(turns, expected);
    }
}

/// What is queued at the outset is consumed from the first round on, and a turn
/// that is passed over uses no budget.
#[test]
fn words_queued_before_are_consumed_first() {
    const C: Turn = Consumer;
    for (budgets, expected, words) in [
        (MOST, &[Sp, Dp, C, Dp, C, C, C][..], [1, 2, 0x11, 0x12]),
        ([0, 0, 9], &[C, C], [1, 2, 0x55, 0x55]),
        ([1, 0, 3], &[Sp, C, C], [1, 2, 0x55, 0x55]),
        ([9, 1, 3], &[Sp, Dp, C, C, C], [1, 2, 0x11, 0x55]),
        ([0, 2, 1], &[Dp, C, Dp], [1, 0x55, 0x55, 0x55]),
    ] {
        let mut bench = store_and_list(1, 0x400, (0, 0x10));
        bench.state.queue = [1, 2].map(word).map(u64::from_be_bytes).to_vec();
        let mut out = [0x55; 32];
        let turns = expect_turns(&mut bench, budgets, &mut out);
        assert_eq!(turns, expected);
        assert_eq!(out[..], words.map(word).concat());
    }
}

#[test]
fn the_sp_ends_first_and_the_dp_goes_on() {
    let mut bench = store_and_list(2, 0x400, (0, 0x28));
    let mut out = [0x55; 48];
    assert_eq!(bench.run(MOST, &mut out), (success(0, 2), 5));
    let words = [0x11, 0x12, 0x13, 0x14, 0x15, 0x55].map(word);
    assert_eq!(out[..], words.concat());
    assert_eq!(
        bench.rdram[0x400..0x418],
        [word(0xB0), word(0xB1), word(0)].concat()
    );
    bench.reads(&[(SP_RAMADDR, 0x410), (SP_STATUS, 0)]);
    bench.reads(&[(DP_CURRENT, 0x28), (DP_STATUS, 0xA8)]);
}

#[test]
fn the_dp_ends_first_and_the_sp_goes_on() {
    let mut bench = store_and_list(5, 0x400, (0, 0x10));
    let mut out = [0x55; 48];
    assert_eq!(bench.run(MOST, &mut out), (success(0, 5), 2));
    assert_eq!(out[..0x18], [0x11, 0x12, 0x55].map(word).concat());
    assert_eq!(bench.rdram[0x400..0x428], bench.dmem[..0x28]);
    bench.reads(&[(SP_RAMADDR, 0x428), (SP_STATUS, 0)]);
}

/// The output has room for as many words as its length divided by 8, and what
/// stands past them stays. The other two kinds of turn go on: the rest of the
/// list is queued.
#[test]
fn the_room_ends_the_consumer_and_the_others_go_on() {
    for length in 0..=50 {
        let mut bench = store_and_list(9, 0x400, (0, 0x30));
        let mut out = vec![0x55; length];
        let words = (length / 8).min(6);
        let turns = expect_turns(&mut bench, MOST, &mut out);
        assert_eq!(turns.len(), 9 + 6 + words, "{length}");
        assert!(out[8 * words..].iter().all(|byte| *byte == 0x55));
        assert_eq!(out[..8 * words], bench.rdram[..8 * words]);
        assert_eq!(bench.state.queue.len(), 6 - words);
        bench.reads(&[(DP_CURRENT, 0x30), (SP_RAMADDR, 0x448)]);
    }
}

#[test]
fn with_freeze_on_the_sp_goes_alone() {
    let mut bench = store_and_list(3, 0, (0, 0x28));
    bench.writes(&[(DP_STATUS, 8)]);
    let before = bench.clone();
    bench.state.queue = vec![7; 3];
    let mut out = [0x55; 16];
    assert_eq!(bench.run(MOST, &mut out), (success(0, 3), 0));
    assert_eq!(out, [0x55; 16]);
    assert_eq!(bench.state.dp, before.state.dp);
    assert_eq!(bench.state.queue, [7; 3]);
    assert_eq!(bench.rdram[..0x18], bench.dmem[..0x18]);
    // With the SP idle too, nothing is left to do.
    let idle = bench.clone();
    assert_eq!(bench.run(MOST, &mut out), (success(0, 0), 0));
    assert!(bench == idle);
}

#[test]
fn budgets_of_0_leave_all_as_it_was() {
    for state in [running(), full_state(), power_up()] {
        let mut bench = Bench::running();
        bench.state = state;
        let before = bench.clone();
        let mut out = [0x55; 64];
        assert_eq!(bench.run([0; 3], &mut out), (success(0, 0), 0));
        assert!(bench == before && out == [0x55; 64]);
    }
}

/// The order decides what is fetched where the SP writes into the list: its
/// first turn comes before the DP's first, its second before the second.
#[test]
fn a_word_moved_in_a_turn_is_seen_by_the_turns_after_it() {
    for (to, list, expected) in [
        // The SP stores at 0 and 8. The DP fetches 0 after the first store, and
        // 8 after the second.
        (0, 0, [0xB0, 0xB1, 0x13]),
        // It fetches 8 before the second store.
        (0, 8, [0x12, 0x13, 0x14]),
        // Stores at 8 and 0x10: the first is in time for nothing but 8.
        (8, 0, [0x11, 0xB0, 0xB1]),
        (8, 8, [0xB0, 0xB1, 0x14]),
        (8, 0x10, [0x13, 0x14, 0x15]),
        (0x10, 0, [0x11, 0x12, 0xB0]),
        (0x10, 8, [0x12, 0xB0, 0xB1]),
    ] {
        let mut bench = store_and_list(2, to, (list, list + 0x18));
        let mut out = [0; 24];
        let turns = expect_turns(&mut bench, MOST, &mut out);
        let rounds = [Sp, Dp, Consumer, Sp, Dp, Consumer, Dp, Consumer];
        assert_eq!(turns, rounds);
        assert_eq!(out[..], expected.map(word).concat(), "{to} {list}");
    }
}

/// The same in DMEM: a load writes there, and with XBUS the list is there.
#[test]
fn a_load_into_dmem_and_a_list_there() {
    for (to, list, expected) in [
        (0, 0x1000, [0x11, 0x12, 0xB2]),
        (0, 0x1008, [0xB1, 0xB2, 0xB3]),
        (8, 0x1000, [0xB0, 0x11, 0x12]),
        (0xFF8, 0x2FF8, [0x11, 0x12, 0xB1]),
    ] {
        let mut bench = numbered();
        bench.writes(&[(SP_SPADDR, to), (SP_RDLEN, 0x0F), (DP_STATUS, 2)]);
        bench.writes(&[(DP_START, list), (DP_END, list + 0x18)]);
        let mut out = [0; 24];
        expect_turns(&mut bench, MOST, &mut out);
        assert_eq!(out[..], expected.map(word).concat(), "{to} {list}");
    }
    // A load into IMEM is seen by no list.
    let mut bench = numbered();
    bench.writes(&[(SP_SPADDR, 0x1000), (SP_RDLEN, 0x0F), (DP_STATUS, 2)]);
    bench.writes(&[(DP_START, 0), (DP_END, 0x10)]);
    let mut out = [0; 16];
    expect_turns(&mut bench, MOST, &mut out);
    assert_eq!(out[..], [0xB0, 0xB1].map(word).concat());
}

/// All SP turns first would give another state: the SYNC_FULL that the SP's
/// second turn stores is not the word that the DP's first turn fetches.
#[test]
fn the_order_decides_about_the_state_too() {
    let mut bench = store_and_list(2, 0, (8, 0x10));
    bench.dmem[8] = 0xE9;
    let mut sp_first = bench.clone();
    assert_eq!(bench.run(MOST, &mut [0; 8]), (success(0, 2), 1));
    assert_eq!((bench.state.dp.line, bench.state.dp.pipe_busy), (0, 1));
    assert_eq!(sp_first.run_sp(u32::MAX), success(0, 2));
    assert_eq!(sp_first.run_dp(u32::MAX, &mut [0; 8]), 1);
    assert_eq!(
        (sp_first.state.dp.line, sp_first.state.dp.pipe_busy),
        (1, 0)
    );
    assert!(sp_first.rdram == bench.rdram);
}

/// The waiting transfer starts in the turn that ends the running one, and the
/// waiting list in the fetch of the running one's last word, so that neither
/// misses a place in the round.
#[test]
fn what_waits_begins_within_the_run() {
    let mut bench = store_and_list(1, 0x400, (0, 8));
    bench.writes(&[(SP_RAMADDR, 0x68), (SP_WRLEN, 0x0F)]);
    bench.writes(&[(DP_START, 0x60), (DP_END, 0x78)]);
    let mut out = [0; 40];
    let turns = expect_turns(&mut bench, MOST, &mut out);
    let mut rounds = [Sp, Dp, Consumer].repeat(3);
    rounds.extend([Dp, Consumer]);
    assert_eq!(turns, rounds);
    // Word 0x60 is 0x1D; 0x68 and 0x70 are stored by the second and third turn.
    let words = [0x11, 0x1D, 0xB0, 0xB1, 0].map(word);
    assert_eq!(out[..], words.concat());
}

/// Where no byte that the SP has yet to write is one that the DP has yet to
/// fetch, all SP turns first give the same.
#[test]
fn without_overlap_the_order_does_not_matter() {
    for budgets in [MOST, [2, 5, 5], [5, 2, 1], [1, 1, 1], [3, 0, 1]] {
        let mut merged = store_and_list(4, 0x100, (0, 0x30));
        let mut sp_first = merged.clone();
        let mut out = [[0x55; 40]; 2];
        let (answer, words) = merged.run(budgets, &mut out[0]);
        let [sp, dp, consumer] = budgets;
        assert_eq!(sp_first.run_sp(sp), answer);
        let rest = sp_first.run([0, dp, consumer], &mut out[1]);
        assert_eq!(rest, (success(0, 0), words));
        assert!(merged == sp_first && out[0] == out[1]);
    }
}

/// The run of the SP alone, as the rules say it.
fn sp_alone(bench: &mut Bench, budget: u32) -> u32 {
    let mut moved = 0;
    while moved < budget && bench.state.sp.busy == 1 {
        moved += bench.sp_turn().count;
    }
    moved
}

/// The run of the DP and the consumer, as the rules say it, with a budget for
/// both. A round of the two at least is left while either would act.
fn dp_alone(bench: &mut Bench, budget: u32, out: &mut [u8]) -> u32 {
    let (mut fetched, mut words) = (0, 0);
    let room = (out.len() / 8) as u32;
    loop {
        let before = (fetched, words);
        if fetched < budget {
            fetched += bench.dp_turn().count;
        }
        if words < budget.min(room) {
            let turn = bench.consumer_turn();
            if turn.count == 1 {
                let place = 8 * words as usize;
                out[place..place + 8].copy_from_slice(&turn.value.to_be_bytes());
                words += 1;
            }
        }
        if (fetched, words) == before {
            return words;
        }
    }
}

/// Any sound state with memories that are filled. In half of them both engines
/// run, and the SP's addresses are near the list.
fn any_bench(random: &mut Random) -> Bench {
    let mut bench = Bench::running();
    bench.state = random.sound_state();
    if random.number() % 2 == 0 {
        let State { sp, dp, .. } = &mut bench.state;
        dp.current = random.number() & 0xFFF8;
        dp.limit = dp.current + 8 * (1 + random.number() % 40);
        (dp.freeze, dp.flush) = (0, 0);
        let near = dp.current + 8 * (random.number() % 8);
        (sp.ram_addr, sp.sp_addr) = (near, near & 0xFF8);
        (sp.busy, sp.len) = (1, sp.row_len);
    }
    bench
}

/// A budget: none, a few words or any number; and the same for the output.
fn any_number(random: &mut Random) -> u32 {
    match random.number() % 4 {
        0 => random.number() % 3,
        1 => random.number() % 40,
        2 => u32::MAX,
        _ => random.number() % 600,
    }
}

#[test]
fn any_run_is_its_turns() {
    let mut random = Random(0x6B1E_55D2_0C93_A847);
    let (mut all, mut cut, mut full) = (0, 0, 0);
    for _ in 0..3_000 {
        let mut bench = any_bench(&mut random);
        let mut budgets = [0; 3].map(|_| any_number(&mut random));
        budgets[0] %= 500;
        let mut out = vec![0x55; any_number(&mut random) as usize % 601];
        let turns = expect_turns(&mut bench, budgets, &mut out);
        let words = count(&turns, Consumer);
        all += u32::from(turns.contains(&Sp) && turns.contains(&Dp) && words > 0);
        cut += u32::from(words > 0 && words == out.len() / 8);
        full += u32::from(turns.contains(&Dp) && bench.state.queue.len() == 32);
        assert!(out[8 * words..].iter().all(|byte| *byte == 0x55));
    }
    assert!(
        all >= 300 && cut >= 100 && full >= 100,
        "{all} {cut} {full}"
    );
}

#[test]
fn with_the_sps_budget_0_or_the_others_it_is_the_run_of_one_engine() {
    let mut random = Random(0x1D3F_5A79_8BC2_E406);
    for _ in 0..2_000 {
        let bench = any_bench(&mut random);
        let budget = any_number(&mut random) % 5_000;
        let (mut merged, mut alone) = (bench.clone(), bench.clone());
        let mut out = [0x55; 99];
        let moved = sp_alone(&mut alone, budget);
        let ran = merged.run([budget, 0, 0], &mut out);
        assert_eq!(ran, (success(0, moved), 0));
        assert!(merged == alone && out == [0x55; 99]);

        let (mut merged, mut alone) = (bench.clone(), bench);
        let mut alone_out = out;
        let words = dp_alone(&mut alone, budget, &mut alone_out);
        let ran = merged.run([0, budget, budget], &mut out);
        assert_eq!(ran, (success(0, 0), words));
        assert!(merged == alone && out == alone_out);
    }
}

#[test]
fn the_longest_transfer_beside_a_list() {
    let mut bench = Bench::running();
    bench.state = power_up();
    bench.writes(&[(SP_RDLEN, 0xFFFF_FFFF)]);
    bench.writes(&[(DP_START, 0), (DP_END, 0xFF_FFF8)]);
    let mut out = vec![0; 8 * 1_000 + 7];
    assert_eq!(bench.run(MOST, &mut out), (success(0, 131_072), 1_000));
    assert_eq!(out[..8_000], bench.rdram[..8_000]);
    // The fetches are 32 words ahead of what is consumed.
    bench.reads(&[(SP_RAMADDR, 0x1F_E808), (DP_CURRENT, 8_256)]);
}

/// A run is declined by the first number that applies, whatever its budgets
/// are, and then every lent byte is as before.
#[test]
fn a_declined_run_leaves_all_as_it_was() {
    let declines = |change: fn(&mut Bench), number: u32| {
        for budgets in [[0; 3], [4, 0, 0], [0, 4, 4], [0, 0, 4], [4; 3], MOST] {
            let mut bench = Bench::running();
            change(&mut bench);
            let before = bench.clone();
            let (rdram, dmem, imem) = (&mut bench.rdram, &mut bench.dmem, &mut bench.imem);
            let mut out = [0x55; 40];
            let [sp, dp, consumer] = budgets;
            let ran = run(&before.state, sp, dp, consumer, rdram, dmem, imem, &mut out);
            assert_eq!(ran.outcome, declined(&before.state, number));
            assert_eq!((ran.words, out), (0, [0x55; 40]));
            assert!(bench == before);
        }
    };
    declines(|bench| bench.rdram.truncate(65_535), 1);
    declines(|bench| bench.dmem.truncate(4_095), 2);
    declines(|bench| bench.imem.push(0), 3);
    declines(|bench| bench.state.sp.len = 0x28, 4);
    declines(|bench| bench.state.dp.freeze = 2, 4);
    declines(|bench| bench.state.queue = vec![0; 33], 4);
    declines(|bench| bench.state.dp.head = 32, 4);
    // IMEM counts also where the SP takes no turn, and before the state.
    declines(
        |bench| {
            bench.imem.clear();
            bench.state.sp.full = 2;
        },
        3,
    );
}

/// Kind 10 as bytes.
fn record(sp_budget: u32, dp_budget: u32) -> Vec<u8> {
    [
        &[10],
        &sp_budget.to_be_bytes()[..],
        &dp_budget.to_be_bytes(),
    ]
    .concat()
}

#[test]
fn a_replay_prints_the_sps_line_and_then_the_consumers() {
    let mut bench = store_and_list(3, 0x400, (0, 0x28));
    let recording = [record(2, 4), record(0, 0), record(u32::MAX, u32::MAX)].concat();
    let (state, listing) = bench.replay_to_end(&recording, 3);
    let lines = "S 00000002\nD 00000004\nS 00000000\nD 00000000\nS 00000001\nD 00000001\n";
    assert_eq!(listing, format!("replay 1\n{lines}end 3\n"));
    assert_eq!((state.sp.busy, state.dp.current), (0, 0x28));
}

/// Kinds 3 and 4 have a line of their own engine alone, and leave the other.
#[test]
fn kinds_3_and_4_are_runs_with_the_other_budgets_0() {
    let mut bench = store_and_list(3, 0, (0, 0x28));
    let recording = [[3, 0, 0, 0, 2], [4, 0, 0, 0, 3], [3, 0, 0, 0, 9]].concat();
    let (state, listing) = bench.replay_to_end(&recording, 3);
    let lines = "S 00000002\nD 00000003\nS 00000001\n";
    assert_eq!(listing, format!("replay 1\n{lines}end 3\n"));
    assert_eq!((state.sp.busy, state.dp.current), (0, 0x18));
}

#[test]
fn each_run_of_a_replay_has_room_for_256_words() {
    let mut bench = Bench::new();
    bench.state.dp.limit = 8 * 600;
    // 44 rows of one word.
    bench.writes(&[(SP_RAMADDR, 0x8000), (SP_RDLEN, 0x0002_B000)]);
    let runs = record(u32::MAX, u32::MAX).repeat(4);
    let (state, listing) = bench.replay_to_end(&runs, 4);
    let lines = "S 0000002C\nD 00000100\nS 00000000\nD 00000100\n\
        S 00000000\nD 00000058\nS 00000000\nD 00000000\n";
    assert_eq!(listing, format!("replay 1\n{lines}end 4\n"));
    assert_eq!(state.dp.current, 8 * 600);
}

/// The order decides in a replay as it does in the call.
#[test]
fn a_replay_takes_the_turns_in_the_same_order() {
    let mut bench = store_and_list(2, 0, (8, 0x18));
    bench.dmem[8] = 0x29;
    let mut by_kinds = bench.clone();
    let (merged, _) = bench.replay_to_end(&record(2, 2), 1);
    let (separate, _) = by_kinds.replay_to_end(&[3, 0, 0, 0, 2, 4, 0, 0, 0, 2], 2);
    assert_eq!((merged.dp.line, separate.dp.line), (0, 1));
}

/// Two lines of 11 bytes for 9 bytes of record: as many as fit in the longest
/// recording stay below what a listing may have.
#[test]
fn a_recording_of_runs_has_a_short_listing() {
    let runs = record(1, 1).repeat(1_820);
    let (_, listing) = Bench::new().replay_to_end(&runs, 1_820);
    assert_eq!(listing.len(), 9 + 1_820 * 22 + 9);
    assert!(listing.len() < 69_204);
}
