//! The command queue: what a fetch puts in, what a consumer turn takes out, and
//! what stays queued between runs. Every expected value is worked out by hand
//! from the rules; bits of STATUS are 0x40 for a queued word, 0x28 for
//! PIPE_BUSY, 0x100 for a list that runs and 0x80 always.

mod common;

use common::*;
use model::calls::*;
use model::machine::{
    DP_CLOCK, DP_CMD_BUSY, DP_CURRENT, DP_END, DP_PIPE_BUSY, DP_START, DP_STATUS, SP_RAMADDR,
    SP_WRLEN,
};

/// The words that the queue holds at most.
const ROOM: usize = 32;
/// A command of one word, a SYNC_FULL, and the first word of a command of two.
const PIPE_SYNC: u64 = 0x27 << 56;
const SYNC_FULL: u64 = 0x29 << 56;
const RECTANGLE: u64 = 0x24 << 56;

/// The n-th word of a list of commands of one word.
fn numbered(n: usize) -> u64 {
    PIPE_SYNC | n as u64
}

fn set_word(memory: &mut [u8], place: usize, word: u64) {
    memory[place..place + 8].copy_from_slice(&word.to_be_bytes());
}

/// Power-up over these words from 0x2000 on, with a list begun over them.
fn begun(words: &[u64]) -> Bench {
    let mut bench = Bench::new();
    for (i, word) in words.iter().enumerate() {
        set_word(&mut bench.rdram, 0x2000 + 8 * i, *word);
    }
    let end = 0x2000 + 8 * words.len() as u32;
    bench.writes(&[(DP_START, 0x2000), (DP_END, end)]);
    bench
}

/// The same over so many commands of one word.
fn begun_with(words: usize) -> Bench {
    let words: Vec<u64> = (0..words).map(numbered).collect();
    begun(&words)
}

/// Consumer turns that hand out these words.
fn consumes(bench: &mut Bench, words: &[u64]) {
    for word in words {
        assert_eq!(bench.consumer_turn(), success(*word, 1));
    }
}

/// What a record of kind 3 or 4 is as bytes.
fn run_record(kind: u8, budget: u32) -> Vec<u8> {
    [&[kind], &budget.to_be_bytes()[..]].concat()
}

/// What a record of kind 10 is as bytes.
fn merged_record(sp_budget: u32, dp_budget: u32) -> Vec<u8> {
    [run_record(10, sp_budget), dp_budget.to_be_bytes().to_vec()].concat()
}

#[test]
fn a_fetch_queues_the_word_and_frames_nothing() {
    let mut bench = begun(&[SYNC_FULL | 1, RECTANGLE | 2, u64::MAX]);
    let mut after = bench.state.clone();
    for (i, word) in [SYNC_FULL | 1, RECTANGLE | 2, u64::MAX]
        .into_iter()
        .enumerate()
    {
        // The value is 0 though the word is not.
        assert_eq!(bench.dp_turn(), success(0, 1));
        after.dp.current = 0x2008 + 8 * i as u32;
        after.dp.pipe_busy = 1;
        after.queue.push(word);
        assert_eq!(bench.state, after);
    }
    bench.reads(&[(DP_STATUS, 0xE8), (DP_CURRENT, 0x2018)]);
    assert_eq!(bench.dp_turn(), success(0, 0));
    assert_eq!(bench.state, after);
}

#[test]
fn a_full_queue_takes_no_word() {
    let mut bench = begun_with(40);
    bench.fetches(32);
    bench.reads(&[(DP_CURRENT, 0x2100), (DP_STATUS, 0x1E8)]);
    let full = bench.clone();
    assert_eq!(bench.dp_turn(), success(0, 0));
    assert!(bench == full);
    // One word out, one word in.
    for n in 0..8 {
        consumes(&mut bench, &[numbered(n)]);
        assert_eq!(bench.state.queue.len(), 31);
        bench.fetches(1);
        assert_eq!(bench.dp_turn(), success(0, 0));
        bench.reads(&[(DP_CURRENT, 0x2108 + 8 * n as u32)]);
    }
    // The list is done, and its last 32 words are still queued.
    bench.reads(&[(DP_CURRENT, 0x2140), (DP_STATUS, 0xE8)]);
    let rest: Vec<u64> = (8..40).map(numbered).collect();
    assert_eq!(bench.state.queue, rest);
    consumes(&mut bench, &rest);
    bench.reads(&[(DP_CURRENT, 0x2140), (DP_STATUS, 0xA8)]);
}

#[test]
fn an_empty_queue_gives_no_word() {
    for change in [
        |_: &mut Bench| {},
        |bench: &mut Bench| bench.state = begun_with(3).state,
        |bench: &mut Bench| bench.state.dp.words_left = 21,
        |bench: &mut Bench| (bench.state.dp.flush, bench.state.dp.pipe_busy) = (1, 1),
    ] {
        let mut bench = Bench::new();
        change(&mut bench);
        let before = bench.clone();
        assert_eq!(bench.consumer_turn(), success(0, 0));
        assert!(bench == before);
    }
}

/// A consumer turn changes the queue, and what framing changes; nothing else.
#[test]
fn a_consumer_turn_takes_the_oldest_word() {
    let mut state = full_state();
    state.dp.words_left = 0;
    let mut after = state.clone();
    after.queue = vec![0x0F00_0000_0000_0003, u64::MAX];
    after.dp.pipe_busy = 0;
    let outcome = consumer_turn(&state);
    assert_eq!(outcome.answer, success(SYNC_FULL | 2, 1));
    assert_eq!(outcome.state, after);

    after.queue = vec![u64::MAX];
    after.dp.words_left = 21;
    let outcome = consumer_turn(&outcome.state);
    assert_eq!(outcome.answer, success(0x0F00_0000_0000_0003, 1));
    assert_eq!(outcome.state, after);

    after.queue.clear();
    after.dp.words_left = 20;
    let outcome = consumer_turn(&outcome.state);
    assert_eq!(outcome.answer, success(u64::MAX, 1));
    assert_eq!(outcome.state, after);
}

/// A word with all bits zero counts as a word.
#[test]
fn a_word_of_zeros_is_a_word() {
    let mut bench = begun(&[0, 0]);
    bench.fetches(2);
    bench.reads(&[(DP_STATUS, 0xE8)]);
    consumes(&mut bench, &[0, 0]);
    assert_eq!(bench.consumer_turn(), success(0, 0));
    bench.reads(&[(DP_STATUS, 0xA8)]);
}

/// Words left belong to what was consumed: the words of a command of 22 words
/// may all be queued, and bit 6 has nothing to do with them.
#[test]
fn framing_waits_for_the_consumer() {
    let mut words = vec![SYNC_FULL; 23];
    words[0] = 0x0F << 56;
    let mut bench = begun(&words);
    bench.fetches(23);
    assert_eq!(bench.state.dp.words_left, 0);
    for (i, word) in words[..22].iter().enumerate() {
        bench.reads(&[(DP_STATUS, 0xE8)]);
        consumes(&mut bench, &[*word]);
        assert_eq!(usize::from(bench.state.dp.words_left), 21 - i);
    }
    bench.lines(0, 0);
    consumes(&mut bench, &[SYNC_FULL]);
    bench.lines(0, 1);
    bench.reads(&[(DP_STATUS, 0x80)]);

    // In mid command with nothing queued, bit 6 is off.
    let mut bench = begun(&[RECTANGLE]);
    assert_eq!(bench.fetch_and_consume(), success(RECTANGLE, 1));
    assert_eq!(bench.state.dp.words_left, 1);
    bench.reads(&[(DP_STATUS, 0xA8)]);
}

/// The counter of CMD_BUSY counts while a word is queued. Each tick is a power
/// of two, so that the sum tells which were counted.
#[test]
fn cmd_busy_counts_while_a_word_is_queued() {
    let ticks = |bench: &mut Bench, n: u32, counted: u32| {
        let outcome = tick(&bench.state, n);
        bench.took(outcome, success(0, 0));
        bench.reads(&[(DP_CMD_BUSY, counted)]);
    };
    let mut bench = begun(&[RECTANGLE, 0, PIPE_SYNC]);
    ticks(&mut bench, 0x01, 0);
    bench.fetches(1);
    ticks(&mut bench, 0x02, 0x02);
    // The first word of two is consumed: words left is 1, and none is queued.
    consumes(&mut bench, &[RECTANGLE]);
    ticks(&mut bench, 0x04, 0x02);
    bench.fetches(2);
    ticks(&mut bench, 0x08, 0x0A);
    bench.writes(&[(DP_STATUS, 8)]);
    ticks(&mut bench, 0x10, 0x1A);
    bench.writes(&[(DP_STATUS, 4)]);
    consumes(&mut bench, &[0]);
    ticks(&mut bench, 0x20, 0x3A);
    bench.writes(&[(DP_STATUS, 0x20)]);
    ticks(&mut bench, 0x40, 0x3A);
    // PIPE_BUSY came on with the first fetch and stayed on.
    bench.reads(&[(DP_CLOCK, 0x7F), (DP_PIPE_BUSY, 0x7E)]);
}

#[test]
fn freeze_holds_both_turns() {
    let mut bench = begun_with(5);
    bench.fetches(2);
    bench.writes(&[(DP_STATUS, 8)]);
    bench.reads(&[(DP_STATUS, 0x1EA), (DP_CURRENT, 0x2010)]);
    let frozen = bench.clone();
    assert_eq!(bench.dp_turn(), success(0, 0));
    assert_eq!(bench.consumer_turn(), success(0, 0));
    assert_eq!(bench.run_dp(u32::MAX, &mut [0x55; 64]), 0);
    assert_eq!(bench.look().length, 0);
    assert!(bench == frozen);
    bench.writes(&[(DP_STATUS, 4)]);
    let mut out = [0x55; 48];
    assert_eq!(bench.run_dp(u32::MAX, &mut out), 5);
    let words: Vec<u8> = (0..5).flat_map(|n| numbered(n).to_be_bytes()).collect();
    assert_eq!(out[..40], words);
    assert_eq!(out[40..], [0x55; 8]);
}

/// A write that sets FLUSH empties the queue. PIPE_BUSY stays, and nothing of
/// the old list comes out any more.
#[test]
fn setting_flush_empties_the_queue() {
    for queued in [1, 2, 31, 32] {
        let mut bench = begun_with(40);
        bench.fetches(queued);
        bench.writes(&[(DP_STATUS, 0x20)]);
        bench.reads(&[(DP_STATUS, 0xAC), (DP_CURRENT, 0x2000 + 8 * queued)]);
        assert_eq!(bench.state.queue, []);
        assert_eq!(bench.fetch_and_consume(), success(0, 0));
        // The next list starts clean, and from the first word of a command.
        bench.writes(&[(DP_STATUS, 0x10), (DP_START, 0x2000), (DP_END, 0x2010)]);
        bench.reads(&[(DP_STATUS, 0x1A8)]);
        assert_eq!(bench.run_dp(9, &mut [0; 72]), 2);
        bench.reads(&[(DP_STATUS, 0xA8), (DP_CURRENT, 0x2010)]);
    }
}

#[test]
fn setting_flush_forgets_the_words_left_and_the_queued_ones() {
    let mut bench = begun(&[0x0F << 56, 1, 2, 3]);
    set_word(&mut bench.rdram, 0x3000, SYNC_FULL);
    assert_eq!(bench.fetch_and_consume().count, 1);
    bench.fetches(2);
    bench.writes(&[(DP_STATUS, 0x20)]);
    bench.writes(&[(DP_STATUS, 0x10), (DP_START, 0x3000), (DP_END, 0x3008)]);
    // The SYNC_FULL is the first word of a command, and acts.
    assert_eq!(bench.fetch_and_consume(), success(SYNC_FULL, 1));
    bench.lines(0, 1);
    bench.reads(&[(DP_STATUS, 0x80)]);
}

/// FLUSH with words queued: such a state is sound, though no call makes one.
#[test]
fn flush_that_stays_on_leaves_the_queue_and_does_not_stop_the_consumer() {
    let mut bench = Bench::new();
    bench.state.dp.flush = 1;
    bench.state.queue = vec![numbered(1), numbered(2), numbered(3)];
    bench.reads(&[(DP_STATUS, 0xC4)]);
    consumes(&mut bench, &[numbered(1)]);
    // Neither a list nor END, nor a write of other bits, nor both bits of the
    // pair, nor clearing FLUSH.
    bench.writes(&[(DP_START, 0x2000), (DP_END, 0x2010), (DP_END, 0x2020)]);
    bench.writes(&[(DP_STATUS, 0x30), (DP_STATUS, 0x3CA), (DP_STATUS, 0x05)]);
    assert_eq!(bench.state.queue.len(), 2);
    let mut cleared = bench.clone();
    cleared.writes(&[(DP_STATUS, 0x10)]);
    cleared.reads(&[(DP_STATUS, 0xC0)]);
    assert_eq!(cleared.state.queue, [numbered(2), numbered(3)]);
    // To set it while it is on empties the queue.
    bench.writes(&[(DP_STATUS, 0x20)]);
    bench.reads(&[(DP_STATUS, 0x84)]);
    assert_eq!(bench.state.queue, []);
}

/// Of all STATUS writes, those with bit 5 and without bit 4 empty it.
#[test]
fn only_setting_flush_empties_the_queue() {
    for value in 0..0x400 {
        for flush in [0, 1] {
            let mut state = power_up();
            state.dp.flush = flush;
            state.queue = vec![SYNC_FULL, 0, 7];
            let outcome = write_register(&state, DP_STATUS, value);
            let empties = value & 0x30 == 0x20;
            let expected = if empties { vec![] } else { state.queue };
            assert_eq!(outcome.state.queue, expected, "{value:03X} {flush}");
        }
    }
}

#[test]
fn the_look_shows_the_word_at_current_though_the_queue_is_full() {
    let mut bench = begun_with(40);
    let at = |offset: u32| Part {
        memory: 0,
        offset,
        length: 8,
    };
    for n in 0..32 {
        assert_eq!(bench.look(), at(0x2000 + 8 * n));
        bench.fetches(1);
    }
    // Full: no word is fetched, and the look is the same after each try.
    for _ in 0..2 {
        assert_eq!(bench.look(), at(0x2100));
        assert_eq!(bench.dp_turn(), success(0, 0));
    }
    consumes(&mut bench, &[numbered(0)]);
    assert_eq!(bench.look(), at(0x2100));
    bench.fetches(1);
    assert_eq!(bench.look(), at(0x2108));
    assert_eq!(bench.state.queue[31], numbered(32));
}

/// The waiting list starts with the fetch of the last word before it, whatever
/// is still queued.
#[test]
fn a_waiting_list_starts_with_a_fetch() {
    let mut bench = begun_with(3);
    set_word(&mut bench.rdram, 0x3000, numbered(9));
    bench.writes(&[(DP_START, 0x3000), (DP_END, 0x3008)]);
    bench.fetches(2);
    bench.reads(&[(DP_CURRENT, 0x2010), (DP_STATUS, 0x7E8)]);
    bench.fetches(1);
    bench.reads(&[(DP_CURRENT, 0x3000), (DP_STATUS, 0x1E8)]);
    bench.fetches(1);
    bench.reads(&[(DP_CURRENT, 0x3008), (DP_STATUS, 0xE8)]);
    consumes(&mut bench, &[0, 1, 2, 9].map(numbered));
    bench.reads(&[(DP_CURRENT, 0x3008), (DP_STATUS, 0xA8)]);

    // A full queue holds the waiting list back.
    let mut bench = begun_with(33);
    bench.writes(&[(DP_START, 0x3000), (DP_END, 0x3008)]);
    bench.fetches(32);
    assert_eq!(bench.dp_turn(), success(0, 0));
    bench.reads(&[(DP_CURRENT, 0x2100), (DP_STATUS, 0x7E8)]);
    consumes(&mut bench, &[numbered(0)]);
    bench.fetches(1);
    bench.reads(&[(DP_CURRENT, 0x3000), (DP_STATUS, 0x1E8)]);
}

/// A queued word is what was fetched: neither memory nor XBUS changes it.
#[test]
fn a_queued_word_stays_what_it_was() {
    let mut bench = begun(&[1, 2, 3]);
    set_word(&mut bench.dmem, 8, 0xD1);
    set_word(&mut bench.dmem, 0x10, 0xD2);
    bench.fetches(1);
    bench.writes(&[(DP_STATUS, 2)]);
    bench.fetches(1);
    bench.writes(&[(DP_STATUS, 1)]);
    bench.rdram.fill(0xFF);
    bench.dmem.fill(0xFF);
    bench.fetches(1);
    consumes(&mut bench, &[1, 0xD1, u64::MAX]);
}

/// PIPE_BUSY is on from the fetch on, also with a SYNC_FULL; the line and the
/// flag follow when it is consumed, and later words that are queued already
/// leave the flag off.
#[test]
fn sync_full_acts_when_it_is_consumed() {
    let words = [SYNC_FULL, PIPE_SYNC];
    let mut early = begun(&words);
    early.fetches(1);
    early.lines(0, 0);
    early.reads(&[(DP_STATUS, 0x1E8)]);
    consumes(&mut early, &words[..1]);
    early.lines(0, 1);
    early.reads(&[(DP_STATUS, 0x180)]);
    early.fetches(1);
    consumes(&mut early, &words[1..]);
    early.reads(&[(DP_STATUS, 0xA8)]);

    let mut late = begun(&words);
    late.fetches(2);
    late.reads(&[(DP_STATUS, 0xE8)]);
    late.lines(0, 0);
    consumes(&mut late, &words[..1]);
    late.reads(&[(DP_STATUS, 0xC0)]);
    late.lines(0, 1);
    consumes(&mut late, &words[1..]);
    late.reads(&[(DP_STATUS, 0x80)]);
}

/// 300 words: after 256 of them the room is used, and 32 more are fetched.
#[test]
fn the_room_ends_the_consumer_and_the_fetches_go_on() {
    let mut bench = begun_with(300);
    let mut out = [0x55; 2_048];
    assert_eq!(bench.run_dp(300, &mut out), 256);
    bench.reads(&[(DP_CURRENT, 0x2000 + 8 * 288), (DP_STATUS, 0x1E8)]);
    assert_eq!(bench.state.queue.len(), ROOM);
    assert_eq!(bench.state.queue[0], numbered(256));
    assert_eq!(out[2_040..], numbered(255).to_be_bytes());
    // The rest of the list is 12 words, and 32 are queued.
    assert_eq!(bench.run_dp(300, &mut out), 44);
    bench.reads(&[(DP_CURRENT, 0x2000 + 8 * 300), (DP_STATUS, 0xA8)]);
    assert_eq!(out[..8], numbered(256).to_be_bytes());
    assert_eq!(out[8 * 43..8 * 44], numbered(299).to_be_bytes());
    assert_eq!(out[8 * 44..8 * 45], numbered(44).to_be_bytes());
    assert_eq!(bench.run_dp(300, &mut out), 0);
}

/// Without any room nothing is consumed, and fetches fill the queue.
#[test]
fn without_room_the_queue_fills() {
    for length in 0..8 {
        let mut bench = begun_with(40);
        let mut out = vec![0x55; length];
        assert_eq!(bench.run_dp(u32::MAX, &mut out), 0);
        bench.reads(&[(DP_CURRENT, 0x2100), (DP_STATUS, 0x1E8)]);
        assert!(out.iter().all(|byte| *byte == 0x55));
    }
}

/// The budgets are counted apart, and a turn that is passed over uses none.
#[test]
fn each_budget_is_its_own() {
    // Fetches, consumed words, then what is queued; the list has 40 words.
    for (budgets, words, current, queued) in [
        ([0, 5, 3], 3, 5, 2),
        ([0, 3, 5], 3, 3, 0),
        ([0, 40, 0], 0, 32, 32),
        ([0, 40, 1], 1, 33, 32),
        ([0, 40, 7], 7, 39, 32),
        ([0, 40, 8], 8, 40, 32),
        ([0, 40, 9], 9, 40, 31),
        ([0, 0, 9], 0, 0, 0),
        ([0, 40, 40], 40, 40, 0),
    ] {
        let mut bench = begun_with(40);
        let ran = bench.run(budgets, &mut [0; 400]);
        assert_eq!(ran, (success(0, 0), words), "{budgets:?}");
        bench.reads(&[(DP_CURRENT, 0x2000 + 8 * current)]);
        assert_eq!(bench.state.queue.len(), queued, "{budgets:?}");
    }
}

/// With 32 words queued, the first round has no fetch: its budget is there for
/// the second one.
#[test]
fn a_full_queue_at_the_outset_uses_no_budget() {
    for (budgets, words, current) in [
        ([0, 1, 1], 1, 33),
        ([0, 2, 1], 1, 33),
        ([0, 1, 2], 2, 33),
        ([0, 2, 2], 2, 34),
        ([0, 9, 0], 0, 32),
    ] {
        let mut bench = begun_with(40);
        bench.fetches(32);
        let ran = bench.run(budgets, &mut [0; 400]);
        assert_eq!(ran, (success(0, 0), words), "{budgets:?}");
        bench.reads(&[(DP_CURRENT, 0x2000 + 8 * current)]);
        let queued = current as usize - words as usize;
        assert_eq!(bench.state.queue.len(), queued, "{budgets:?}");
    }
}

/// In a round the fetch comes before the consumer turn: here it turns PIPE_BUSY
/// on, and the SYNC_FULL that was queued then turns it off.
#[test]
fn in_a_round_the_fetch_comes_first() {
    let mut bench = begun(&[PIPE_SYNC]);
    bench.state.queue = vec![SYNC_FULL];
    let mut out = [0x55; 16];
    assert_eq!(bench.run_dp(1, &mut out), 1);
    assert_eq!(out[..8], SYNC_FULL.to_be_bytes());
    bench.reads(&[(DP_STATUS, 0xC0)]);
    assert_eq!(bench.state.queue, [PIPE_SYNC]);
}

/// The SP stores at 0x2000 and then at 0x2008, where the list begins. Its first
/// word is fetched in the first round, or with a full queue in the second.
#[test]
fn a_full_queue_lets_the_sp_go_ahead() {
    let mut bench = begun(&[1, 2, 3]);
    set_word(&mut bench.dmem, 0, 0xB0);
    set_word(&mut bench.dmem, 8, 0xB1);
    bench.state.dp.current = 0x2008;
    bench.writes(&[(SP_RAMADDR, 0x2000), (SP_WRLEN, 0x0F)]);
    let mut full = bench.clone();
    full.state.queue = vec![7; 32];
    // The first round stores 0xB0 and fetches 0x2008 as it was.
    assert_eq!(bench.run([2, 2, 0], &mut []), (success(0, 2), 0));
    assert_eq!(bench.state.queue, [2, 3]);
    // The first round stores 0xB0 and makes room, the second stores 0xB1.
    assert_eq!(full.run([2, 2, 2], &mut [0; 16]), (success(0, 2), 2));
    assert_eq!(full.state.queue[30..], [0xB1, 3]);
}

/// The run goes on while the consumer alone can act, though nothing is fetched
/// and the SP is idle.
#[test]
fn the_consumer_goes_on_alone() {
    let mut bench = Bench::new();
    bench.state.queue = (0..32).map(numbered).collect();
    let mut out = [0x55; 264];
    assert_eq!(bench.run([0, 0, 99], &mut out), (success(0, 0), 32));
    assert_eq!(out[248..256], numbered(31).to_be_bytes());
    assert_eq!(out[256..], [0x55; 8]);
    bench.reads(&[(DP_STATUS, 0x80)]);
}

/// Kind 4 has one budget for both: 256 of 300 words, then the 32 that are left
/// with the 12 after them.
#[test]
fn a_replay_leaves_words_for_the_next_run() {
    let mut bench = begun_with(300);
    let (state, listing) = bench.replay_to_end(&run_record(4, 300), 1);
    assert_eq!(listing, "replay 1\nD 00000100\nend 1\n");
    assert_eq!(state.dp.current, 0x2000 + 8 * 288);
    assert_eq!(state.queue.len(), ROOM);
    bench.state = state;
    let (state, listing) = bench.replay_to_end(&run_record(4, 300), 1);
    assert_eq!(listing, "replay 1\nD 0000002C\nend 1\n");
    assert_eq!(state.dp.current, 0x2000 + 8 * 300);
    assert_eq!(state.queue, []);
}

/// A kind 4 run with a small budget begins with what is queued, and queues as
/// many words as it takes out while the list lasts.
#[test]
fn a_small_run_behind_a_full_queue() {
    let mut bench = begun_with(300);
    let runs = [run_record(4, 300), run_record(4, 5), run_record(4, 1)];
    let (state, listing) = bench.replay_to_end(&runs.concat(), 3);
    assert_eq!(
        listing,
        "replay 1\nD 00000100\nD 00000005\nD 00000001\nend 3\n"
    );
    assert_eq!(state.dp.current, 0x2000 + 8 * 294);
    assert_eq!(state.queue[0], numbered(262));
    assert_eq!(state.queue.len(), ROOM);
}

/// Kind 3 has a budget for the SP alone, and kind 10 has the DP's for the
/// consumer too.
#[test]
fn the_kinds_have_their_budgets() {
    let mut bench = begun_with(8);
    bench.state.queue = vec![PIPE_SYNC; 2];
    bench.writes(&[(SP_RAMADDR, 0x400), (SP_WRLEN, 0x1F)]);
    for (records, lines, current, queued) in [
        (run_record(3, 3), "S 00000003\n", 0x2000, 2),
        (run_record(4, 3), "D 00000003\n", 0x2018, 2),
        (merged_record(1, 3), "S 00000001\nD 00000003\n", 0x2018, 2),
        (merged_record(3, 1), "S 00000003\nD 00000001\n", 0x2008, 2),
        (merged_record(3, 0), "S 00000003\nD 00000000\n", 0x2000, 2),
        (merged_record(0, 9), "S 00000000\nD 00000009\n", 0x2040, 1),
        (merged_record(9, 10), "S 00000004\nD 0000000A\n", 0x2040, 0),
    ] {
        let (state, listing) = bench.clone().replay_to_end(&records, 1);
        assert_eq!(listing, format!("replay 1\n{lines}end 1\n"));
        assert_eq!((state.dp.current, state.queue.len()), (current, queued));
    }
}

/// A consumer turn and a fetch that are declined leave the queue as it was.
#[test]
fn a_declined_turn_leaves_the_queue() {
    let mut bench = begun_with(4);
    bench.fetches(2);
    let mut unsound = bench.state.clone();
    unsound.dp.words_left = 22;
    assert_eq!(consumer_turn(&unsound), declined(&unsound, 4));
    let short = &bench.dmem[..4_095];
    let outcome = dp_turn(&bench.state, &bench.rdram, short);
    assert_eq!(outcome, declined(&bench.state, 2));
    let outcome = dp_turn(&bench.state, &bench.rdram[1..], short);
    assert_eq!(outcome, declined(&bench.state, 1));
}
