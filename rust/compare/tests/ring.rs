//! The ring that holds the queued words: no answer depends on its head and on the slots without a
//! word, and each call moves it as the header says.

use compare::cases::bursts::{burst, good_pairs};
use compare::cases::calls::{call_of, ON_A_STATE, ON_MEMORY};
use compare::cases::lengths::{good_lengths, odd_lengths};
use compare::cases::seed::random_of_test;
use compare::cases::states::{both_busy, sound};
use compare::cases::traffic::Traffic;
use compare::cases::unsound_states::unsound;
use compare::comparison::Comparison;
use compare::coverage::counting_replay::CountingReplay;
use compare::data::call::{Call, Case};
use compare::data::memory::Lent;
use compare::data::ring::{rotated, words};
use compare::data::state_fields::to_model;
use compare::sides::library::{library, library_with_ring};
use compare::sides::observed::Observed;
use model::machine::DP_STATUS;
use ofersky::{State, LISTING_BYTES, QUEUE_WORDS};
use random::Random;

/// The library on the same queued words in other slots. Where it gives the state back as handed in,
/// that is told by the case's own.
fn in_other_slots(case: &Case) -> Observed {
    // The same ones each time that a case is asked.
    let seed = case.lent.fill + u64::from(case.state.dp.clock) + u64::from(case.state.dp.head);
    let state = rotated(&case.state, &mut Random::new(seed));
    let other = Case {
        state,
        ..case.clone()
    };
    let mut seen = library(&other);
    if case.call.keeps_state(seen.number()) && seen.outcome.state == state {
        seen.outcome.state = case.state;
    }
    seen
}

/// A sound state, or at times one that is not.
fn any_state(random: &mut Random, rdram: usize) -> State {
    match random.below(8) {
        0 => unsound(random, rdram),
        1..=3 => both_busy(random, rdram),
        _ => sound(random, rdram),
    }
}

#[test]
fn calls_in_other_slots() {
    let mut random = random_of_test(81);
    let mut comparison = Comparison::of(library, in_other_slots, "call");
    for _ in 0..3_000 {
        let lent = match random.below(6) {
            0 => odd_lengths(&mut random),
            _ => good_lengths(&mut random),
        };
        let state = any_state(&mut random, lent.rdram);
        for kind in 0..ON_A_STATE {
            let call = call_of(&mut random, kind, &state, lent.rdram);
            comparison.check(&Case { state, lent, call });
        }
    }
    let totals = &comparison.totals;
    for call in ["consumer_turn", "dp_turn", "sp_row", "run", "tick"] {
        totals.expect_numbers(call, &[0, 4], 200);
    }
    totals.expect_numbers("write_register", &[0, 4], 200);
    totals.expect_numbers("write_registers", &[0, 4, 5, 10, 11], 50);
    assert_eq!(totals.runs.unforeseen, 0);
    println!("in other slots: {}", totals.calls_line());
}

#[test]
fn replays_in_other_slots() {
    let mut random = random_of_test(82);
    let mut comparison = Comparison::of(library, in_other_slots, "recording");
    for _ in 0..1_500 {
        let lent = Lent::new(4_096, random.below(1 << 16).into());
        let state = sound(&mut random, lent.rdram);
        let replay = CountingReplay::new(to_model(&state), lent.bytes());
        let mut traffic = Traffic::new(&mut random, replay);
        (0..4).for_each(|_| traffic.sequence());
        let (recording, out) = (traffic.bytes, LISTING_BYTES);
        let call = Call::Replay { recording, out };
        comparison.check(&Case { state, lent, call });
    }
    let totals = &comparison.totals;
    println!("replays in other slots: {}", totals.recordings_line());
}

/// The ring after a single call that is accepted, or a burst that stops at a pair, by the words of
/// the header. The queued words were compared already.
fn ring_after(case: &Case, seen: &Observed) -> ([u64; QUEUE_WORDS], u8) {
    let dp = &case.state.dp;
    let (mut queue, mut head) = (case.state.queue, dp.head);
    match (&case.call, seen.outcome.answer.count) {
        (Call::DpTurn, 1) => {
            let slot = usize::from(dp.head + dp.queued) % QUEUE_WORDS;
            queue[slot] = *words(&seen.outcome.state).last().expect("a word");
        }
        (Call::ConsumerTurn, 1) => head = (head + 1) % QUEUE_WORDS as u8,
        _ => {}
    }
    (queue, head)
}

/// A call other than a run, of those that give a state; often a write that sets FLUSH, alone or in
/// a burst.
fn single_call(random: &mut Random) -> Case {
    let lent = Lent::new(4_096, random.below(1 << 16).into());
    let state = sound(random, lent.rdram);
    let (address, value) = (DP_STATUS, random.next_u32() & !0x10 | 0x20);
    let call = match random.below(7) {
        0 => Call::DpTurn,
        1 => Call::ConsumerTurn,
        2 => Call::Write { address, value },
        3 => {
            let mut pairs = good_pairs(random, 4, lent.rdram);
            pairs[random.index(4)] = (address, value);
            burst(&pairs)
        }
        _ => {
            // Up to the SP turn and the row, which are the first two on memory.
            let kind = 1 + random.index(ON_MEMORY + 1);
            call_of(random, kind, &state, lent.rdram)
        }
    };
    Case { state, lent, call }
}

/// A fetch fills the slot behind the last word, a consumer turn moves the head on, and no other
/// call touches a slot or the head: not even FLUSH.
#[test]
fn slots_of_single_calls() {
    let mut random = random_of_test(83);
    let (mut flushed, mut free) = ([0; 2], 0);
    for _ in 0..20_000 {
        let case = single_call(&mut random);
        let seen = library_with_ring(&case);
        if case.call.keeps_state(seen.number()) {
            continue;
        }
        let (before, after) = (&case.state.dp, &seen.outcome.state);
        assert_eq!((after.queue, after.dp.head), ring_after(&case, &seen));
        let emptied = u32::from(after.dp.queued < before.queued);
        match case.call {
            Call::Write { .. } => flushed[0] += emptied,
            Call::WriteRegisters { .. } => flushed[1] += emptied,
            _ => {}
        }
        free += u32::from(usize::from(before.queued) < QUEUE_WORDS);
    }
    let [by_write, by_burst] = flushed;
    assert!(by_write >= 1_000 && by_burst >= 1_000 && free >= 1_000);
    println!("rings kept: {by_write} queues flushed by a write, {by_burst} by a burst");
}

/// The wrapper gives the queued words of every state, also of one that is not sound.
#[test]
fn queued_words_in_order() {
    let mut random = random_of_test(84);
    for i in 0..20_000u32 {
        let mut state = sound(&mut random, 4_096);
        if i % 2 == 0 {
            (state.dp.queued, state.dp.head) = (random.byte(), random.byte());
        }
        let mut expected = words(&state);
        expected.truncate(QUEUE_WORDS);
        assert!(state.queued_words().eq(expected));
    }
}
