//! Single calls, made of the library and of the model.

use compare::cases::addresses::{edge_addresses, not_register};
use compare::cases::calls::{any_case, call_of, NO_REGISTER, ON_A_STATE, ON_MEMORY, RUN};
use compare::cases::invalid_recordings::{
    of_length, with_bad_address, with_bad_kind, with_changed_bytes,
};
use compare::cases::lengths::{good_lengths, odd_lengths};
use compare::cases::seed::random_of_test;
use compare::cases::states::sound;
use compare::cases::traffic::sequences;
use compare::cases::unsound_states::{break_clause, span_of, unsound, BREAKS};
use compare::cases::values::{register_value, value_for};
use compare::comparison::Comparison;
use compare::coverage::totals::{Sum, Totals};
use compare::data::call::{Call, Case};
use compare::data::memory::{Lent, LONGEST_RDRAM};
use compare::data::recording::LONGEST;
use compare::data::ring::rotated;
use compare::data::state_fields::{field, FIELDS, FLAGS};
use compare::sides::observed::{next_state, Observed};
use model::machine::{DP_STATUS, REGISTERS, SP_STATUS};
use ofersky::{Outcome, State};
use random::Random;

/// What the eight tests compared.
static ALL: Sum = Sum::of_tests(8);

/// Prints the line of a test, and after the last one that of all.
fn done(test: &str, totals: &Totals) {
    println!("{test}: {}", totals.calls_line());
    assert_eq!(totals.runs.unforeseen, 0);
    if let Some(all) = ALL.add(totals) {
        println!("all single calls: {}", all.calls_line());
        println!("their queues: {}", all.queue.tally.line());
        println!("their rows: {}", all.rows.calls.line());
        println!("their bursts: {}", all.bursts.tally.line());
        all.rows.calls.expect(25);
        all.bursts.tally.expect(25);
        all.queue.tally.expect(25);
        assert!(all.compared >= 200_000);
    }
}

/// A call that takes no memory.
fn plain(state: State, call: Call) -> Case {
    let lent = Lent::new(0, 0);
    Case { state, lent, call }
}

fn read_and_write(comparison: &mut Comparison, state: State, address: u32, value: u32) {
    comparison.check(&plain(state, Call::Read { address }));
    comparison.check(&plain(state, Call::Write { address, value }));
}

#[test]
fn registers() {
    let mut random = random_of_test(21);
    let mut comparison = Comparison::new("call");
    comparison.check(&plain(State::default(), Call::PowerUp));
    for _ in 0..1_500 {
        let rdram = random.pick(&[0, 4_096, 32_768]);
        let state = sound(&mut random, rdram);
        for address in REGISTERS {
            comparison.check(&plain(state, Call::Read { address }));
            for _ in 0..3 {
                let value = value_for(&mut random, address, rdram);
                let seen = comparison.check(&plain(state, Call::Write { address, value }));
                // No write changes it, whatever list starts or ends.
                assert_eq!(seen.outcome.state.dp.pipe_busy, state.dp.pipe_busy);
            }
        }
    }
    comparison
        .totals
        .expect_numbers("read_register", &[0], 20_000);
    comparison
        .totals
        .expect_numbers("write_register", &[0], 60_000);
    done("registers", &comparison.totals);
}

/// No bit, each bit, each two bits, and all bits.
fn bit_patterns() -> Vec<u32> {
    let mut patterns = vec![0, u32::MAX];
    for i in 0..32 {
        patterns.extend((0..=i).map(|j| 1 << i | 1 << j));
    }
    patterns
}

#[test]
fn status_bits() {
    let mut random = random_of_test(22);
    let mut comparison = Comparison::new("call");
    for _ in 0..30 {
        let state = sound(&mut random, 4_096);
        for value in bit_patterns() {
            for address in [SP_STATUS, DP_STATUS] {
                comparison.check(&plain(state, Call::Write { address, value }));
            }
        }
    }
    done("status bits", &comparison.totals);
}

#[test]
fn addresses_beside_the_registers() {
    let mut random = random_of_test(23);
    let mut comparison = Comparison::new("call");
    let near = |base: u32| base - 0x10..base + 0x50;
    let blocks = near(0x0404_0000).chain(near(0x0410_0000));
    for address in blocks.chain(near(0x041F_FFE0)) {
        for _ in 0..20 {
            let state = sound(&mut random, 4_096);
            let value = register_value(&mut random);
            read_and_write(&mut comparison, state, address, value);
        }
    }
    for _ in 0..4_000 {
        let state = if random.once_in(4) {
            unsound(&mut random, 4_096)
        } else {
            sound(&mut random, 4_096)
        };
        let address = not_register(&mut random);
        read_and_write(&mut comparison, state, address, 0x0F);
    }
    for call in ["read_register", "write_register"] {
        comparison.totals.expect_numbers(call, &[0, 4, 5, 10], 300);
        comparison.totals.expect_misaligned(call, 1_000);
        comparison.totals.expect_mirrors(call, 300);
    }
    done("addresses beside the registers", &comparison.totals);
}

/// The words that turns fetched and consumed.
struct Words {
    fetched: u32,
    consumed: u32,
    /// Those that begin a command, by opcode.
    framed: [u32; 64],
    /// By PIPE_BUSY before them: first and later ones of a command, SYNC_FULL, and words fetched.
    pipe: [[u32; 4]; 2],
}

impl Words {
    /// Counts the word of a DP turn. PIPE_BUSY is on after it, and it is not framed.
    fn see_fetch(&mut self, before: &State, outcome: &Outcome) {
        self.fetched += 1;
        self.pipe[before.dp.pipe_busy as usize][3] += 1;
        let after = &outcome.state.dp;
        assert_eq!((outcome.answer.value, after.pipe_busy), (0, 1));
        assert_eq!(after.words_left, before.dp.words_left);
    }

    /// Counts the word of a consumer turn. PIPE_BUSY is off after a SYNC_FULL, and else as before.
    fn see(&mut self, before: &State, outcome: &Outcome) {
        let opcode = (outcome.answer.value >> 56) as usize % 64;
        let begins = before.dp.words_left == 0;
        let kind = match (begins, opcode) {
            (false, _) => 1,
            (true, 0x29) => 2,
            (true, _) => 0,
        };
        self.consumed += 1;
        self.framed[opcode] += u32::from(begins);
        self.pipe[before.dp.pipe_busy as usize][kind] += 1;
        let pipe = if kind == 2 { 0 } else { before.dp.pipe_busy };
        assert_eq!(outcome.state.dp.pipe_busy, pipe);
    }
}

#[test]
fn turns_runs_and_looks() {
    let mut random = random_of_test(24);
    let mut comparison = Comparison::new("call");
    let [mut moved, mut found] = [0; 2];
    let mut words = Words {
        fetched: 0,
        consumed: 0,
        framed: [0; 64],
        pipe: [[0; 4]; 2],
    };
    for _ in 0..14_000 {
        let lent = good_lengths(&mut random);
        let state = sound(&mut random, lent.rdram);
        for kind in (NO_REGISTER..ON_A_STATE).chain([RUN, RUN]) {
            let call = call_of(&mut random, kind, &state, lent.rdram);
            let case = Case { state, lent, call };
            let seen = comparison.check(&case);
            match (&case.call, seen.outcome.answer.count) {
                (Call::SpTurn, count) => moved += count,
                (Call::DpTurn, 1) => words.see_fetch(&state, &seen.outcome),
                (Call::ConsumerTurn, 1) => words.see(&state, &seen.outcome),
                (Call::Look, _) => found += seen.part.length / 8,
                _ => {}
            }
        }
    }
    let Words {
        fetched,
        consumed,
        framed,
        pipe,
    } = words;
    assert!(framed.iter().all(|seen| *seen >= 3), "{framed:?}");
    assert!(pipe.iter().flatten().all(|seen| *seen >= 3), "{pipe:?}");
    assert!(moved >= 3_000 && fetched >= 2_500 && consumed >= 3_000 && found >= 2_000);
    println!("turns, runs and looks: {moved} SP turns moved a word, {fetched} DP turns fetched one, {consumed} consumer turns took one, {found} looks found one");
    println!("their runs: {}", comparison.totals.runs.line());
    done("turns, runs and looks", &comparison.totals);
}

#[test]
fn walks() {
    let mut random = random_of_test(25);
    let mut comparison = Comparison::new("call");
    for walk in 0..700 {
        let lent = good_lengths(&mut random);
        let mut state = match walk % 2 {
            0 => ofersky::power_up(),
            _ => sound(&mut random, lent.rdram),
        };
        for _ in 0..80 {
            let case = any_case(&mut random, state, lent);
            let seen = comparison.check(&case);
            // The queue's words go on from other slots.
            state = rotated(&next_state(&case, &seen), &mut random);
        }
        let sound = comparison.check(&plain(state, Call::IsSound)).sound;
        assert!(
            sound,
            "a walk of calls on a sound state ends in a sound one"
        );
    }
    done("walks", &comparison.totals);
}

#[test]
fn unsound_states() {
    let mut random = random_of_test(26);
    let mut comparison = Comparison::new("call");
    for clause in BREAKS {
        for round in 0..100 * ON_A_STATE {
            let mut state = sound(&mut random, 4_096);
            break_clause(&mut random, &mut state, clause);
            expect_unsound(&mut comparison, state, clause);
            let lent = Lent::new(4_096, 1);
            let call = call_of(&mut random, round % ON_A_STATE, &state, lent.rdram);
            comparison.check(&Case { state, lent, call });
        }
    }
    numbers_at_their_edges(&mut comparison);
    every_flag_byte(&mut comparison, &mut random);
    every_ring(&mut comparison, &mut random);
    for call in ["read_register", "write_register", "tick", "sp_break"] {
        comparison.totals.expect_numbers(call, &[4], 1_000);
    }
    for call in ["acknowledge", "sp_turn", "sp_row", "dp_turn", "run"] {
        comparison.totals.expect_numbers(call, &[4], 1_000);
    }
    for call in ["consumer_turn", "write_registers"] {
        comparison.totals.expect_numbers(call, &[4], 1_000);
    }
    done("unsound states", &comparison.totals);
}

fn expect_unsound(comparison: &mut Comparison, state: State, clause: &str) {
    let seen = comparison.check(&plain(state, Call::IsSound));
    assert!(!seen.sound, "{clause} broken, and still sound");
}

/// Each number alone, with all else as at power-up: the last one that fits, and the first that does
/// not.
fn numbers_at_their_edges(comparison: &mut Comparison) {
    for name in BREAKS.iter().filter(|name| name.contains('.')) {
        let (span, step) = span_of(name);
        for (value, sound) in [(span - step, true), (span, false)] {
            let mut state = ofersky::power_up();
            (field(name).set)(&mut state, value.into());
            let seen = comparison.check(&plain(state, Call::IsSound));
            assert_eq!(seen.sound, sound, "{name} 0x{value:X}");
        }
    }
}

/// Every byte that is no flag, in every flag.
fn every_flag_byte(comparison: &mut Comparison, random: &mut Random) {
    for name in FLAGS {
        for byte in 2..256 {
            let mut state = sound(random, 4_096);
            (field(name).set)(&mut state, byte);
            expect_unsound(comparison, state, name);
            comparison.check(&any_case(random, state, Lent::new(64, 2)));
        }
    }
}

/// Every number of queued words, and every slot of the oldest.
fn every_ring(comparison: &mut Comparison, random: &mut Random) {
    for byte in 0..=255 {
        for (name, most) in [("dp.queued", 32), ("dp.head", 31)] {
            let mut state = sound(random, 4_096);
            (field(name).set)(&mut state, byte);
            let seen = comparison.check(&plain(state, Call::IsSound));
            assert_eq!(seen.sound, byte <= most, "{name} {byte}");
            comparison.check(&any_case(random, state, Lent::new(64, 2)));
        }
    }
}

#[test]
fn soundness_and_odd_lengths() {
    let mut random = random_of_test(27);
    let mut comparison = Comparison::new("call");
    for _ in 0..12_000 {
        let lent = odd_lengths(&mut random);
        let state = if random.once_in(2) {
            unsound(&mut random, lent.rdram)
        } else {
            sound(&mut random, lent.rdram)
        };
        comparison.check(&plain(state, Call::IsSound));
        let kind = ON_MEMORY + random.index(ON_A_STATE - ON_MEMORY);
        let call = call_of(&mut random, kind, &state, lent.rdram);
        comparison.check(&Case { state, lent, call });
    }
    changed_fields(&mut comparison, &mut random);
    huge_memory(&mut comparison, &mut random);
    let totals = &comparison.totals;
    for call in ["sp_turn", "sp_row", "run"] {
        totals.expect_numbers(call, &[0, 1, 2, 3, 4], 200);
    }
    totals.expect_numbers("dp_turn", &[0, 1, 2, 4], 200);
    done("soundness and odd lengths", &comparison.totals);
}

/// Sound states with one bit of one field changed: some stay sound.
fn changed_fields(comparison: &mut Comparison, random: &mut Random) {
    let mut still = 0;
    for field in FIELDS {
        for bit in 0..32 {
            for _ in 0..4 {
                let mut state = sound(random, 4_096);
                let value = (field.get)(&state) ^ 1 << bit;
                (field.set)(&mut state, value);
                still += u32::from(comparison.check(&plain(state, Call::IsSound)).sound);
            }
        }
    }
    assert!(still > 100);
}

/// RDRAM of the longest length allowed, and of more. These are few, because each takes long.
fn huge_memory(comparison: &mut Comparison, random: &mut Random) {
    for length in [LONGEST_RDRAM, LONGEST_RDRAM + 1, LONGEST_RDRAM + 8] {
        for kind in (ON_MEMORY..ON_A_STATE).chain([RUN]) {
            let lent = Lent::new(length, 3);
            let mut state = sound(random, length);
            (state.sp.ram_addr, state.dp.freeze) = (0xFF_FFF8, 0);
            if state.dp.end_pending == 0 && state.dp.flush == 0 {
                (state.dp.current, state.dp.limit) = (0xFF_FFE8, 0xFF_FFF8);
            }
            let call = call_of(random, kind, &state, lent.rdram);
            comparison.check(&Case { state, lent, call });
        }
    }
}

/// A recording of a few sequences from power-up, the last one perhaps cut.
fn recording(random: &mut Random) -> Vec<u8> {
    let mut recording = sequences(random, 60);
    recording.truncate(300);
    recording
}

#[test]
fn reading_records() {
    let mut random = random_of_test(28);
    let mut comparison = Comparison::new("call");
    for _ in 0..60 {
        let good = recording(&mut random);
        let mut recordings = vec![
            with_bad_kind(&mut random, &good),
            with_changed_bytes(&mut random, &good),
        ];
        for _ in 0..3 {
            recordings.extend(with_bad_address(&mut random, &good, 4_096));
        }
        recordings.push(good);
        for recording in recordings {
            every_place(&mut comparison, &recording);
        }
    }
    some_places_of_long_recordings(&mut comparison, &mut random);
    every_place(&mut comparison, &[]);
    every_address(&mut comparison);
    let totals = &comparison.totals;
    totals.expect_numbers("read_record", &[0, 5, 6, 7, 8, 10], 200);
    totals.expect_numbers("read_record", &[9], 16);
    totals.expect_misaligned("read_record", 50);
    totals.expect_mirrors("read_record", 200);
    done("reading records", totals);
}

/// Recordings of the longest length allowed, and of more.
fn some_places_of_long_recordings(comparison: &mut Comparison, random: &mut Random) {
    for length in [LONGEST, LONGEST + 1, 70_000] {
        let recording = of_length(&recording(random), length);
        let last = [length - 13, length - 1, length, usize::MAX];
        for place in [0, 1, 9, length / 2].into_iter().chain(last) {
            read_record(comparison, recording.clone(), place);
        }
    }
}

/// The addresses at the edges of the blocks, in each kind that has an address; and cut, which is
/// told first.
fn every_address(comparison: &mut Comparison) {
    for address in edge_addresses() {
        for (kind, body) in [(1, 4), (2, 4), (8, 8), (9, 8)] {
            let whole = [&[kind], &address.to_be_bytes()[..], &vec![0xFF; body]].concat();
            let cut = whole[..whole.len() - 1].to_vec();
            read_record(comparison, whole, 0);
            assert_eq!(read_record(comparison, cut, 0).number(), 8);
        }
    }
}

fn read_record(comparison: &mut Comparison, recording: Vec<u8>, place: usize) -> Observed {
    let call = Call::ReadRecord { recording, place };
    comparison.check(&plain(State::default(), call))
}

/// Every place of a recording, some after it, and places whose sum with a length passes the largest
/// number.
fn every_place(comparison: &mut Comparison, recording: &[u8]) {
    let huge = [
        usize::MAX,
        usize::MAX - 1,
        usize::MAX - 12,
        usize::MAX / 2,
        1 << 32,
    ];
    for place in (0..recording.len() + 15).chain(huge) {
        read_record(comparison, recording.to_vec(), place);
    }
}
