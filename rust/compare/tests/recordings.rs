//! Generated recordings, replayed by the library and by the model.

use compare::cases::addresses::edge_addresses;
use compare::cases::invalid_recordings::{
    of_length, with_bad_address, with_bad_kind, with_changed_bytes,
};
use compare::cases::lengths::{odd_lengths, rdram_length};
use compare::cases::seed::random_of_test;
use compare::cases::states::sound;
use compare::cases::traffic::Traffic;
use compare::cases::unsound_states::{break_clause, unsound, BREAKS};
use compare::comparison::Comparison;
use compare::coverage::counting_replay::CountingReplay;
use compare::coverage::events::{Event, EVENTS};
use compare::coverage::findings::FindingCounts;
use compare::coverage::totals::{Sum, Totals};
use compare::data::call::{Call, Case};
use compare::data::findings::listed;
use compare::data::memory::ADDRESS_BITS;
use compare::data::memory::{Lent, LONGEST_RDRAM};
use compare::data::recording::{pieces, LONGEST};
use compare::data::state_fields::{field, from_model, to_model, FLAGS};
use compare::sides::observed::Observed;
use model::machine::{command_length, DP_END, DP_START, DP_STATUS, SP_RDLEN, SP_WRLEN};
use model::recording::Record;
use ofersky::{State, LISTING_BYTES};
use random::Random;

/// What the six tests compared.
static ALL: Sum = Sum::of_tests(6);

/// Prints the line of a test, and after the last one that of all.
fn done(test: &str, totals: &Totals) {
    println!("{test}: {}", totals.recordings_line());
    if let Some(all) = ALL.add(totals) {
        println!("all recordings: {}", all.recordings_line());
        println!("events in their traffic: {}", all.events.line());
        assert!(all.compared >= 20_000);
    }
}

fn case(state: State, lent: Lent, recording: Vec<u8>, out: usize) -> Case {
    Case {
        state,
        lent,
        call: Call::Replay { recording, out },
    }
}

/// Replays on both sides, and finds the place of a stop again: it is where the accepted records
/// end. The listing must tell it too, and what was compared and differed.
fn check(comparison: &mut Comparison, case: &Case) -> Observed {
    let seen = comparison.check(case);
    let Call::Replay { recording, out } = &case.call else {
        panic!("{} is no replay", case.call.name());
    };
    let (number, count) = (seen.number(), seen.outcome.answer.count);
    let place = match number {
        0..=4 | 9 => 0,
        _ => pieces(recording)[count as usize].start,
    };
    assert_eq!(seen.place, place);
    let last = match number {
        0 => format!("\nend {count}\n"),
        _ => format!("\nstop {count} {number} {place}\n"),
    };
    let listing = String::from_utf8_lossy(&seen.bytes[3][..seen.written]);
    let whole = listing.ends_with(&last);
    assert!(seen.written == *out || whole);
    if whole {
        assert_eq!(seen.findings, listed(recording, count as usize, &listing));
    }
    seen
}

/// Mostly room for every listing; else too little, cut in any line.
fn room(random: &mut Random) -> usize {
    match random.below(8) {
        0 => random.pick(&[0, 1, 8, 9, 10, 15]),
        1 => random.index(400),
        _ => LISTING_BYTES,
    }
}

/// The memories of a recording: often zeros, because stored bytes stand out there.
fn lent(random: &mut Random) -> Lent {
    let fill = random.below(1 << 16) * random.below(2);
    Lent::new(rdram_length(random), fill.into())
}

/// The state is as at power-up.
fn power_up(_: &mut Random, _: usize) -> State {
    ofersky::power_up()
}

/// Makes traffic of so many sequences at most, from a state.
fn make(
    random: &mut Random,
    state: &State,
    lent: &Lent,
    sequences: u32,
) -> (Vec<u8>, CountingReplay) {
    let sequences = 1 + random.below(sequences);
    let replay = CountingReplay::new(to_model(state), lent.bytes());
    let mut traffic = Traffic::new(random, replay);
    for _ in 0..sequences {
        traffic.sequence();
    }
    (traffic.bytes, traffic.replay)
}

/// The turn-by-turn way through the records must end where the replay ends: else its counts mean
/// nothing.
fn agrees(seen: &Observed, replay: &CountingReplay) {
    assert_eq!(seen.outcome.state, from_model(&replay.state));
    let [rdram, dmem, imem, ..] = &seen.bytes;
    assert!((rdram, dmem, imem) == (&replay.rdram, &replay.dmem, &replay.imem));
    assert!(!replay.unforeseen);
}

/// Compares traffic from states of one kind, and counts its events.
fn compare_traffic(
    seed: u64,
    recordings: usize,
    sequences: u32,
    start: fn(&mut Random, usize) -> State,
) -> Totals {
    let mut random = random_of_test(seed);
    let mut comparison = Comparison::new("recording");
    for _ in 0..recordings {
        let lent = lent(&mut random);
        let state = start(&mut random, lent.rdram);
        let (recording, replay) = make(&mut random, &state, &lent, sequences);
        let good = recording.len() <= LONGEST;
        let out = room(&mut random);
        let seen = check(&mut comparison, &case(state, lent, recording, out));
        if good {
            agrees(&seen, &replay);
            comparison.totals.events.add(&replay.events);
        }
    }
    comparison.totals
}

/// Every event of the list, most of them often, and every first byte of a command.
fn expect_traffic(totals: &Totals, least: u64) {
    let events: Vec<Event> = EVENTS.iter().map(|(event, _)| *event).collect();
    totals.expect_events(&events, least);
    for (byte, seen) in totals.events.first_bytes.iter().enumerate() {
        assert!(*seen >= least, "0x{byte:02X} was framed {seen} times");
    }
    totals.expect_mirrors("replay", 10_000);
    totals.expect_verdicts("replay", [2_000, 2_000, 2_000, 0]);
    totals.expect_found(FindingCounts {
        later: 1_000,
        several: 500,
        ..FindingCounts::default()
    });
}

#[test]
fn traffic_from_power_up() {
    let mut totals = compare_traffic(1, 14_500, 6, power_up);
    totals.add(&compare_traffic(2, 100, 300, power_up));
    expect_traffic(&totals, 20);
    done("traffic from power-up", &totals);
}

#[test]
fn traffic_from_any_state() {
    let totals = compare_traffic(3, 11_500, 5, sound);
    expect_traffic(&totals, 20);
    done("traffic from sound states", &totals);
}

/// The records of one list: a command with this first byte, whose later words look like SYNC_FULL,
/// then two short ones.
fn command_list(random: &mut Random, first: u8, xbus: bool) -> Vec<Record> {
    let start = random.pick(&[0, 8, 0x7F0, 0xF80]);
    let base = if xbus { 0x0400_0000 } else { 0 };
    let mut words = vec![first];
    for _ in 1..command_length(first % 64) {
        words.push(random.pick(&[0x29, 0x69, 0xA9, 0xE9]));
    }
    words.extend([0x27, random.pick(&[0x29, 0xE9, 0x24])]);
    let mut records = vec![Record::Write {
        address: DP_STATUS,
        value: if xbus { 2 } else { 1 },
    }];
    for (i, byte) in words.iter().enumerate() {
        let at = start + 8 * i as u32;
        let address = base + if xbus { at % 0x1000 } else { at };
        let word = u64::from(*byte) << 56 | random.next_u64() >> 8;
        records.push(Record::Store { address, word });
    }
    let end = start + 8 * words.len() as u32;
    for (address, value) in [(DP_START, start), (DP_END, end)] {
        records.push(Record::Write { address, value });
    }
    records
}

/// Runs through a list: word by word, in one, or cut at a random place, with the status read after
/// each.
fn list_runs(random: &mut Random, style: usize) -> Vec<Record> {
    let part = random.below(24);
    let budgets = match style {
        0 => vec![1; 26],
        1 => vec![u32::MAX],
        2 => vec![part, 1, part],
        _ => vec![0, 2, part, u32::MAX],
    };
    let mut records = Vec::new();
    for budget in budgets {
        records.push(Record::DpRun { budget });
        records.push(Record::Read {
            address: DP_STATUS,
            expected: 0x80,
        });
        records.push(Record::Tick { n: budget });
    }
    records
}

#[test]
fn drawing_commands() {
    let mut random = random_of_test(4);
    let mut comparison = Comparison::new("recording");
    for first in 0..=255 {
        for (xbus, style) in (0..8).map(|i| (i % 2 == 1, i / 2)) {
            let mut records = command_list(&mut random, first, xbus);
            records.extend(list_runs(&mut random, style));
            let lent = Lent::new(random.pick(&[4_096, 32_768, 0x7F8]), 0);
            let state = ofersky::power_up();
            let mut replay = CountingReplay::new(to_model(&state), lent.bytes());
            records.iter().for_each(|record| replay.record(*record));
            let recording = records.iter().flat_map(Record::encode).collect();
            let case = case(state, lent, recording, LISTING_BYTES);
            let seen = check(&mut comparison, &case);
            agrees(&seen, &replay);
            comparison.totals.events.add(&replay.events);
        }
    }
    let totals = comparison.totals;
    for (byte, seen) in totals.events.first_bytes.iter().enumerate() {
        assert!(*seen >= 4, "0x{byte:02X} was framed {seen} times");
    }
    totals.expect_events(&[Event::SyncFull, Event::SyncFullLook], 1_000);
    done("drawing commands", &totals);
}

/// A recording of a few records, for cuts and other changes.
fn short(random: &mut Random, lent: &Lent) -> Vec<u8> {
    let state = ofersky::power_up();
    let (mut recording, _) = make(random, &state, lent, 2);
    let end = pieces(&recording)
        .iter()
        .map(|piece| piece.end)
        .take_while(|end| *end < 160)
        .last();
    recording.truncate(end.unwrap_or(0));
    recording.extend([8, 4, 0, 0, 0, 1, 2, 3, 4, 5, 6, 7, 8]);
    recording
}

#[test]
fn invalid_recordings() {
    let mut random = random_of_test(5);
    let mut comparison = Comparison::new("recording");
    let state = ofersky::power_up();
    for round in 0..220 {
        let lent = Lent::new(random.pick(&[0, 8, 4_096]), round & 1);
        let good = short(&mut random, &lent);
        let mut invalid = vec![with_bad_kind(&mut random, &good)];
        for _ in 0..4 {
            invalid.extend(with_bad_address(&mut random, &good, lent.rdram));
            invalid.push(with_changed_bytes(&mut random, &good));
            invalid.push(with_bad_kind(&mut random, &good));
        }
        if round % 11 == 0 {
            // Every cut, also of a recording with a bad address: the cut is told first.
            let bad = with_bad_address(&mut random, &good, lent.rdram);
            for whole in [Some(good), bad].into_iter().flatten() {
                invalid.extend((0..whole.len()).map(|cut| whole[..cut].to_vec()));
            }
        }
        for recording in invalid {
            let out = random.pick(&[LISTING_BYTES, 2_000, 20]);
            check(&mut comparison, &case(state, lent, recording, out));
        }
    }
    every_kind(&mut comparison);
    every_bad_address(&mut comparison);
    expect_invalid(&comparison.totals);
    done("invalid recordings", &comparison.totals);
}

/// Every number of a record, at place 0 and later, and some that stop after a difference.
fn expect_invalid(totals: &Totals) {
    totals.expect_numbers("replay", &[0, 5, 6, 7, 8, 10], 200);
    totals.expect_places(&[5, 6, 7, 8, 10], 100, 200);
    totals.expect_misaligned("replay", 100);
    totals.expect_verdicts("replay", [20, 100, 200, 5_000]);
    totals.expect_found(FindingCounts {
        stopped: 80,
        uncounted: 1_000,
        later: 30,
        several: 10,
    });
}

/// Each of the 256 kinds after one good record, with the bytes of the longest body and with none.
fn every_kind(comparison: &mut Comparison) {
    for kind in 0..=255 {
        for body in [0, 4, 7, 8, 12, 30] {
            let mut recording = vec![6, kind];
            recording.extend(vec![0; body]);
            let lent = Lent::new(8, 1);
            check(comparison, &case(ofersky::power_up(), lent, recording, 200));
        }
    }
}

/// States with one clause broken, and every byte that is no flag in every flag; nothing else is
/// wrong.
fn every_unsound_state(comparison: &mut Comparison, random: &mut Random) {
    let mut states = Vec::new();
    for clause in BREAKS {
        for _ in 0..20 {
            let mut state = sound(random, 64);
            break_clause(random, &mut state, clause);
            states.push(state);
        }
    }
    for name in FLAGS {
        for byte in 2..256 {
            let mut state = sound(random, 64);
            (field(name).set)(&mut state, byte);
            states.push(state);
        }
    }
    for state in states {
        let seen = check(comparison, &case(state, Lent::new(64, 2), vec![6], 40));
        assert_eq!(seen.number(), 4);
    }
}

#[test]
fn lengths_states_and_listings() {
    let mut random = random_of_test(6);
    let mut comparison = Comparison::new("recording");
    for _ in 0..3_000 {
        let lent = odd_lengths(&mut random);
        let state = match random.below(3) {
            0 => unsound(&mut random, lent.rdram),
            1 => sound(&mut random, lent.rdram),
            _ => ofersky::power_up(),
        };
        let mut recording = short(&mut random, &Lent::new(4_096, 0));
        if random.once_in(10) {
            let length = random.pick(&[LONGEST - 1, LONGEST, LONGEST + 1, 20_000, 65_536]);
            recording = of_length(&recording, length);
        }
        if random.once_in(3) {
            // A bad record, too: it plays no part where the replay is refused before the first one.
            recording = with_bad_kind(&mut random, &recording);
        }
        let out = room(&mut random);
        check(&mut comparison, &case(state, lent, recording, out));
    }
    every_room(&mut comparison, &mut random);
    every_unsound_state(&mut comparison, &mut random);
    let totals = &comparison.totals;
    totals.expect_numbers("replay", &[1, 2, 3, 4, 9], 100);
    totals.expect_places(&[1, 2, 3, 4, 9], 100, 0);
    done("lengths, states and listings", totals);
}

/// The addresses at the edges of the blocks, in each kind that has an address, after a record and
/// in the first one; and cut, which is told first.
fn every_bad_address(comparison: &mut Comparison) {
    let mut replay = |recording: &[u8]| {
        let (state, lent) = (ofersky::power_up(), Lent::new(4_096, 1));
        let case = case(state, lent, recording.to_vec(), 200);
        check(comparison, &case).number()
    };
    for address in edge_addresses() {
        for (kind, body) in [(1, 4), (2, 4), (8, 8), (9, 8)] {
            let mut recording = vec![7, kind];
            recording.extend(address.to_be_bytes());
            recording.extend(vec![0xFF; body]);
            let end = recording.len();
            recording.push(6);
            for from in [0, 1] {
                replay(&recording[from..]);
                assert_eq!(replay(&recording[from..end - 1]), 8);
            }
        }
    }
}

/// Every length of the buffer up to one byte more than a listing has, for some listings. Half of
/// them stop.
fn every_room(comparison: &mut Comparison, random: &mut Random) {
    let state = ofersky::power_up();
    for round in 0..6 {
        let lent = Lent::new(8, 0);
        let mut recording = short(random, &lent);
        recording.extend(vec![0; round % 2]);
        let whole = check(
            comparison,
            &case(state, lent, recording.clone(), LISTING_BYTES),
        );
        for out in 0..whole.written + 2 {
            check(comparison, &case(state, lent, recording.clone(), out));
        }
    }
}

/// The transfer of 131,072 words, with another one of as many that waits, and one budget for both;
/// a list over all of RDRAM.
fn longest_transfers(length: u32, first: u32, second: u32, run: Record) -> Vec<u8> {
    let values = [(first, length), (second, length), (DP_END, ADDRESS_BITS)];
    let mut records = values
        .map(|(address, value)| Record::Write { address, value })
        .to_vec();
    let read = Record::Read {
        address: first,
        expected: 0,
    };
    records.extend([run, read]);
    records.iter().flat_map(Record::encode).collect()
}

/// A run of the SP, and one of both engines.
const WHOLE_RUNS: [Record; 2] = [
    Record::SpRun { budget: u32::MAX },
    Record::Run {
        sp_budget: u32::MAX,
        dp_budget: u32::MAX,
    },
];

/// A recording with a long listing: so many reads and checks that all differ.
fn long_listing(reads: usize, checks: usize) -> Vec<u8> {
    let register = Record::Read {
        address: SP_RDLEN,
        expected: 1,
    };
    let word = Record::Check {
        address: 0,
        expected: 1,
    };
    [
        register.encode().repeat(reads),
        word.encode().repeat(checks),
    ]
    .concat()
}

/// The longest listings of a replay that ends and of one that stops: as few checks as fill up the
/// recording, without and with a byte that is no kind.
fn longest_listings() -> [Vec<u8>; 2] {
    let mut stops = long_listing(1_813, 5);
    stops.push(0);
    let recordings = [long_listing(1_816, 3), stops];
    assert!(recordings.iter().all(|bytes| bytes.len() == LONGEST));
    recordings
}

#[test]
fn longest_transfers_and_listings() {
    let mut comparison = Comparison::new("recording");
    let state = ofersky::power_up();
    for (length, rdram) in [(u32::MAX, 32_768), (0x000F_FFF8, 0), (0xFF8F_FFF8, 1 << 21)] {
        for (first, second) in [(SP_RDLEN, SP_WRLEN), (SP_WRLEN, SP_RDLEN)] {
            for run in WHOLE_RUNS {
                let lent = Lent::new(rdram, 9);
                let recording = longest_transfers(length, first, second, run);
                check(&mut comparison, &case(state, lent, recording, 4_000));
            }
        }
    }
    for rdram in [LONGEST_RDRAM, LONGEST_RDRAM + 1, LONGEST_RDRAM + 8] {
        let lent = Lent::new(rdram, 5);
        let recording = longest_transfers(0x0F, SP_RDLEN, SP_WRLEN, WHOLE_RUNS[1]);
        check(&mut comparison, &case(state, lent, recording, 4_000));
    }
    for (recording, written) in longest_listings().into_iter().zip([69_188, 69_191]) {
        let of_room = |out| case(state, Lent::new(8, 0), recording.clone(), out);
        let whole = check(&mut comparison, &of_room(LISTING_BYTES));
        assert_eq!(whole.written, written);
        for out in [written - 1, written, LISTING_BYTES + 1] {
            check(&mut comparison, &of_room(out));
        }
    }
    done("longest transfers and listings", &comparison.totals);
}
