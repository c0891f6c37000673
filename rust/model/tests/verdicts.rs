//! What a replay compares and finds, and its verdict. Every expected number is
//! worked out by hand from the rules: SP STATUS reads 0 and DP STATUS 0x80 at
//! power-up, and all memory is zeros.

mod common;

use common::*;
use model::calls::*;
use model::machine::{DP_STATUS, SP_SEMAPHORE, SP_STATUS};

const BREAK: u8 = 6;
const TICK: [u8; 5] = [5, 0, 0, 0, 1];

/// A read, of 9 bytes.
fn read(address: u32, expected: u32) -> Vec<u8> {
    [&[2], &address.to_be_bytes()[..], &expected.to_be_bytes()].concat()
}

/// A memory check, of 13 bytes.
fn check(address: u32, expected: u64) -> Vec<u8> {
    [&[9], &address.to_be_bytes()[..], &expected.to_be_bytes()].concat()
}

fn findings(compared: u32, differed: u32, first_index: u32, first_place: usize) -> Findings {
    Findings {
        compared,
        differed,
        first_index,
        first_place,
    }
}

/// What a replay from power-up gives.
fn replayed(recording: &[u8]) -> Replayed {
    Bench::new().replay(recording).0
}

/// Expects a replay from power-up to come to its end with these findings.
fn expect_end(recording: &[u8], expected: Findings) -> Verdict {
    let replayed = replayed(recording);
    assert_eq!(replayed.outcome.answer.number, 0);
    assert_eq!(replayed.findings, expected);
    verdict(&replayed)
}

/// A mismatch in the second of two, after records that are not compared: it
/// begins at byte 1 + 9 + 5.
fn one_mismatch() -> Vec<u8> {
    let right = read(DP_STATUS, 0x80);
    [&[BREAK][..], &right, &TICK, &check(8, 1)].concat()
}

#[test]
fn a_recording_that_finds_what_it_expects_passes() {
    let both = [read(SP_STATUS, 0), check(0x0400_0000, 0)].concat();
    let passed = expect_end(&both, findings(2, 0, 0, 0));
    assert_eq!(passed, Verdict::Passed { compared: 2 });
    for one in [read(0x041F_FFEC, 0x80), check(0x03EF_FFF8, 0)] {
        let passed = expect_end(&one, findings(1, 0, 0, 0));
        assert_eq!(passed, Verdict::Passed { compared: 1 });
    }
}

#[test]
fn a_mismatch_is_told_by_its_record_and_its_byte() {
    let differs = expect_end(&one_mismatch(), findings(2, 1, 3, 15));
    let expected = Verdict::Differs {
        compared: 2,
        differed: 1,
        first_index: 3,
        first_place: 15,
    };
    assert_eq!(differs, expected);
    // The first record of all has index and place 0.
    expect_end(&read(SP_STATUS, 1), findings(1, 1, 0, 0));
    expect_end(&check(0x0400_1FF8, 1), findings(1, 1, 0, 0));
}

#[test]
fn of_several_mismatches_the_first_is_told() {
    let mut recording = one_mismatch();
    recording.extend(read(SP_STATUS, 3)); // The BREAK's HALTED and BROKE.
    recording.extend(read(SP_STATUS, 0));
    recording.extend(check(8, 2));
    expect_end(&recording, findings(5, 3, 3, 15));
    // As many reads as fit in the longest recording: 1,820 of 9 bytes.
    let all = read(SP_STATUS, 1).repeat(1_820);
    expect_end(&all, findings(1_820, 1_820, 0, 0));
}

/// Every bit counts, of 32 and of 64.
#[test]
fn one_bit_makes_the_difference() {
    for bit in 0..32 {
        expect_end(&read(DP_STATUS, 0x80 ^ 1 << bit), findings(1, 1, 0, 0));
    }
    for bit in 0..64 {
        expect_end(&check(0, 1 << bit), findings(1, 1, 0, 0));
    }
}

/// A read that differs sets SEMAPHORE all the same.
#[test]
fn the_value_found_is_the_one_of_its_record() {
    let reads = [1, 1, 0].map(|expected| read(SP_SEMAPHORE, expected));
    expect_end(&reads.concat(), findings(3, 2, 0, 0));
    expect_end(&reads[1..].concat(), findings(2, 2, 0, 0));
    let reads = [0, 1, 0].map(|expected| read(SP_SEMAPHORE, expected));
    expect_end(&reads.concat(), findings(3, 1, 2, 18));
}

/// Records that are refused, each with its number. Those of kinds 2 and 9 are
/// not counted, nor is what stands after them.
fn refused() -> Vec<(Vec<u8>, u32)> {
    vec![
        (read(0x0404_0020, 1), 5),
        (read(0x0404_0001, 1), 10),
        (check(0x03F0_0000, 1), 6),
        (check(4, 1), 6),
        (read(SP_STATUS, 1)[..8].to_vec(), 8),
        (check(0, 1)[..12].to_vec(), 8),
        (vec![1, 4, 4, 0, 0x20, 0, 0, 0, 0], 5),
        ([&[0][..], &read(SP_STATUS, 1)].concat(), 7),
        ([&[11][..], &check(0, 1)].concat(), 7),
        ([&[10][..], &read(SP_STATUS, 1)[..7]].concat(), 8),
    ]
}

#[test]
fn a_refused_record_is_not_counted() {
    for (record, number) in refused() {
        let replayed = replayed(&record);
        assert_eq!(replayed.outcome.answer.number, number);
        assert_eq!(replayed.findings, Findings::default());
        let expected = Verdict::Refused {
            number,
            compared: 0,
            differed: 0,
        };
        assert_eq!(verdict(&replayed), expected);
    }
}

#[test]
fn what_was_found_before_a_refusal_stays() {
    for (record, number) in refused() {
        let replayed = replayed(&[one_mismatch(), record].concat());
        let answer = replayed.outcome.answer;
        // The mismatch has 13 bytes from 15 on.
        assert_eq!(
            (answer.number, answer.count, replayed.place),
            (number, 4, 28)
        );
        assert_eq!(replayed.findings, findings(2, 1, 3, 15));
        let expected = Verdict::Refused {
            number,
            compared: 2,
            differed: 1,
        };
        assert_eq!(verdict(&replayed), expected);
    }
    let right = [&read(DP_STATUS, 0x80)[..], &[0]].concat();
    assert_eq!(replayed(&right).findings, findings(1, 0, 0, 0));
}

#[test]
fn a_recording_without_reads_and_checks_says_nothing() {
    let write = [1, 4, 4, 0, 0x10, 0, 0, 0, 2];
    let store = [8, 0, 0, 0, 8, 1, 2, 3, 4, 5, 6, 7, 8];
    let runs = [3, 0, 0, 0, 1, 4, 0, 0, 0, 1];
    let merged = [10, 0, 0, 0, 1, 0, 0, 0, 1];
    let others = [&write[..], &store, &runs, &merged, &TICK, &[6, 7]].concat();
    for recording in [&others[..], &[], &[BREAK; 16_383]] {
        let nothing = expect_end(recording, Findings::default());
        assert_eq!(nothing, Verdict::NothingCompared);
    }
}

/// Everything is 0, though the recording would differ.
#[test]
fn a_replay_that_does_not_begin_compares_nothing() {
    let expect = |bench: &mut Bench, recording: &[u8], number: u32| {
        let (replayed, _) = bench.replay(recording);
        assert_eq!(replayed.outcome.answer.number, number);
        assert_eq!(replayed.findings, Findings::default());
        assert_eq!(verdict(&replayed).code(), 103);
    };
    let declines = |change: fn(&mut Bench), number: u32| {
        let mut bench = Bench::new();
        change(&mut bench);
        expect(&mut bench, &one_mismatch(), number);
    };
    declines(|bench| bench.rdram.push(0), 1);
    declines(|bench| bench.dmem.push(0), 2);
    declines(|bench| bench.imem.push(0), 3);
    declines(|bench| bench.state.sp.len = 1, 4);
    declines(|bench| bench.state.dp.line = 2, 4);
    let long = read(SP_STATUS, 1).repeat(1_821);
    expect(&mut Bench::new(), &long, 9);
}

/// The findings do not hang on the room for the listing.
#[test]
fn a_cut_listing_changes_no_finding() {
    for room in [0, 1, 9, 40, 100] {
        let mut bench = Bench::new();
        let (rdram, dmem, imem) = (&mut bench.rdram, &mut bench.dmem, &mut bench.imem);
        let mut out = vec![0; room];
        let replayed = replay(&bench.state, &one_mismatch(), rdram, dmem, imem, &mut out);
        assert_eq!(replayed.findings, findings(2, 1, 3, 15));
    }
}

/// A struct that no replay need have given.
fn made(number: u32, compared: u32, differed: u32) -> Replayed {
    let mut replayed = Replayed {
        place: 7,
        written: 70_000,
        findings: findings(compared, differed, 20_000, usize::MAX),
        ..Replayed::default()
    };
    replayed.outcome.state = full_state();
    replayed.outcome.answer = Answer {
        number,
        value: 5,
        count: 1,
    };
    replayed
}

#[test]
fn every_struct_has_a_verdict() {
    const MOST: u32 = u32::MAX;
    let codes = [
        ([0, 0, 0], 102),
        ([0, 1, 0], 100),
        ([0, MOST, 0], 100),
        ([0, 1, 1], 101),
        ([0, MOST, MOST], 101),
        // More differ than were compared.
        ([0, 0, 1], 101),
        ([0, 0, MOST], 101),
        ([0, 1, 2], 101),
        ([1, 0, 0], 103),
        ([4, 1, 0], 103),
        ([9, 3, 1], 103),
        ([14, 0, 1], 103),
        // Numbers that no call gives.
        ([100, 1, 0], 103),
        ([MOST, 0, 0], 103),
        ([MOST, MOST, MOST], 103),
    ];
    for ([number, compared, differed], code) in codes {
        let given = verdict(&made(number, compared, differed));
        assert_eq!(given.code(), code, "{number} {compared} {differed}");
    }
}

#[test]
fn a_verdict_carries_the_numbers_of_the_struct() {
    let expected = Verdict::Differs {
        compared: 3,
        differed: 5,
        first_index: 20_000,
        first_place: usize::MAX,
    };
    assert_eq!(verdict(&made(0, 3, 5)), expected);
    let expected = Verdict::Refused {
        number: 77,
        compared: 3,
        differed: 5,
    };
    assert_eq!(verdict(&made(77, 3, 5)), expected);
    assert_eq!(verdict(&made(0, 3, 0)), Verdict::Passed { compared: 3 });
    // What nobody set is no pass.
    assert_eq!(verdict(&Replayed::default()), Verdict::NothingCompared);
}
