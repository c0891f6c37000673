//! The reader of recordings and the replay as single calls: every refusal in
//! its case and order, the room for the listing, and what stays done.

mod common;

use common::*;
use model::calls::*;
use model::machine::REGISTERS;

/// The rules' whole case.
const WHOLE_CASE: [u8; 32] = [
    0x01, 0x04, 0x04, 0x00, 0x00, 0x00, 0x00, 0x1F, 0xF8, 0x01, 0x04, 0x04, 0x00, 0x08, 0x00, 0x00,
    0x00, 0x0F, 0x03, 0x00, 0x00, 0x00, 0x02, 0x02, 0x04, 0x04, 0x00, 0x00, 0x00, 0x00, 0x10, 0x08,
];
const WHOLE_LISTING: &str = "replay 1\nS 00000002\nR 04040000 00001008 ok\nend 4\n";

/// A reading that succeeds.
fn reading(kind: u8, address: u32, value: u64, place: usize) -> Reading {
    Reading {
        number: 0,
        kind,
        address,
        value,
        place,
    }
}

/// A reading that is declined: no record, and place 0.
fn refusal(number: u32) -> Reading {
    Reading {
        number,
        ..reading(0, 0, 0, 0)
    }
}

/// A kind and its fields as bytes.
fn record(kind: u8, address: u32, value: &[u8]) -> Vec<u8> {
    [&[kind], &address.to_be_bytes()[..], value].concat()
}

#[test]
fn the_whole_case_is_read_record_by_record() {
    let expected = [
        (0, reading(1, 0x0404_0000, 0x1FF8, 9)),
        (9, reading(1, 0x0404_0008, 0x0F, 18)),
        (18, reading(3, 0, 2, 23)),
        (23, reading(2, 0x0404_0000, 0x1008, 32)),
        (32, refusal(8)),
    ];
    for (place, reading) in expected {
        assert_eq!(read_record(&WHOLE_CASE, place), reading);
    }
}

#[test]
fn each_kind_has_its_fields() {
    let four = [0xFE, 0xDC, 0xBA, 0x98];
    let eight = [0xFE, 0xDC, 0xBA, 0x98, 0x76, 0x54, 0x32, 0x10];
    let register = 0x0410_001C;
    let word = 0xFEDC_BA98_7654_3210;
    let kinds = [
        (record(1, register, &four), register, 0xFEDC_BA98),
        (record(2, register, &four), register, 0xFEDC_BA98),
        ([&[3][..], &four].concat(), 0, 0xFEDC_BA98),
        ([&[4][..], &four].concat(), 0, 0xFEDC_BA98),
        ([&[5][..], &four].concat(), 0, 0xFEDC_BA98),
        (vec![6], 0, 0),
        (vec![7], 0, 0),
        (record(8, 0x0400_1FF8, &eight), 0x0400_1FF8, word),
        (record(9, 0x03EF_FFF8, &eight), 0x03EF_FFF8, word),
        // The SP's budget is the upper half of the value.
        ([&[10][..], &eight].concat(), 0, word),
    ];
    for (i, (bytes, address, value)) in kinds.into_iter().enumerate() {
        let kind = i as u8 + 1;
        for before in [0, 1, 7] {
            // What stands before and after a record is not looked at.
            let mut recording = vec![0xFF; before];
            recording.extend(&bytes);
            let place = recording.len();
            let expected = reading(kind, address, value, place);
            assert_eq!(read_record(&recording, before), expected);
            recording.extend([0xFF; 20]);
            assert_eq!(read_record(&recording, before), expected);
        }
    }
}

#[test]
fn a_reading_at_or_past_the_end_is_cut_short() {
    for recording in [&[][..], &[6], &[0; 30], &[6; 16_383]] {
        let end = recording.len();
        for place in [end, end + 1, end + 8, usize::MAX - 12, usize::MAX] {
            assert_eq!(read_record(recording, place), refusal(8));
        }
    }
}

#[test]
fn a_reading_of_a_recording_that_is_too_long_gives_9_at_every_place() {
    let longest = [6; 16_383];
    assert_eq!(read_record(&longest, 0), reading(6, 0, 0, 1));
    assert_eq!(read_record(&longest, 16_382), reading(6, 0, 0, 16_383));
    for byte in [6, 0] {
        let longer = [byte; 16_384];
        for place in [0, 1, 16_383, 16_384, usize::MAX] {
            assert_eq!(read_record(&longer, place), refusal(9));
        }
    }
}

#[test]
fn an_unknown_kind_comes_before_a_record_cut_short() {
    for kind in 0..=255 {
        let number = read_record(&[kind], 0).number;
        let expected = match kind {
            6 | 7 => 0,
            1..=10 => 8,
            _ => 7,
        };
        assert_eq!(number, expected, "{kind}");
        if number != 0 {
            assert_eq!(read_record(&[kind], 0), refusal(number));
        }
    }
}

#[test]
fn a_record_cut_short_comes_before_its_address() {
    let kinds = [(1, 8), (2, 8), (8, 12), (9, 12)];
    // Of these two bytes an address is misaligned, or a multiple of 4 only.
    for (byte, of_registers) in [(0xFF, 10), (0xFC, 5)] {
        for (kind, body) in kinds {
            let mut recording = vec![kind];
            for _ in 0..body {
                assert_eq!(read_record(&recording, 0), refusal(8), "{kind}");
                recording.push(byte);
            }
            let whole = if body == 8 { of_registers } else { 6 };
            assert_eq!(read_record(&recording, 0), refusal(whole), "{kind}");
        }
    }
    // No address is looked at where there is none.
    let low = u64::from(u32::MAX);
    let others = [(3, 4, low), (4, 4, low), (5, 4, low), (10, 8, u64::MAX)];
    for (kind, body, value) in others {
        let mut recording = vec![kind];
        for _ in 0..body {
            assert_eq!(read_record(&recording, 0), refusal(8), "{kind}");
            recording.push(0xFF);
        }
        let whole = reading(kind, 0, value, 1 + body);
        assert_eq!(read_record(&recording, 0), whole);
    }
}

#[test]
fn the_reader_refuses_addresses_of_registers() {
    for kind in [1, 2] {
        let mirrors = MIRRORS.map(|(address, _)| address);
        for address in REGISTERS.into_iter().chain(mirrors) {
            let bytes = record(kind, address, &[0; 4]);
            assert_eq!(read_record(&bytes, 0), reading(kind, address, 0, 9));
        }
        for address in MISALIGNED {
            let bytes = record(kind, address, &[0; 4]);
            assert_eq!(read_record(&bytes, 0), refusal(10), "{address:08X}");
        }
        for address in OUTSIDE {
            let bytes = record(kind, address, &[0; 4]);
            assert_eq!(read_record(&bytes, 0), refusal(5), "{address:08X}");
        }
    }
}

#[test]
fn the_reader_refuses_addresses_of_memory() {
    let allowed = [
        0,
        0x00FF_FFF8,
        0x0100_0000,
        0x03EF_FFF8,
        0x0400_0000,
        0x0400_1FF8,
    ];
    let refused = [
        1,
        4,
        0x03EF_FFFC,
        0x03F0_0000,
        0x03FF_FFF8,
        0x0400_0007,
        0x0400_2000,
        0x0404_0000,
        0xFFFF_FFF8,
    ];
    for kind in [8, 9] {
        for address in allowed {
            let bytes = record(kind, address, &[0; 8]);
            assert_eq!(read_record(&bytes, 0), reading(kind, address, 0, 13));
        }
        for address in refused {
            let bytes = record(kind, address, &[0; 8]);
            assert_eq!(read_record(&bytes, 0), refusal(6), "{address:08X}");
        }
    }
}

#[test]
fn the_whole_case_replays() {
    let mut bench = Bench::new();
    let (state, listing) = bench.replay_to_end(&WHOLE_CASE, 4);
    assert_eq!(listing, WHOLE_LISTING);
    assert_eq!(state.sp.sp_addr, 0x1008);
    assert_eq!(bench.replay_to_end(&[], 0).1, "replay 1\nend 0\n");
}

/// As much of the listing as has room is written, and no byte after it.
#[test]
fn the_listing_takes_the_room_there_is() {
    let whole = WHOLE_LISTING.as_bytes();
    for room in 0..whole.len() + 3 {
        let mut bench = Bench::new();
        let mut out = vec![0x55; room];
        let (rdram, dmem, imem) = (&mut bench.rdram, &mut bench.dmem, &mut bench.imem);
        let replayed = replay(&bench.state, &WHOLE_CASE, rdram, dmem, imem, &mut out);
        let fits = room.min(whole.len());
        assert_eq!(replayed.written, fits);
        assert_eq!(out[..fits], whole[..fits]);
        assert!(out[fits..].iter().all(|byte| *byte == 0x55));
        // The records are done all the same.
        assert_eq!(replayed.outcome.answer, success(0, 4));
        assert_eq!(replayed.place, 0);
    }
}

/// A recording of a BREAK, a store to each memory and one bad record, which
/// begins at byte 1 + 3 * 13.
fn with_bad_record(bad: &[u8]) -> Vec<u8> {
    let word = [1, 2, 3, 4, 5, 6, 7, 8];
    [
        &[6][..],
        &record(8, 0x10, &word),
        &record(8, 0x0400_0FF8, &word),
        &record(8, 0x0400_1000, &word),
        bad,
    ]
    .concat()
}

/// What stood before the declined record stays done, the count is the number
/// of those records, and the place is that of the declined one.
#[test]
fn a_replay_stops_at_the_declined_record() {
    let bads = [
        (record(1, 0x0404_0020, &[0; 4]), 5),
        (record(2, 0x0420_0000, &[0; 4]), 5),
        (record(2, 0, &[0; 4]), 5),
        (record(1, 0x0404_0001, &[0; 4]), 10),
        (record(2, 0x0410_001E, &[0; 4]), 10),
        (record(1, 0x041F_FFFE, &[0; 4]), 10),
        (record(2, 0xFFFF_FFFF, &[0; 4]), 10),
        (record(8, 0x03F0_0000, &[0; 8]), 6),
        (record(9, 4, &[0; 8]), 6),
        (record(9, 1, &[0; 8]), 6),
        (vec![0], 7),
        (vec![11, 6, 6], 7),
        (vec![0x8A, 0, 0, 0, 0, 0, 0, 0, 0], 7),
        (vec![5, 0, 0, 0], 8),
        (vec![10, 0, 0, 0, 1, 0, 0, 0], 8),
        (vec![1, 0xFF, 0xFF, 0xFF, 0xFF, 0, 0, 0], 8),
    ];
    for (bad, number) in bads {
        let mut bench = Bench::running();
        let mut expected = bench.clone();
        expected.state = sp_break(&bench.state).state;
        let word = [1, 2, 3, 4, 5, 6, 7, 8];
        expected.rdram[0x10..0x18].copy_from_slice(&word);
        expected.dmem[0xFF8..].copy_from_slice(&word);
        expected.imem[..8].copy_from_slice(&word);
        let (replayed, listing) = bench.replay(&with_bad_record(&bad));
        bench.state = replayed.outcome.state;
        assert!(bench == expected);
        let answer = replayed.outcome.answer;
        assert_eq!((answer.number, answer.value, answer.count), (number, 0, 4));
        assert_eq!(replayed.place, 40);
        assert_eq!(listing, format!("replay 1\nstop 4 {number} 40\n"));
    }
}

/// Expects a replay to stop at its first unknown kind, after `count` records.
fn expect_stop_by_7(recording: &[u8], count: u32, place: usize) {
    let (replayed, listing) = Bench::new().replay(recording);
    let answer = replayed.outcome.answer;
    assert_eq!((answer.number, answer.value, answer.count), (7, 0, count));
    assert_eq!(replayed.place, place);
    assert!(listing.ends_with(&format!("\nstop {count} 7 {place}\n")));
}

/// Records of every length before the refused one, and records after it.
#[test]
fn the_place_is_where_the_declined_record_begins() {
    let kinds = [
        record(1, 0x0404_0000, &[0; 4]),
        record(2, 0x0410_0000, &[0; 4]),
        vec![3, 0, 0, 0, 1],
        vec![4, 0, 0, 0, 1],
        vec![5, 0, 0, 0, 1],
        vec![6],
        vec![7],
        record(8, 0, &[0; 8]),
        record(9, 0, &[0; 8]),
        record(10, 1, &[0; 4]),
    ];
    let places = [0, 9, 18, 23, 28, 33, 34, 35, 48, 61, 70];
    for (before, place) in places.into_iter().enumerate() {
        let mut recording = kinds[..before].concat();
        recording.push(0);
        expect_stop_by_7(&recording, before as u32, place);
        // What stands after it is not looked at.
        recording.extend([6, 0, 6]);
        expect_stop_by_7(&recording, before as u32, place);
    }
}

#[test]
fn the_last_byte_of_the_longest_recording_has_a_place() {
    let mut recording = [6; 16_383];
    recording[16_382] = 0;
    expect_stop_by_7(&recording, 16_382, 16_382);
    // 1,260 records of 13 bytes, and one more byte.
    let checks = record(9, 0, &[0; 8]).repeat(1_260);
    expect_stop_by_7(&[&checks[..], &[11]].concat(), 1_260, 16_380);
}

/// The header and the stop line are written though nothing is done.
#[test]
fn a_replay_that_is_declined_at_once_still_has_a_listing() {
    let good = Bench::running();
    expect_replay(&good, &[6; 16_384], 9);
    let declines = |change: fn(&mut Bench), number: u32| {
        let mut bench = good.clone();
        change(&mut bench);
        expect_replay(&bench, &WHOLE_CASE, number);
        expect_replay(&bench, &[], number);
        expect_replay(&bench, &[0], number);
        expect_replay(&bench, &record(1, 0x0404_0001, &[0; 4]), number);
        expect_replay(&bench, &[0; 16_384], 9);
    };
    declines(|bench| bench.rdram.push(0), 1);
    declines(|bench| bench.dmem.push(0), 2);
    declines(|bench| bench.imem.push(0), 3);
    declines(|bench| bench.state.sp.len = 0x28, 4);
    declines(|bench| bench.state.dp.line = 2, 4);
}

/// RDRAM is the lent one, of any length that is allowed.
#[test]
fn a_store_past_the_lent_length_is_dropped() {
    let mut bench = Bench::new();
    bench.rdram = vec![0x11; 16];
    let before = bench.clone();
    let recording = [
        record(8, 0x10, &[0xFF; 8]),
        record(8, 0x0100_0000, &[0xFF; 8]),
        record(9, 0x08, &[0x11; 8]),
        record(9, 0x10, &[0x11; 8]),
    ]
    .concat();
    let (_, listing) = bench.replay_to_end(&recording, 4);
    let found = "L 00000008 1111111111111111 ok\n\
        L 00000010 0000000000000000 expected 1111111111111111\n";
    assert_eq!(listing, format!("replay 1\n{found}end 4\n"));
    assert!(bench == before);
}

/// Each run of a replay has 2,048 bytes of output of its own. The list has 600
/// words: 256, 256 and 88.
#[test]
fn each_run_has_its_own_output() {
    let mut bench = Bench::new();
    bench.state.dp.limit = 8 * 600;
    let run = [4, 0xFF, 0xFF, 0xFF, 0xFF];
    let (state, listing) = bench.replay_to_end(&[run; 4].concat(), 4);
    let lines = "D 00000100\nD 00000100\nD 00000058\nD 00000000\n";
    assert_eq!(listing, format!("replay 1\n{lines}end 4\n"));
    assert_eq!(state.dp.current, 8 * 600);
}
