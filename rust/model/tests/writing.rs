//! The writer of recordings: the bytes of each kind, every refusal in its case
//! and order, the bytes that stay as they were, and the way back by the reader.

mod common;

use common::*;
use model::calls::*;

/// A kind, an address and a value as the writer is given them.
type Given = (u8, u32, u64);

const WORD: u64 = 0xFEDC_BA98_7654_3210;

/// Each kind with its bytes, written out by hand. The addresses of kinds 3 to 7
/// and of 10, and the values of 6 and 7 are fields that they do not have.
const KINDS: [(Given, &[u8]); 10] = [
    (
        (1, 0x0404_000C, WORD),
        &[1, 0x04, 0x04, 0x00, 0x0C, 0x76, 0x54, 0x32, 0x10],
    ),
    (
        (2, 0x0410_001C, WORD),
        &[2, 0x04, 0x10, 0x00, 0x1C, 0x76, 0x54, 0x32, 0x10],
    ),
    ((3, u32::MAX, WORD), &[3, 0x76, 0x54, 0x32, 0x10]),
    ((4, u32::MAX, WORD), &[4, 0x76, 0x54, 0x32, 0x10]),
    ((5, u32::MAX, WORD), &[5, 0x76, 0x54, 0x32, 0x10]),
    ((6, u32::MAX, WORD), &[6]),
    ((7, u32::MAX, WORD), &[7]),
    (
        (8, 0x03EF_FFF8, WORD),
        &[
            8, 0x03, 0xEF, 0xFF, 0xF8, 0xFE, 0xDC, 0xBA, 0x98, 0x76, 0x54, 0x32, 0x10,
        ],
    ),
    (
        (9, 0x0400_1FF8, WORD),
        &[
            9, 0x04, 0x00, 0x1F, 0xF8, 0xFE, 0xDC, 0xBA, 0x98, 0x76, 0x54, 0x32, 0x10,
        ],
    ),
    (
        (10, u32::MAX, WORD),
        &[10, 0xFE, 0xDC, 0xBA, 0x98, 0x76, 0x54, 0x32, 0x10],
    ),
];

/// A recording may have this many bytes and no more.
const LONGEST: usize = 16_383;

/// The answer of a write that is refused.
fn refusal(number: u32) -> Answer {
    Answer {
        number,
        value: 0,
        count: 0,
    }
}

fn write(given: Given, buffer: &mut [u8], place: usize) -> Answer {
    let (kind, address, value) = given;
    write_record(kind, address, value, buffer, place)
}

/// These bytes stand at the place, whatever stood there, and no other byte of
/// the buffer is changed.
fn expect_written(given: Given, length: usize, place: usize, bytes: &[u8]) {
    // A byte that is changed differs from at least one of these.
    for byte in [0x00, 0xFF] {
        let mut buffer = vec![byte; length];
        let mut expected = buffer.clone();
        let end = place + bytes.len();
        expected[place..end].copy_from_slice(bytes);
        let answer = write(given, &mut buffer, place);
        assert_eq!(answer, success(end as u64, 0), "{given:X?} at {place}");
        assert!(buffer == expected, "{given:X?} at {place}");
    }
}

/// The number is given, and every byte of the buffer is as before.
fn expect_refused(given: Given, length: usize, place: usize, number: u32) {
    for byte in [0x00, 0xFF] {
        let mut buffer = vec![byte; length];
        let answer = write(given, &mut buffer, place);
        assert_eq!(answer, refusal(number), "{given:X?} at {place}");
        assert!(buffer == vec![byte; length], "{given:X?} at {place}");
    }
}

/// The rules' whole case and its listing.
#[test]
fn the_whole_case_is_made_by_four_appends() {
    let whole = [
        0x01, 0x04, 0x04, 0x00, 0x00, 0x00, 0x00, 0x1F, 0xF8, // SPADDR
        0x01, 0x04, 0x04, 0x00, 0x08, 0x00, 0x00, 0x00, 0x0F, // RDLEN
        0x03, 0x00, 0x00, 0x00, 0x02, // SP run
        0x02, 0x04, 0x04, 0x00, 0x00, 0x00, 0x00, 0x10, 0x08, // SPADDR
    ];
    let appends = [
        ((1, 0x0404_0000, 0x1FF8), 9),
        ((1, 0x0404_0008, 0x0F), 18),
        ((3, 0, 2), 23),
        ((2, 0x0404_0000, 0x1008), 32),
    ];
    let mut buffer = [0x55; 32];
    let mut place = 0;
    for (given, after) in appends {
        let answer = write(given, &mut buffer, place);
        assert_eq!(answer, success(after, 0));
        place = answer.value as usize;
    }
    assert_eq!(buffer, whole);
    let (_, listing) = Bench::new().replay_to_end(&buffer, 4);
    let lines = "S 00000002\nR 04040000 00001008 ok\n";
    assert_eq!(listing, format!("replay 1\n{lines}end 4\n"));
}

#[test]
fn each_kind_has_its_bytes() {
    for (i, (given, bytes)) in KINDS.into_iter().enumerate() {
        assert_eq!(given.0, i as u8 + 1);
        for place in [0, 1, 7, 100] {
            for after in [0, 1, 30] {
                expect_written(given, place + bytes.len() + after, place, bytes);
            }
        }
    }
}

#[test]
fn values_have_their_edges() {
    let low = u64::from(u32::MAX);
    let four = [(0, [0; 4]), (low, [0xFF; 4]), (!low, [0; 4])];
    for (value, bytes) in four {
        for kind in [1, 2] {
            let record = [&[kind, 0x04, 0x10, 0x00, 0x00][..], &bytes].concat();
            expect_written((kind, 0x0410_0000, value), 20, 3, &record);
        }
        for kind in [3, 4, 5] {
            let record = [&[kind][..], &bytes].concat();
            expect_written((kind, 0, value), 20, 3, &record);
        }
    }
    let eight = [
        (0, [0; 8]),
        (u64::MAX, [0xFF; 8]),
        (low, [0, 0, 0, 0, 0xFF, 0xFF, 0xFF, 0xFF]),
        (!low, [0xFF, 0xFF, 0xFF, 0xFF, 0, 0, 0, 0]),
    ];
    for (value, bytes) in eight {
        for kind in [8, 9] {
            let record = [&[kind, 0x04, 0x00, 0x10, 0x08][..], &bytes].concat();
            expect_written((kind, 0x0400_1008, value), 20, 3, &record);
        }
        let record = [&[10][..], &bytes].concat();
        expect_written((10, 0, value), 20, 3, &record);
    }
}

#[test]
fn fields_that_a_kind_does_not_have_play_no_part() {
    // Some of these addresses are allowed for no kind.
    let addresses = [0, 1, 0x03F0_0000, 0x0404_0020, 0x0410_0002, u32::MAX];
    for upper in [0, 1, 0x8000_0000, 0xFFFF_FFFF_u64] {
        let value = upper << 32 | 0x0102_0304;
        for kind in [1, 2] {
            let bytes = [kind, 0x04, 0x04, 0x00, 0x1C, 1, 2, 3, 4];
            expect_written((kind, 0x0404_001C, value), 16, 2, &bytes);
        }
        for address in addresses {
            for kind in [3, 4, 5] {
                expect_written((kind, address, value), 16, 2, &[kind, 1, 2, 3, 4]);
            }
            let halves = [(upper as u32).to_be_bytes(), [1, 2, 3, 4]].concat();
            let run = [&[10][..], &halves].concat();
            expect_written((10, address, value), 16, 2, &run);
            for kind in [6, 7] {
                expect_written((kind, address, value), 16, 2, &[kind]);
                // Nor do they make it longer.
                expect_written((kind, address, value), 1, 0, &[kind]);
            }
        }
    }
}

#[test]
fn an_unknown_kind_gives_7_with_or_without_room() {
    let mut unknown = 0;
    for kind in 0..=255 {
        if KINDS.iter().any(|(given, _)| given.0 == kind) {
            continue;
        }
        unknown += 1;
        for address in [0, 0x0404_0000, u32::MAX] {
            let given = (kind, address, WORD);
            for (length, place) in [(40, 0), (40, 39), (40, 40), (0, 0), (40, usize::MAX)] {
                expect_refused(given, length, place, 7);
            }
            expect_refused(given, 20_000, LONGEST, 7);
        }
    }
    assert_eq!(unknown, 246);
}

/// The number is given where the record would fit and where it would not.
fn expect_refused_with_or_without_room(given: Given, number: u32) {
    for (length, place) in [(20, 6), (20, 12), (0, 0), (20, usize::MAX)] {
        expect_refused(given, length, place, number);
    }
    expect_refused(given, LONGEST + 9, LONGEST, number);
}

/// 10 comes before 5, and both before 14.
#[test]
fn a_misaligned_address_gives_10_and_one_outside_5_with_or_without_room() {
    for kind in [1, 2] {
        for address in MISALIGNED {
            expect_refused_with_or_without_room((kind, address, WORD), 10);
        }
        for address in OUTSIDE {
            expect_refused_with_or_without_room((kind, address, WORD), 5);
        }
    }
}

/// Kinds 1 and 2 have one of the sixteen registers, by any of its addresses.
#[test]
fn an_address_of_no_register_is_refused_with_or_without_room() {
    let blocks = [0x0404_0000..=0x0404_001F, 0x0410_0000..=0x041F_FFFF];
    let edges: [u32; 3] = [0x0404_0000, 0x0410_0000, 0x0420_0000];
    let near = edges.map(|edge| edge - 0x24..edge + 0x44);
    let far = [0, 8, 0x0400_0000, 0x1404_0000, 0x0414_0000, 0xFFFF_FFFC];
    let mut registers = 0;
    for address in near.into_iter().flatten().chain(far) {
        let inside = blocks.iter().any(|block| block.contains(&address));
        let register = address % 4 == 0 && inside;
        registers += u32::from(register);
        for kind in [1, 2] {
            let given = (kind, address, WORD);
            if register {
                let value = [0x76, 0x54, 0x32, 0x10];
                let bytes = [&[kind][..], &address.to_be_bytes(), &value].concat();
                expect_written(given, 20, 6, &bytes);
            } else {
                let number = if address % 4 == 0 { 5 } else { 10 };
                expect_refused_with_or_without_room(given, number);
            }
        }
    }
    // The SP's 8, then 17 from 0x04100000 on, 9 before 0x04200000 and a far one.
    assert_eq!(registers, 8 + 17 + 9 + 1);
}

/// Kinds 8 and 9 have multiples of 8 in two ranges.
#[test]
fn an_address_of_memory_not_allowed_gives_6_with_or_without_room() {
    let allowed = [
        (0x0000_0000, [0x00, 0x00, 0x00, 0x00]),
        (0x00FF_FFF8, [0x00, 0xFF, 0xFF, 0xF8]),
        (0x0100_0000, [0x01, 0x00, 0x00, 0x00]),
        (0x03EF_FFF8, [0x03, 0xEF, 0xFF, 0xF8]),
        (0x0400_0000, [0x04, 0x00, 0x00, 0x00]),
        (0x0400_0FF8, [0x04, 0x00, 0x0F, 0xF8]),
        (0x0400_1000, [0x04, 0x00, 0x10, 0x00]),
        (0x0400_1FF8, [0x04, 0x00, 0x1F, 0xF8]),
    ];
    let past = [0x03F0_0000, 0x03FF_FFF8, 0x0400_2000, 0x0404_0000];
    for kind in [8, 9] {
        for (address, bytes) in allowed {
            let record = [&[kind][..], &bytes, &WORD.to_be_bytes()].concat();
            expect_written((kind, address, WORD), 20, 5, &record);
            for cut in 1..8 {
                expect_refused((kind, address + cut, WORD), 20, 5, 6);
            }
        }
        for address in past.into_iter().chain([0x8000_0000, 0xFFFF_FFF8]) {
            let given = (kind, address, WORD);
            for (length, place) in [(20, 5), (20, 8), (0, 0), (20, usize::MAX)] {
                expect_refused(given, length, place, 6);
            }
            expect_refused(given, LONGEST + 13, LONGEST, 6);
        }
    }
}

#[test]
fn a_record_may_end_with_the_buffer_and_not_past_it() {
    for (given, bytes) in KINDS {
        for place in [0, 1, 50] {
            let end = place + bytes.len();
            expect_written(given, end, place, bytes);
            for length in 0..end {
                expect_refused(given, length, place, 14);
            }
        }
    }
}

#[test]
fn a_record_may_end_at_byte_16_383_and_not_past_it() {
    for (given, bytes) in KINDS {
        let last = LONGEST - bytes.len();
        for length in [16_383, 16_384, 16_400, 40_000] {
            expect_written(given, length, 0, bytes);
            expect_written(given, length, last - 1, bytes);
            expect_written(given, length, last, bytes);
            for place in [last + 1, last + 2, 16_383, 16_384, 16_385] {
                expect_refused(given, length, place, 14);
            }
        }
        // One byte less of buffer, and the last place is gone too.
        expect_refused(given, 16_382, last, 14);
    }
}

#[test]
fn no_place_is_too_large() {
    let half = 1 << (usize::BITS - 1);
    for (given, _) in KINDS {
        for length in [0, 1, 64, 16_383, 20_000] {
            for back in 0..20 {
                expect_refused(given, length, usize::MAX - back, 14);
                expect_refused(given, length, half - back, 14);
                expect_refused(given, length, half + back, 14);
            }
            expect_refused(given, length, length, 14);
        }
    }
}

/// The place after a record is the next one's, up to the longest recording.
#[test]
fn a_buffer_is_filled_record_by_record() {
    let mut buffer = vec![0x55; 20_000];
    let mut place = 0;
    let mut records = 0;
    loop {
        let answer = write((6, 0, 0), &mut buffer, place);
        if answer.number != 0 {
            assert_eq!(answer, refusal(14));
            break;
        }
        place = answer.value as usize;
        records += 1;
        assert_eq!(place, records);
    }
    assert_eq!(records, 16_383);
    assert!(buffer[..place] == [6; 16_383]);
    assert!(buffer[place..].iter().all(|byte| *byte == 0x55));
    let (_, listing) = Bench::new().replay_to_end(&buffer[..place], 16_383);
    assert_eq!(listing, "replay 1\nend 16383\n");
}

/// The fields of each kind, with 0 for those that it does not have.
fn fields_of(given: Given) -> Given {
    let (kind, address, value) = given;
    let low = value % (1 << 32);
    match kind {
        1 | 2 => (kind, address, low),
        3..=5 => (kind, 0, low),
        6 | 7 => (kind, 0, 0),
        10 => (kind, 0, value),
        _ => given,
    }
}

#[test]
fn reading_what_was_written_gives_its_kind_and_fields() {
    for (given, bytes) in KINDS {
        let (kind, address, _) = given;
        for value in [0, 1, 0x8000_0000, WORD, !WORD, u64::MAX] {
            let given = (kind, address, value);
            for place in [0, 5, LONGEST - bytes.len()] {
                let mut buffer = vec![0xFF; LONGEST];
                let after = write(given, &mut buffer, place).value as usize;
                let (kind, address, value) = fields_of(given);
                let expected = Reading {
                    number: 0,
                    kind,
                    address,
                    value,
                    place: after,
                };
                assert_eq!(after, place + bytes.len());
                assert_eq!(read_record(&buffer, place), expected);
                assert_eq!(read_record(&buffer[..after], place), expected);
            }
        }
    }
}

#[test]
fn writing_what_was_read_gives_the_same_bytes() {
    let kinds = KINDS.map(|(_, bytes)| bytes).concat();
    assert_eq!(kinds.len(), 9 + 9 + 5 + 5 + 5 + 1 + 1 + 13 + 13 + 9);
    assert!(copied(&kinds) == kinds);
}
