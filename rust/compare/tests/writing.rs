//! Records written by the library and by the model: one by one, read back, written again, and
//! appended to whole recordings.

use compare::cases::addresses::edge_addresses;
use compare::cases::invalid_recordings::of_length;
use compare::cases::records::{any_record, buffer_length, good_record, known_kind, place_for};
use compare::cases::seed::random_of_test;
use compare::cases::traffic::sequences;
use compare::comparison::Comparison;
use compare::coverage::totals::{Sum, Totals};
use compare::data::call::{Call, Case};
use compare::data::memory::{filled, Lent};
use compare::data::recording::{record_length, LONGEST};
use compare::sides::observed::Observed;
use ofersky::{Reading, Record, LISTING_BYTES};
use random::Random;

/// The number of a record that does not fit.
const NO_ROOM: u32 = 14;

/// What the four tests compared.
static ALL: Sum = Sum::of_tests(4);

/// Prints the line of a test, and after the last one that of all.
fn done(test: &str, totals: &Totals) {
    println!("{test}: {}", totals.calls_line());
    if let Some(all) = ALL.add(totals) {
        println!("all calls of the writer: {}", all.calls_line());
        assert!(all.compared >= 100_000);
    }
}

/// Cases at the end of the room, in a buffer that ends there and in one that is longer than a
/// recording may be.
#[derive(Clone, Copy, Debug, Default)]
struct Edge {
    /// Records that end with the room.
    exact: u64,
    /// Records for which one byte is missing.
    short: u64,
    /// Records refused by 5, 6 and 10, though there was no room for them either.
    refused_before: [u64; 3],
}

/// The comparison, and what was met in it.
struct Writer {
    comparison: Comparison,
    /// Records written, by kind.
    written: [u64; 11],
    edges: [Edge; 2],
}

impl Writer {
    fn new() -> Writer {
        Writer {
            comparison: Comparison::new("call"),
            written: [0; 11],
            edges: [Edge::default(); 2],
        }
    }

    /// Makes a call on both sides. The bytes that it is lent stand at another alignment each time.
    fn check(&mut self, call: Call) -> Observed {
        let lent = Lent::new(0, self.comparison.totals.compared);
        let state = ofersky::power_up();
        self.comparison.check(&Case { state, lent, call })
    }

    /// Writes a record on both sides; where it is written, both sides read it back.
    fn write(&mut self, record: Record, before: &[u8], place: usize) -> Observed {
        let buffer = before.to_vec();
        let seen = self.check(Call::WriteRecord {
            record,
            buffer,
            place,
        });
        self.count(record.kind, before.len(), place, seen.number());
        if seen.number() == 0 {
            self.read_back(record, before, place, &seen);
        }
        seen
    }

    fn count(&mut self, kind: u8, buffer: usize, place: usize, number: u32) {
        let Some(length) = record_length(kind) else {
            return;
        };
        self.written[usize::from(kind)] += u64::from(number == 0);
        let room = buffer.min(LONGEST);
        let end = place.saturating_add(length);
        let edge = &mut self.edges[usize::from(room < buffer)];
        edge.exact += u64::from(number == 0 && end == room);
        edge.short += u64::from(number == NO_ROOM && end == room + 1);
        for (refused, address_number) in edge.refused_before.iter_mut().zip([5, 6, 10]) {
            *refused += u64::from(number == address_number && end > room);
        }
    }

    /// Records of each kind were written at least so often.
    fn expect_kinds(&self, least: u64) {
        let written = &self.written[1..];
        assert!(written.iter().all(|seen| *seen >= least), "{written:?}");
    }

    /// No byte beside the record has changed, and the reader finds its fields and the place after
    /// it.
    fn read_back(&mut self, record: Record, before: &[u8], place: usize, seen: &Observed) {
        let (after, buffer) = written(seen);
        assert!(buffer[..place] == before[..place] && buffer[after..] == before[after..]);
        let recording = buffer[..after].to_vec();
        let read = self.check(Call::ReadRecord { recording, place });
        let expected = Reading {
            item: fields(record),
            place: after,
            number: 0,
        };
        assert_eq!(read.reading, expected);
    }
}

/// The place after a record that was written, and the buffer.
fn written(seen: &Observed) -> (usize, &[u8]) {
    (seen.outcome.answer.value as usize, &seen.bytes[3])
}

/// A record with zeros for all that its kind does not have.
fn fields(record: Record) -> Record {
    let (value, address) = match record.kind {
        1 | 2 => (record.value & 0xFFFF_FFFF, record.address),
        3..=5 => (record.value & 0xFFFF_FFFF, 0),
        6 | 7 => (0, 0),
        10 => (record.value, 0),
        _ => (record.value, record.address),
    };
    Record {
        value,
        address,
        ..record
    }
}

#[test]
fn any_records() {
    let mut random = random_of_test(41);
    let mut writer = Writer::new();
    for _ in 0..120_000 {
        let record = any_record(&mut random);
        let buffer = filled(buffer_length(&mut random), random.below(1 << 16).into());
        let place = place_for(&mut random, record.kind, buffer.len());
        writer.write(record, &buffer, place);
    }
    let totals = &writer.comparison.totals;
    totals.expect_numbers("write_record", &[0, 5, 6, 7, 14], 4_000);
    totals.expect_numbers("write_record", &[10], 2_000);
    totals.expect_misaligned("write_record", 1_000);
    totals.expect_mirrors("write_record", 1_000);
    writer.expect_kinds(2_000);
    for edge in writer.edges {
        let refused = edge.refused_before;
        let least = edge.exact.min(edge.short).min(refused.iter().sum());
        assert!(least >= 100, "{edge:?}");
        assert!(refused.iter().all(|seen| *seen >= 10), "{edge:?}");
    }
    done("any records", totals);
}

#[test]
fn places_kinds_and_addresses() {
    let mut random = random_of_test(42);
    let mut writer = Writer::new();
    let long = [LONGEST - 1, LONGEST, LONGEST + 1, LONGEST + 14, 70_000];
    for length in (0..30).chain(long) {
        let buffer = filled(length, u64::from(1 + random.below(1 << 16)));
        for place in places(length) {
            for kind in 1..=10 {
                let record = good_record(&mut random, kind);
                writer.write(record, &buffer, place);
            }
        }
    }
    every_kind(&mut writer, &mut random);
    every_address(&mut writer, &mut random);
    let totals = &writer.comparison.totals;
    totals.expect_numbers("write_record", &[0, 5, 6, 7, 10, 14], 500);
    totals.expect_misaligned("write_record", 100);
    done("places, kinds and addresses", totals);
}

/// The first places, those near the ends of the buffer and of the longest recording, and those
/// whose sum with a length passes the largest number.
fn places(buffer: usize) -> Vec<usize> {
    let near = |end: usize| end.saturating_sub(14)..end + 3;
    let mut places: Vec<usize> = (0..16).chain(near(buffer)).chain(near(LONGEST)).collect();
    places.extend(usize::MAX - 14..=usize::MAX);
    places.extend([1 << 16, 1 << 32, 1 << 63]);
    places.sort();
    places.dedup();
    places
}

/// Each of the 256 kinds, with room for it and with none, and with addresses that some kinds allow.
fn every_kind(writer: &mut Writer, random: &mut Random) {
    for kind in 0..=255 {
        for (length, place) in [(13, 0), (40, 9), (0, 0), (12, 12), (13, usize::MAX)] {
            for address in [0, 0x0404_0000, 0x0404_0002, 0x0400_1FF8, 0x0400_0004] {
                let value = random.next_u64();
                let record = Record {
                    value,
                    address,
                    kind,
                };
                writer.write(record, &filled(length, 1), place);
            }
        }
    }
}

/// The addresses at the edges of the blocks, with just enough room and with one byte less.
fn every_address(writer: &mut Writer, random: &mut Random) {
    for address in edge_addresses() {
        for kind in [1, 2, 3, 7, 8, 9, 10] {
            let record = Record {
                address,
                ..good_record(random, kind)
            };
            for place in [0, 1] {
                let length = record_length(kind).expect("a known kind");
                writer.write(record, &filled(length, 1), place);
            }
        }
    }
}

#[test]
fn records_written_again() {
    let mut random = random_of_test(43);
    let mut writer = Writer::new();
    for _ in 0..1_500 {
        let recording = sequences(&mut random, 60);
        write_again(&mut writer, &recording);
    }
    let recording = of_length(&sequences(&mut random, 2_000), LONGEST);
    write_again(&mut writer, &recording);
    writer.expect_kinds(50);
    done("records written again", &writer.comparison.totals);
}

/// Reads each record and writes it to the same place of a copy in which every byte was another.
fn write_again(writer: &mut Writer, recording: &[u8]) {
    let mut copy: Vec<u8> = recording.iter().map(|byte| !byte).collect();
    let mut place = 0;
    while place < recording.len() {
        let read = writer.check(Call::ReadRecord {
            recording: recording.to_vec(),
            place,
        });
        assert_eq!(read.number(), 0);
        let seen = writer.write(read.reading.item, &copy, place);
        (place, copy) = (read.reading.place, written(&seen).1.to_vec());
        assert!(copy[..place] == recording[..place], "other bytes");
    }
}

#[test]
fn appended_recordings() {
    let mut random = random_of_test(44);
    let mut writer = Writer::new();
    let mut replays = Comparison::new("recording");
    let mut full = 0;
    for round in 0..500 {
        let length = match round % 50 {
            0 => random.pick(&[LONGEST - 1, LONGEST, LONGEST + 1, 20_000]),
            _ => random.index(500),
        };
        let most = random.pick(&[0, 1, 10, u32::MAX]);
        let (recording, count) = append(&mut writer, &mut random, length, most);
        full += u32::from(recording.len() == length.min(LONGEST));
        replay(&mut replays, recording, count);
    }
    assert!(full >= 100, "only {full} buffers were filled");
    println!("their replays: {}", replays.totals.recordings_line());
    let totals = &writer.comparison.totals;
    totals.expect_numbers("write_record", &[14], 200);
    done("appended recordings", totals);
}

/// Appends records, at most so many; after one that does not fit, BREAKs fill up the room. Gives
/// the recording and the number of its records.
fn append(writer: &mut Writer, random: &mut Random, length: usize, most: u32) -> (Vec<u8>, u32) {
    let mut buffer = filled(length, random.below(1 << 16).into());
    let (mut place, mut count, mut refused) = (0, 0, 0);
    while count < most && refused < 2 {
        let kind = if refused == 0 { known_kind(random) } else { 6 };
        let record = good_record(random, kind);
        let seen = writer.write(record, &buffer, place);
        if seen.number() == NO_ROOM {
            refused += 1;
            continue;
        }
        assert_eq!(seen.number(), 0);
        (place, buffer) = (written(&seen).0, written(&seen).1.to_vec());
        count += 1;
    }
    buffer.truncate(place);
    (buffer, count)
}

/// Both sides replay so many records, and decline none.
fn replay(replays: &mut Comparison, recording: Vec<u8>, count: u32) {
    let (state, lent) = (ofersky::power_up(), Lent::new(4_096, 0));
    let out = LISTING_BYTES;
    let call = Call::Replay { recording, out };
    let seen = replays.check(&Case { state, lent, call });
    let answer = seen.outcome.answer;
    assert_eq!((answer.number, answer.count, seen.place), (0, count, 0));
}
