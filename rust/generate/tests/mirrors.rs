//! Generated recordings go through mirrors of the DP registers, and replay as through the first
//! copies.

#[path = "../../model/tests/common/mod.rs"]
mod common;

use common::*;
use generate::{generate, Traffic};
use model::calls::*;

/// The records of a recording, cut apart by the lengths that their kinds fix.
fn cut_apart(recording: &[u8]) -> Vec<Vec<u8>> {
    let mut records = Vec::new();
    let mut rest = recording;
    while let Some(kind) = rest.first() {
        let length = match kind {
            1 | 2 => 9,
            3..=5 => 5,
            6 | 7 => 1,
            _ => 13,
        };
        let (record, after) = rest.split_at(length);
        records.push(record.to_vec());
        rest = after;
    }
    records
}

/// The address of a write or a read.
fn address_of(record: &[u8]) -> u32 {
    u32::from_be_bytes(record[1..5].try_into().expect("4 bytes"))
}

/// Is it a write or a read of a DP register, by any copy?
fn is_dp_access(record: &[u8]) -> bool {
    record[0] <= 2 && (0x0410_0000..=0x041F_FFFF).contains(&address_of(record))
}

/// The same records, with every DP register by its first copy.
fn through_first_copies(records: &[Vec<u8>]) -> Vec<Vec<u8>> {
    let mut records = records.to_vec();
    for record in records.iter_mut().filter(|record| is_dp_access(record)) {
        let register = 0x0410_0000 + address_of(record) % 0x20;
        record[1..5].copy_from_slice(&register.to_be_bytes());
    }
    records
}

/// A listing with these addresses in its `R` lines.
fn with_addresses(listing: &str, addresses: &[u32]) -> String {
    let mut addresses = addresses.iter();
    let mut text = String::new();
    for line in listing.lines() {
        if let Some(rest) = line.strip_prefix("R ") {
            let address = addresses.next().expect("a read for each line");
            text += &format!("R {address:08X}{}\n", &rest[8..]);
        } else {
            text += &format!("{line}\n");
        }
    }
    assert_eq!(addresses.next(), None);
    text
}

fn generated(seed: u64, limit: usize) -> Vec<u8> {
    let recording = generate(seed, limit, Traffic::Plain);
    assert!(recording.len() <= limit && recording.len() + 13 > limit);
    recording
}

/// Replays records as they are and through first copies: all is the same but for the addresses in
/// `R` lines, which are those recorded.
fn expect_same_replays(start: &Bench, records: &[Vec<u8>], refused: usize) {
    let firsts = through_first_copies(records);
    assert!(firsts != *records);
    let (mut mirrored, mut plain) = (start.clone(), start.clone());
    let (replayed, listing) = mirrored.replay(&records.concat());
    let (expected, plain_listing) = plain.replay(&firsts.concat());
    assert_eq!(replayed, expected);
    assert!(mirrored == plain);
    let reads = &records[..records.len() - refused];
    let reads = reads.iter().filter(|record| record[0] == 2);
    let addresses: Vec<u32> = reads.map(|record| address_of(record)).collect();
    assert!(listing != plain_listing);
    assert_eq!(listing, with_addresses(&plain_listing, &addresses));
}

#[test]
fn a_recording_with_mirrors_replays_as_through_first_copies() {
    for seed in 1..=12 {
        let mut records = cut_apart(&generated(seed, 9_000));
        let mut bench = Bench::new();
        bench.rdram = vec![0; 32_768];
        for state in [power_up(), running(), full_state()] {
            bench.state = state;
            expect_same_replays(&bench, &records, 0);
        }
        // It stops at the same record and place, too.
        records.push(vec![2, 0x04, 0x20, 0, 0, 0, 0, 0, 0]);
        expect_same_replays(&bench, &records, 1);
    }
}

/// About a third of the DP accesses go through mirrors: the first, the last and others; SP accesses
/// and all other records know none.
#[test]
fn generated_recordings_go_through_mirrors() {
    for seed in [0, 1, 138, u32::MAX.into()] {
        let records = cut_apart(&generated(seed, 16_000));
        for kind in [1, 2] {
            let of_kind = records.iter().filter(|record| record[0] == kind);
            let accesses: Vec<u32> = of_kind
                .filter(|record| is_dp_access(record))
                .map(|record| address_of(record))
                .collect();
            let copies = accesses
                .iter()
                .map(|address| (address - 0x0410_0000) / 0x20);
            let mirrors: Vec<u32> = copies.filter(|copy| *copy != 0).collect();
            let share = 100 * mirrors.len() / accesses.len();
            assert!((20..=45).contains(&share), "{seed} {kind} {share}");
            assert!(mirrors.contains(&1) && mirrors.contains(&0x7FFF));
            assert!(mirrors.iter().any(|copy| (2..0x7FFF).contains(copy)));
        }
    }
}
