//! The model on generated recordings: a replay does what the single calls do, and what was read is
//! written again.

#[path = "../../model/tests/common/mod.rs"]
mod common;

use common::*;
use generate::{generate, Traffic};
use model::calls::*;

/// The line of a read or a check, by the rules' form.
fn compared(letter: char, address: u32, found: u64, expected: u64) -> String {
    let digits = if letter == 'R' { 8 } else { 16 };
    let end = if found == expected {
        "ok".to_string()
    } else {
        format!("expected {expected:0digits$X}")
    };
    format!("{letter} {address:08X} {found:0digits$X} {end}\n")
}

/// The memory that a store or a check means, and the place in it.
fn memory(bench: &mut Bench, address: u32) -> Option<&mut [u8]> {
    let (memory, place) = match address {
        0x0400_0000..=0x0400_0FFF => (&mut bench.dmem, address - 0x0400_0000),
        0x0400_1000..=0x0400_1FFF => (&mut bench.imem, address - 0x0400_1000),
        _ => (&mut bench.rdram, address),
    };
    memory.get_mut(place as usize..place as usize + 8)
}

/// Does one record by the single calls and gives its line.
fn by_single_calls(bench: &mut Bench, reading: Reading) -> String {
    let state = bench.state.clone();
    let Reading { address, value, .. } = reading;
    let number = value as u32;
    match reading.kind {
        1 => bench.took(write_register(&state, address, number), success(0, 0)),
        2 => {
            let outcome = read_register(&state, address);
            bench.state = outcome.state;
            return compared('R', address, outcome.answer.value, value);
        }
        3 => return format!("S {:08X}\n", bench.run_sp(number).count),
        4 => return format!("D {:08X}\n", bench.run_dp(number, &mut [0; 2_048])),
        10 => {
            let upper = (value >> 32) as u32;
            let (answer, words) = bench.run([upper, number, number], &mut [0; 2_048]);
            return format!("S {:08X}\nD {words:08X}\n", answer.count);
        }
        5 => bench.took(tick(&state, number), success(0, 0)),
        6 => bench.took(sp_break(&state), success(0, 0)),
        7 => bench.took(acknowledge(&state), success(0, 0)),
        8 => {
            if let Some(bytes) = memory(bench, address) {
                bytes.copy_from_slice(&value.to_be_bytes());
            }
        }
        _ => {
            let found = memory(bench, address).map_or([0; 8], |b| b.try_into().expect("8 bytes"));
            return compared('L', address, u64::from_be_bytes(found), value);
        }
    }
    String::new()
}

/// A replay is the reader and the single calls, one after the other.
#[test]
fn a_replay_is_its_records() {
    for seed in 1..=4 {
        let recording = generate(seed, 9_000, Traffic::Queue);
        assert!(recording.len() > 8_900);
        let mut whole = Bench::new();
        whole.rdram = vec![0; 32_768];
        let mut single = whole.clone();
        let (replayed, listing) = whole.replay(&recording);
        whole.state = replayed.outcome.state;
        let mut expected = String::from("replay 1\n");
        let (mut place, mut count) = (0, 0);
        while place < recording.len() {
            let reading = read_record(&recording, place);
            assert_eq!(reading.number, 0);
            place = reading.place;
            count += 1;
            expected += &by_single_calls(&mut single, reading);
        }
        assert_eq!(listing, expected + &format!("end {count}\n"));
        assert_eq!(replayed.outcome.answer, success(0, count));
        assert_eq!(replayed.place, 0);
        assert!(whole == single);
    }
}

#[test]
fn writing_what_was_read_gives_the_same_bytes() {
    for seed in 1..=4 {
        let recording = generate(seed, 16_383, Traffic::Merged);
        assert!(recording.len() > 16_300);
        assert!(copied(&recording) == recording);
    }
}
