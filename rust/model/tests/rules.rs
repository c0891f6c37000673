//! The rules' marked examples, its whole case, and the replay's refusals.

use model::machine::*;
use model::recording::*;
use std::io::Write;
use std::process::{Command, Stdio};

fn power_up() -> Machine {
    Machine::new(RDRAM_BYTES)
}

fn reads(machine: &mut Machine, address: u32) -> u32 {
    machine.read(address).expect("a register")
}

fn writes(machine: &mut Machine, pairs: &[(u32, u32)]) {
    for (address, value) in pairs {
        machine.write(*address, *value).expect("a register");
        assert!(machine.is_sound());
    }
}

fn sp_turns(machine: &mut Machine, turns: u32) {
    for _ in 0..turns {
        assert_eq!(machine.sp_turn(), 1);
        assert!(machine.is_sound());
    }
}

/// A turn of M9 and M11: a fetch and then a consumer turn, which hands out the
/// word that was fetched.
fn fetch_and_consume(machine: &mut Machine) -> u64 {
    assert_eq!(machine.dp_turn(), 1);
    assert!(machine.is_sound());
    let word = machine.consumer_turn().expect("a word is queued");
    assert!(machine.is_sound() && machine.dp.queue.is_empty());
    word
}

/// The listing of a recording from power-up.
fn listing(recording: &[u8]) -> String {
    replay(&mut power_up(), recording).listing
}

/// A recording made of these records.
fn recorded(records: &[Record]) -> Vec<u8> {
    records.iter().flat_map(Record::encode).collect()
}

#[test]
fn m1_status_at_power_up() {
    let mut machine = power_up();
    assert!(machine.is_sound());
    assert_eq!(reads(&mut machine, SP_STATUS), 0);
    assert_eq!(reads(&mut machine, DP_STATUS), 0x80);
}

#[test]
fn m2_nine_turns_of_a_load_with_rows() {
    let mut machine = power_up();
    writes(
        &mut machine,
        &[(SP_RAMADDR, 0x1000), (SP_RDLEN, 0x0200_B03F)],
    );
    sp_turns(&mut machine, 9);
    assert_eq!(reads(&mut machine, SP_RAMADDR), 0x1068);
    assert_eq!(reads(&mut machine, SP_SPADDR), 0x48);
    assert_eq!(reads(&mut machine, SP_RDLEN), 0x0200_A030);
    assert_eq!(reads(&mut machine, SP_WRLEN), 0x0200_A030);
}

#[test]
fn m3_ninety_six_turns_end_it() {
    let mut machine = power_up();
    writes(
        &mut machine,
        &[(SP_RAMADDR, 0x1000), (SP_RDLEN, 0x0200_B03F)],
    );
    sp_turns(&mut machine, 96);
    assert_eq!(reads(&mut machine, SP_RAMADDR), 0x1460);
    assert_eq!(reads(&mut machine, SP_SPADDR), 0x300);
    assert_eq!(reads(&mut machine, SP_RDLEN), 0x0200_0FF8);
    assert_eq!(machine.sp_turn(), 0);
}

#[test]
fn m4_the_longest_load() {
    let mut machine = power_up();
    writes(&mut machine, &[(SP_RDLEN, 0xFFFF_FFFF)]);
    let counts = machine.run(0xFFFF_FFFF, 0, 0, &mut []);
    assert_eq!((counts.moved, counts.consumed), (131_072, 0));
    assert_eq!(reads(&mut machine, SP_RAMADDR), 0x1F_E808);
    assert_eq!(reads(&mut machine, SP_DMA_BUSY), 0);
}

#[test]
fn m5_the_bank_wraps() {
    let mut machine = power_up();
    writes(&mut machine, &[(SP_SPADDR, 0xFFFF_FFFF), (SP_RDLEN, 0x0F)]);
    sp_turns(&mut machine, 2);
    assert_eq!(reads(&mut machine, SP_SPADDR), 0x1008);
}

#[test]
fn m6_sp_status_pairs() {
    let mut machine = power_up();
    writes(&mut machine, &[(SP_STATUS, 0x0100_0000)]);
    assert_eq!(reads(&mut machine, SP_STATUS), 0x4000);
    for halted in [2, 1] {
        writes(&mut machine, &[(SP_STATUS, halted)]);
        let before = reads(&mut machine, SP_STATUS);
        writes(&mut machine, &[(SP_STATUS, 3)]);
        assert_eq!(reads(&mut machine, SP_STATUS), before);
        assert_eq!(before & 1, halted - 1);
    }
}

#[test]
fn m7_semaphore() {
    let mut machine = power_up();
    assert_eq!(reads(&mut machine, SP_SEMAPHORE), 0);
    assert_eq!(reads(&mut machine, SP_SEMAPHORE), 1);
    writes(&mut machine, &[(SP_SEMAPHORE, 1)]);
    assert_eq!(reads(&mut machine, SP_SEMAPHORE), 0);
}

#[test]
fn m8_an_empty_list() {
    let mut machine = power_up();
    writes(&mut machine, &[(DP_START, 0x2000), (DP_END, 0x2000)]);
    assert_eq!(reads(&mut machine, DP_STATUS), 0x80);
}

#[test]
fn m9_a_waiting_list() {
    let mut machine = power_up();
    writes(&mut machine, &[(DP_START, 0x2000), (DP_END, 0x2018)]);
    writes(&mut machine, &[(DP_START, 0x3000), (DP_END, 0x3008)]);
    assert_eq!(reads(&mut machine, DP_STATUS), 0x780);
    for _ in 0..3 {
        assert_eq!(fetch_and_consume(&mut machine), 0);
    }
    assert_eq!(reads(&mut machine, DP_CURRENT), 0x3000);
    assert_eq!(reads(&mut machine, DP_STATUS), 0x1A8);
}

#[test]
fn m10_freeze() {
    let mut machine = power_up();
    writes(&mut machine, &[(DP_STATUS, 8), (DP_START, 0x2000)]);
    writes(&mut machine, &[(DP_END, 0x2008)]);
    assert_eq!(reads(&mut machine, DP_STATUS), 0x682);
    assert_eq!(machine.dp_turn(), 0);
    assert_eq!(machine.consumer_turn(), None);
    writes(&mut machine, &[(DP_STATUS, 4)]);
    assert_eq!(reads(&mut machine, DP_STATUS), 0x180);
}

#[test]
fn m11_sync_full_with_top_bits() {
    let mut machine = power_up();
    machine.rdram[0x2000] = 0xE9;
    writes(&mut machine, &[(DP_START, 0x2000), (DP_END, 0x2008)]);
    assert_eq!(fetch_and_consume(&mut machine), 0xE9 << 56);
    assert!(machine.dp.line);
    assert_eq!(reads(&mut machine, DP_STATUS), 0x80);
    machine.acknowledge();
    assert!(!machine.dp.line);
}

#[test]
fn m12_flush() {
    let mut machine = power_up();
    writes(&mut machine, &[(DP_START, 0x2000), (DP_END, 0x2018)]);
    // One fetch and no consumer turn: PIPE_BUSY is on, and FLUSH empties the
    // queue.
    assert_eq!(machine.dp_turn(), 1);
    writes(&mut machine, &[(DP_STATUS, 0x20)]);
    assert!(machine.dp.queue.is_empty());
    assert_eq!(reads(&mut machine, DP_CURRENT), 0x2008);
    assert_eq!(reads(&mut machine, DP_STATUS), 0xAC);
}

/// The rules' formula for the places of word c of row r, against the turns.
#[test]
fn each_word_goes_where_the_formula_says() {
    let (base, start, len, count, skip) = (0x7F00, 0x1FA0, 0x28, 9, 0x48);
    let mut machine = power_up();
    for (i, byte) in machine.rdram.iter_mut().enumerate() {
        *byte = (i * 7 + i / 251) as u8;
    }
    let mut bank = machine.imem.clone();
    let words = len / 8 + 1;
    for r in 0..=count {
        for c in 0..words {
            let from = base + r * (8 * words + skip) + 8 * c;
            let to = (start + 8 * (r * words + c)) % 4096;
            store_word(&mut bank, to, load_word(&machine.rdram, from));
        }
    }
    writes(&mut machine, &[(SP_SPADDR, start), (SP_RAMADDR, base)]);
    writes(&mut machine, &[(SP_RDLEN, skip << 20 | count << 12 | len)]);
    let counts = machine.run(u32::MAX, 0, 0, &mut []);
    assert_eq!(counts.moved, (count + 1) * words);
    assert!(machine.imem == bank);
    assert!(machine.dmem.iter().all(|byte| *byte == 0));
}

/// The room ends the consumer, and fetches go on until the queue is full.
#[test]
fn a_run_of_the_dp_stops_at_the_room_and_leaves_the_rest() {
    let mut machine = power_up();
    writes(&mut machine, &[(DP_START, 0), (DP_END, 0x200)]);
    let mut output = [0x55; 23];
    let counts = machine.run(0, u32::MAX, u32::MAX, &mut output);
    assert_eq!((counts.moved, counts.fetched, counts.consumed), (0, 34, 2));
    assert!(output[..16].iter().all(|byte| *byte == 0));
    assert!(output[16..].iter().all(|byte| *byte == 0x55));
    assert_eq!(machine.dp.queue.len(), 32);
    let counts = machine.run(0, u32::MAX, u32::MAX, &mut []);
    assert_eq!(counts, Counts::default());
}

/// Runs a program of this package with an input and gives its output.
fn run_program(path: &str, input: &[u8]) -> Vec<u8> {
    let mut child = Command::new(path)
        .stdin(Stdio::piped())
        .stdout(Stdio::piped())
        .spawn()
        .expect("the program starts");
    let mut stdin = child.stdin.take().expect("piped");
    stdin.write_all(input).expect("the program reads");
    drop(stdin);
    child.wait_with_output().expect("the program ends").stdout
}

const WHOLE_CASE: [u8; 32] = [
    0x01, 0x04, 0x04, 0x00, 0x00, 0x00, 0x00, 0x1F, 0xF8, 0x01, 0x04, 0x04, 0x00, 0x08, 0x00, 0x00,
    0x00, 0x0F, 0x03, 0x00, 0x00, 0x00, 0x02, 0x02, 0x04, 0x04, 0x00, 0x00, 0x00, 0x00, 0x10, 0x08,
];
const WHOLE_LISTING: &str = "replay 1\nS 00000002\nR 04040000 00001008 ok\nend 4\n";

#[test]
fn the_whole_case() {
    assert_eq!(listing(&WHOLE_CASE), WHOLE_LISTING);
    let output = run_program(env!("CARGO_BIN_EXE_model_replay"), &WHOLE_CASE);
    assert_eq!(output, WHOLE_LISTING.as_bytes());
}

#[test]
fn the_whole_case_is_made_of_these_records() {
    let records = [
        Record::Write {
            address: SP_SPADDR,
            value: 0x1FF8,
        },
        Record::Write {
            address: SP_RDLEN,
            value: 0x0F,
        },
        Record::SpRun { budget: 2 },
        Record::Read {
            address: SP_SPADDR,
            expected: 0x1008,
        },
    ];
    assert_eq!(recorded(&records), WHOLE_CASE);
}

#[test]
fn an_empty_recording_ends_at_once() {
    assert_eq!(listing(&[]), "replay 1\nend 0\n");
}

#[test]
fn a_difference_is_a_line_and_no_refusal() {
    let records = [
        Record::Read {
            address: DP_STATUS,
            expected: 0xABC,
        },
        Record::Check {
            address: 0x8,
            expected: 0xFEDC,
        },
        Record::DpRun { budget: 3 },
    ];
    let expected = "replay 1\nR 0410000C 00000080 expected 00000ABC\n\
        L 00000008 0000000000000000 expected 000000000000FEDC\nD 00000000\nend 3\n";
    assert_eq!(listing(&recorded(&records)), expected);
}

#[test]
fn refusals_10_and_5_have_their_edges() {
    let allowed = |address: u32| {
        (0x0404_0000..=0x0404_001C).contains(&address)
            || (0x0410_0000..=0x041F_FFFC).contains(&address)
    };
    for base in [
        0x0403_FFF0,
        0x0404_0010,
        0x040F_FFF0,
        0x0410_0010,
        0x041F_FFF0,
        0xFFFF_FFF0,
    ] {
        for ahead in 0..=0x10 {
            let Some(address) = u32::checked_add(base, ahead) else {
                continue;
            };
            let last = match (address % 4, allowed(address)) {
                (0, true) => "end 2\n",
                (0, false) => "stop 1 5 1\n",
                _ => "stop 1 10 1\n",
            };
            let write = Record::Write { address, value: 0 };
            let read = Record::Read {
                address,
                expected: 0,
            };
            for record in [write, read] {
                let text = listing(&recorded(&[Record::Break, record]));
                assert!(text.ends_with(last), "{address:08X} {text}");
            }
        }
    }
    assert!(REGISTERS.iter().all(|address| allowed(*address)));
}

#[test]
fn refusal_6_has_its_edges() {
    let allowed = [
        0,
        8,
        0x7FF8,
        0x8000,
        0x0100_0000,
        0x03EF_FFF8,
        0x0400_0000,
        0x0400_0FF8,
        0x0400_1000,
        0x0400_1FF8,
    ];
    let refused = [
        1,
        4,
        7,
        0x03EF_FFFF,
        0x03F0_0000,
        0x03FF_FFF8,
        0x0400_0004,
        0x0400_1FFF,
        0x0400_2000,
        0x0404_0000,
        0xFFFF_FFF8,
    ];
    for (addresses, last) in [(&allowed[..], "end 2\n"), (&refused[..], "stop 1 6 1\n")] {
        for address in addresses.iter().copied() {
            let check = Record::Check {
                address,
                expected: 0,
            };
            for record in [Record::Store { address, word: 0 }, check] {
                let text = listing(&recorded(&[Record::Acknowledge, record]));
                assert!(text.ends_with(last), "{address:08X} {text}");
            }
        }
    }
}

#[test]
fn a_store_past_the_lent_length_is_dropped() {
    for (address, found) in [(0x7FF8, "AB"), (0x8000, "00"), (0x0100_0000, "00")] {
        let store = Record::Store {
            address,
            word: 0xAB,
        };
        let check = Record::Check {
            address,
            expected: 0xAB,
        };
        let text = listing(&recorded(&[store, check]));
        let start = format!("replay 1\nL {address:08X} 00000000000000{found} ");
        assert!(text.starts_with(&start), "{text}");
        assert!(text.ends_with("\nend 2\n"), "{text}");
    }
    let store = Record::Store {
        address: 0x0100_0000,
        word: u64::MAX,
    };
    let mut machine = power_up();
    replay(&mut machine, &recorded(&[store]));
    assert!(machine == power_up());
}

#[test]
fn the_banks_follow_each_other() {
    let records = [
        Record::Store {
            address: 0x0400_0FF8,
            word: 1,
        },
        Record::Store {
            address: 0x0400_1000,
            word: 2,
        },
    ];
    let mut machine = power_up();
    replay(&mut machine, &recorded(&records));
    assert_eq!((machine.dmem[0xFFF], machine.imem[7]), (1, 2));
}

#[test]
fn refusal_7_is_for_each_unknown_kind() {
    for kind in 0..=255 {
        let mut recording = vec![6, kind];
        recording.extend([0; 12]);
        let refused = listing(&recording) == "replay 1\nstop 1 7 1\n";
        assert_eq!(refused, !(1..=10).contains(&kind), "{kind}");
        // An unknown kind has no body that could be cut short.
        recording.truncate(2);
        let refused = listing(&recording) == "replay 1\nstop 1 7 1\n";
        assert_eq!(refused, !(1..=10).contains(&kind), "{kind}");
    }
}

#[test]
fn refusal_8_comes_one_byte_before_the_whole() {
    let addressed = [(1, 8), (2, 8), (8, 12), (9, 12)];
    let others = [(3, 4), (4, 4), (5, 4), (10, 8)];
    for (kind, body) in addressed.into_iter().chain(others) {
        for length in 0..body {
            let mut recording = vec![6, 7, kind];
            // The address is misaligned and not allowed: 8 comes first.
            recording.extend(vec![0xFF; length]);
            assert_eq!(listing(&recording), "replay 1\nstop 2 8 2\n", "{kind}");
        }
    }
    let wholes = [(1, 0xFF, 10), (2, 0xFF, 10), (1, 0xFC, 5), (2, 0xFC, 5)];
    for (kind, byte, number) in wholes {
        let whole = [&[6, 7, kind][..], &[byte; 8]].concat();
        assert_eq!(listing(&whole), format!("replay 1\nstop 2 {number} 2\n"));
    }
    let whole = [&[6, 7, 9][..], &[0xFF; 12]].concat();
    assert_eq!(listing(&whole), "replay 1\nstop 2 6 2\n");
    let whole = [&[6, 7, 10][..], &[0xFF; 8]].concat();
    assert_eq!(listing(&whole), "replay 1\nS 00000000\nD 00000000\nend 3\n");
}

#[test]
fn refusal_9_comes_before_all_else() {
    assert_eq!(listing(&[6; 16_383]), "replay 1\nend 16383\n");
    assert_eq!(listing(&[6; 16_384]), "replay 1\nstop 0 9 0\n");
    assert_eq!(listing(&[0; 16_383]), "replay 1\nstop 0 7 0\n");
    assert_eq!(listing(&[0; 16_384]), "replay 1\nstop 0 9 0\n");
    let mut machine = power_up();
    let outcome = replay(&mut machine, &[6; 16_384]);
    assert_eq!((outcome.number, outcome.count, outcome.place), (9, 0, 0));
    assert!(machine == power_up());
}

#[test]
fn what_stood_before_a_refusal_stays_done() {
    let mut recording = WHOLE_CASE.to_vec();
    recording.extend([6, 0]);
    let mut machine = power_up();
    let outcome = replay(&mut machine, &recording);
    assert_eq!((outcome.number, outcome.count, outcome.place), (7, 5, 33));
    assert!(outcome.listing.ends_with("\nstop 5 7 33\n"));
    assert!(machine.sp.broke);
    let output = run_program(env!("CARGO_BIN_EXE_model_replay"), &recording);
    assert_eq!(output, outcome.listing.as_bytes());
}

#[test]
fn a_replay_that_ends_gives_no_place() {
    for recording in [&[][..], &[6, 7], &WHOLE_CASE] {
        let outcome = replay(&mut power_up(), recording);
        assert_eq!((outcome.number, outcome.place), (0, 0));
    }
}
