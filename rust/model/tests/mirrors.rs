//! The mirrors of the DP registers: all eight repeat every 0x20 bytes from
//! 0x04100000 to 0x041FFFFF, and an access through any copy is the access through
//! the first one. Records keep the address that they were given.

mod common;

use common::*;
use model::calls::*;
use model::machine::{
    check_register, register_at, DP_CLOCK, DP_CMD_BUSY, DP_CURRENT, DP_END, DP_PIPE_BUSY, DP_START,
    DP_STATUS, DP_TMEM_BUSY, REGISTERS,
};

/// The eight DP registers by their first addresses, and what each reads as in
/// `full_state`.
const FIRST_COPY: [(u32, u64); 8] = [
    (0x0410_0000, 0x70),
    (0x0410_0004, 0x80),
    (0x0410_0008, 0x90),
    (0x0410_000C, 0x7E9),
    (0x0410_0010, 0x10),
    (0x0410_0014, 0xFF_F00F),
    (0x0410_0018, 0x30),
    (0x0410_001C, 0x40),
];

/// Where some of the copies begin: the first, each one a power of two away, some
/// in the middle, and the last two.
const COPIES: [u32; 21] = [
    0x0410_0000,
    0x0410_0020,
    0x0410_0040,
    0x0410_0080,
    0x0410_0100,
    0x0410_0200,
    0x0410_0400,
    0x0410_0800,
    0x0410_1000,
    0x0410_2000,
    0x0410_4000,
    0x0410_8000,
    0x0411_0000,
    0x0412_0000,
    0x0414_0000,
    0x0418_0000,
    0x0415_5540,
    0x0417_FFE0,
    0x041A_AAA0,
    0x041F_FFC0,
    0x041F_FFE0,
];

/// A DP register in one of these copies; any number chooses one.
fn in_copy(copy: usize, register: u32) -> u32 {
    COPIES[copy % COPIES.len()] + (register - 0x0410_0000)
}

/// A write (1) or a read (2) as bytes.
fn record(kind: u8, address: u32, value: u32) -> Vec<u8> {
    [&[kind], &address.to_be_bytes()[..], &value.to_be_bytes()].concat()
}

/// What is given for an address of a register: this number by every call that
/// takes one.
fn expect_number(address: u32, number: u32) {
    let checked = check_register(address).err().unwrap_or(0);
    assert_eq!(checked, number, "{address:08X}");
    let state = full_state();
    let read = read_register(&state, address);
    let write = write_register(&state, address, 0);
    let burst = write_registers(&state, &[address], &[0]);
    for outcome in [read, write, burst] {
        assert_eq!(outcome.answer.number, number, "{address:08X}");
        if number != 0 {
            assert_eq!(outcome, declined(&state, number));
        }
    }
    for kind in [1, 2] {
        expect_number_of_record(kind, address, number);
    }
}

/// What the reader, the writer and the replay give for a record.
fn expect_number_of_record(kind: u8, address: u32, number: u32) {
    let bytes = record(kind, address, 0);
    assert_eq!(read_record(&bytes, 0).number, number, "{address:08X}");
    let mut buffer = [0x55; 9];
    let written = write_record(kind, address, 0, &mut buffer, 0);
    assert_eq!(written.number, number, "{address:08X}");
    assert_eq!(buffer == [0x55; 9], number != 0);
    let mut bench = Bench::new();
    if number == 0 {
        bench.replay_to_end(&bytes, 1);
    } else {
        expect_replay(&bench, &bytes, number);
    }
}

#[test]
fn the_range_has_its_edges() {
    let inside = [
        0x0410_0000,
        0x0410_001C,
        0x0410_0020,
        0x0410_003C,
        0x0410_FFFC,
        0x0414_001C,
        0x0417_FFFC,
        0x0418_0000,
        0x041F_FFDC,
        0x041F_FFE0,
        0x041F_FFFC,
    ];
    let outside = [
        0x0400_0000,
        0x040F_0000,
        0x040F_FFE0,
        0x040F_FFFC,
        0x0420_0000,
        0x0420_0004,
        0x0420_001C,
        0x0420_0020,
        0x042F_FFFC,
        0x0430_0000,
        0x0510_0000,
        0x0010_0000,
        0x001F_FFFC,
    ];
    for address in inside {
        expect_number(address, 0);
    }
    for address in outside {
        expect_number(address, 5);
    }
}

#[test]
fn the_sp_registers_have_no_mirrors() {
    for ahead in 0..8 {
        expect_number(0x0404_0000 + 4 * ahead, 0);
        expect_number(0x0403_FFE0 + 4 * ahead, 5);
        expect_number(0x0404_0020 + 4 * ahead, 5);
        expect_number(0x0404_0040 + 4 * ahead, 5);
        expect_number(0x0405_0000 + 4 * ahead, 5);
        expect_number(0x0407_FFE0 + 4 * ahead, 5);
        expect_number(0x0408_0000 + 4 * ahead, 5);
    }
}

/// 10 comes first: in every copy, just outside the range and far away.
#[test]
fn a_misaligned_address_gives_10_wherever_it_lies() {
    let outside = [0x040F_FFE0, 0x0420_0000, 0x0404_0020, 0, 0xFFFF_FFE0];
    for base in COPIES.into_iter().chain(outside) {
        for ahead in (0..0x20).filter(|ahead| ahead % 4 != 0) {
            let address = base + ahead;
            assert_eq!(check_register(address), Err(10), "{address:08X}");
        }
    }
    for address in [0x0410_0021, 0x0414_0002, 0x041F_FFFE, 0x041F_FFFF] {
        expect_number(address, 10);
    }
    for address in [0x040F_FFFF, 0x0420_0001, 0x0420_0002, 0x0420_0003] {
        expect_number(address, 10);
    }
}

/// Every bit of an address counts but for those that tell the copies apart.
#[test]
fn addresses_one_bit_away_from_a_mirror() {
    for bit in 0..32 {
        let number = match bit {
            0 | 1 => 10,
            2..=19 => 0,
            _ => 5,
        };
        expect_number(0x041A_BCD8 ^ 1 << bit, number);
        expect_number(0x041F_FFFC ^ 1 << bit, number);
        // Without bit 20 this one is 0x0404001C, SEMAPHORE.
        let number = if bit == 20 { 0 } else { number };
        expect_number(0x0414_001C ^ 1 << bit, number);
    }
    // The segments through which the processor sees the same registers.
    for address in [0x8410_0000, 0xA410_0000, 0xA41F_FFFC, 0xC410_0020] {
        expect_number(address, 5);
    }
}

/// Each multiple of 4 from before the SP block to well past the mirrors.
#[test]
fn the_range_has_no_gaps_and_nothing_else_is_near() {
    let mut registers = 0;
    for address in (0x0400_0000..0x0440_0000).step_by(4) {
        let expected = match address {
            0x0404_0000..=0x0404_001F => Ok(()),
            0x0410_0000..=0x041F_FFFF => Ok(()),
            _ => Err(5),
        };
        assert_eq!(check_register(address), expected, "{address:08X}");
        registers += u32::from(expected.is_ok());
    }
    assert_eq!(registers, 8 + 8 * 0x8000);
}

/// All 0x8000 copies, counted up by 0x20: what each of the eight reads as, and
/// that a read leaves the state as it was.
#[test]
fn every_copy_reads_its_registers() {
    let state = full_state();
    let mut address = 0x0410_0000;
    for copy in 0..0x8000 {
        assert_eq!(address, 0x0410_0000 + 0x20 * copy);
        for (register, value) in FIRST_COPY {
            assert_eq!(register_at(address), Ok(register));
            let outcome = read_register(&state, address);
            assert_eq!(outcome.answer, success(value, 0), "{address:08X}");
            assert_eq!(outcome.state, state, "{address:08X}");
            address += 4;
        }
    }
    assert_eq!(address, 0x0420_0000);
    assert_eq!(register_at(address), Err(5));
}

/// All 0x8000 copies of the three registers that a write changes something by.
#[test]
fn every_copy_writes_its_registers() {
    let full = full_state();
    let mut started = full.clone();
    started.dp.start = 0xAB_CDE8;
    let mut moved = power_up();
    moved.dp.end = 0xAB_CDE8;
    moved.dp.limit = 0xAB_CDE8;
    let mut xbus = power_up();
    xbus.dp.xbus = 1;
    for copy in 0..0x8000 {
        let base = 0x0410_0000 + 0x20 * copy;
        let writes = [
            (write_register(&full, base, 0x12AB_CDEF), &started),
            (write_register(&power_up(), base + 4, 0x12AB_CDEF), &moved),
            (write_register(&power_up(), base + 0xC, 2), &xbus),
        ];
        for (outcome, state) in writes {
            assert_eq!(outcome.answer, success(0, 0), "{base:08X}");
            assert_eq!(outcome.state, *state, "{base:08X}");
        }
    }
}

/// The mirrors that the other tests use are what they are said to be.
#[test]
fn the_first_copies_stand_for_themselves() {
    for (address, register) in MIRRORS {
        assert_eq!(register_at(address), Ok(register));
        assert!(REGISTERS.contains(&register) && !REGISTERS.contains(&address));
    }
    for register in REGISTERS {
        assert_eq!(register_at(register), Ok(register));
    }
    assert!(FIRST_COPY.map(|(register, _)| register)[..] == REGISTERS[8..]);
}

/// A read and some writes through each copy give what the first copy gives:
/// number, value, count and next state.
fn expect_same_through_copies(state: &State, values: &[u32]) {
    for (register, _) in FIRST_COPY {
        let read = read_register(state, register);
        for copy in 0..COPIES.len() {
            let address = in_copy(copy, register);
            assert_eq!(read_register(state, address), read, "{address:08X}");
        }
        for value in values {
            let written = write_register(state, register, *value);
            for copy in 0..COPIES.len() {
                let outcome = write_register(state, in_copy(copy, register), *value);
                assert_eq!(outcome, written, "{register:08X} {copy} {value:08X}");
            }
        }
    }
}

#[test]
fn each_register_through_mirrors_is_the_first_copy() {
    let values = [0, 0x20, 0x04, 0x3C0, 0x2008, u32::MAX];
    for state in [power_up(), running(), full_state()] {
        expect_same_through_copies(&state, &values);
    }
    let mut random = Random(0x5A17_3C2E_9B04_D861);
    for _ in 0..200 {
        let state = random.sound_state();
        let values = [random.number(), random.number() % 0x400];
        expect_same_through_copies(&state, &values);
    }
}

/// 4 comes before 10 and 5, and is given for every copy.
fn expect_4_everywhere(state: &State) {
    let copies = COPIES.iter().flat_map(|base| [*base, base + 0x1C]);
    let mirrors = MIRRORS.into_iter().map(|(address, _)| address);
    let others = MISALIGNED.into_iter().chain(OUTSIDE);
    for address in copies.chain(mirrors).chain(others) {
        let outcomes = [
            read_register(state, address),
            write_register(state, address, 0x20),
            write_registers(state, &[address], &[0x20]),
        ];
        for outcome in outcomes {
            assert_eq!(outcome, declined(state, 4), "{address:08X}");
        }
    }
}

#[test]
fn a_state_that_is_not_sound_gives_4_through_every_copy() {
    for (_, field) in FLAGS {
        let mut state = full_state();
        *field(&mut state) = 2;
        expect_4_everywhere(&state);
    }
    for (name, field, widest, step) in NUMBERS {
        let mut state = full_state();
        if let Some(past) = widest.checked_add(step) {
            *field(&mut state) = past;
            expect_4_everywhere(&state);
        } else {
            assert_eq!(name, "waiting_word");
        }
    }
    let mut state = full_state();
    state.dp.words_left = 22;
    expect_4_everywhere(&state);
    // A replay on such a state is refused before it looks at an address.
    let mut bench = Bench::running();
    bench.state = state;
    for address in [0x0410_0020, 0x041F_FFFC, 0x0420_0000, 0x041F_FFFE] {
        expect_replay(&bench, &record(1, address, 0), 4);
    }
}

/// The rules' M8 to M12, each access through another copy.
#[test]
fn m8_to_m10_through_mirrors() {
    for copy in 0..COPIES.len() {
        let at = |ahead: usize, register: u32| in_copy(copy + ahead, register);
        let mut bench = Bench::new();
        bench.writes(&[(at(0, DP_START), 0x2000), (at(1, DP_END), 0x2000)]);
        bench.reads(&[(at(2, DP_STATUS), 0x80)]);

        let mut bench = Bench::new();
        bench.writes(&[(at(1, DP_START), 0x2000), (at(2, DP_END), 0x2018)]);
        bench.writes(&[(at(3, DP_START), 0x3000), (at(0, DP_END), 0x3008)]);
        bench.reads(&[(at(4, DP_STATUS), 0x780)]);
        for _ in 0..3 {
            assert_eq!(bench.fetch_and_consume(), success(0, 1));
        }
        bench.reads(&[(at(5, DP_CURRENT), 0x3000), (at(6, DP_STATUS), 0x1A8)]);

        let mut bench = Bench::new();
        bench.writes(&[(at(7, DP_STATUS), 8)]);
        bench.writes(&[(at(2, DP_START), 0x2000), (at(9, DP_END), 0x2008)]);
        bench.reads(&[(at(1, DP_STATUS), 0x682)]);
        bench.writes(&[(at(4, DP_STATUS), 4)]);
        bench.reads(&[(at(8, DP_STATUS), 0x180)]);
    }
}

#[test]
fn m11_and_m12_through_mirrors() {
    for copy in 0..COPIES.len() {
        let at = |ahead: usize, register: u32| in_copy(copy + ahead, register);
        let mut bench = Bench::new();
        bench.rdram[0x2000] = 0xE9;
        bench.writes(&[(at(0, DP_START), 0x2000), (at(5, DP_END), 0x2008)]);
        assert_eq!(bench.fetch_and_consume(), success(0xE9 << 56, 1));
        bench.lines(0, 1);
        bench.reads(&[(at(3, DP_STATUS), 0x80)]);

        let mut bench = Bench::new();
        bench.writes(&[(at(6, DP_START), 0x2000), (at(1, DP_END), 0x2018)]);
        bench.fetches(1);
        bench.writes(&[(at(2, DP_STATUS), 0x20)]);
        bench.reads(&[(at(0, DP_CURRENT), 0x2008), (at(7, DP_STATUS), 0xAC)]);
    }
}

/// A counter that is zeroed through one copy is zero through all.
#[test]
fn counters_through_mirrors() {
    for copy in 0..COPIES.len() {
        let at = |ahead: usize, register: u32| in_copy(copy + ahead, register);
        let mut bench = Bench::new();
        bench.state = full_state();
        bench.reads(&[(at(0, DP_CLOCK), 0x10), (at(1, DP_CMD_BUSY), 0xFF_F00F)]);
        bench.reads(&[(at(2, DP_PIPE_BUSY), 0x30), (at(3, DP_TMEM_BUSY), 0x40)]);
        bench.writes(&[(at(4, DP_STATUS), 0x140)]);
        bench.reads(&[(at(5, DP_CLOCK), 0x10), (at(6, DP_CMD_BUSY), 0)]);
        bench.reads(&[(at(7, DP_PIPE_BUSY), 0x30), (at(8, DP_TMEM_BUSY), 0)]);
        bench.writes(&[(at(9, DP_STATUS), 0x280)]);
        bench.reads(&[(at(10, DP_CLOCK), 0), (at(11, DP_PIPE_BUSY), 0)]);
    }
}

#[test]
fn writes_to_read_only_registers_through_mirrors_do_nothing() {
    let state = full_state();
    let only_read = [
        DP_CURRENT,
        DP_CLOCK,
        DP_CMD_BUSY,
        DP_PIPE_BUSY,
        DP_TMEM_BUSY,
    ];
    for (copy, register) in (0..COPIES.len()).flat_map(|i| only_read.map(|r| (i, r))) {
        let outcome = write_register(&state, in_copy(copy, register), u32::MAX);
        assert_eq!(outcome.answer, success(0, 0), "{register:08X} {copy}");
        assert_eq!(outcome.state, state, "{register:08X} {copy}");
    }
}

/// Records by hand: the address stands there as it was given.
#[test]
fn the_reader_and_the_writer_keep_the_address() {
    let records: [(u8, u32, [u8; 9]); 5] = [
        (1, 0x0410_0020, [1, 0x04, 0x10, 0x00, 0x20, 1, 2, 3, 4]),
        (2, 0x0410_003C, [2, 0x04, 0x10, 0x00, 0x3C, 1, 2, 3, 4]),
        (1, 0x041A_BCD8, [1, 0x04, 0x1A, 0xBC, 0xD8, 1, 2, 3, 4]),
        (2, 0x041F_FFE0, [2, 0x04, 0x1F, 0xFF, 0xE0, 1, 2, 3, 4]),
        (1, 0x041F_FFFC, [1, 0x04, 0x1F, 0xFF, 0xFC, 1, 2, 3, 4]),
    ];
    for (kind, address, bytes) in records {
        for before in [0, 5] {
            let recording = [&vec![0xFF; before][..], &bytes, &[0xFF]].concat();
            let place = before + 9;
            let expected = Reading {
                number: 0,
                kind,
                address,
                value: 0x0102_0304,
                place,
            };
            assert_eq!(read_record(&recording, before), expected);
            let mut buffer = vec![0xFF; recording.len()];
            let answer = write_record(kind, address, 0x0102_0304, &mut buffer, before);
            assert_eq!(answer, success(place as u64, 0));
            assert_eq!(buffer, recording);
        }
    }
}

/// Nor is any other copy of the eight put in its place.
#[test]
fn records_through_every_copy_come_back() {
    let mut buffer = [0x55; 9];
    for address in (0x0410_0000..=0x041F_FFFF).step_by(4) {
        let kind = 1 + (address >> 5 & 1) as u8;
        let written = write_record(kind, address, 0xFEDC_BA98, &mut buffer, 0);
        assert_eq!(written, success(9, 0));
        assert_eq!(buffer[1..5], address.to_be_bytes());
        let read = read_record(&buffer, 0);
        assert_eq!((read.number, read.kind, read.place), (0, kind, 9));
        assert_eq!((read.address, read.value), (address, 0xFEDC_BA98));
    }
}

/// Room is looked at after the address, in a mirror too.
#[test]
fn a_record_through_a_mirror_that_does_not_fit_gives_14() {
    for (address, number) in [
        (0x041F_FFFC, 14),
        (0x0410_0020, 14),
        (0x0420_0000, 5),
        (0x041F_FFFE, 10),
    ] {
        let mut buffer = [0x55; 8];
        let answer = write_record(2, address, 0, &mut buffer, 0);
        assert_eq!((answer.number, answer.value, answer.count), (number, 0, 0));
        assert_eq!(buffer, [0x55; 8]);
    }
}

/// Kinds 8 and 9 are about memory, and no memory is there.
#[test]
fn memory_records_have_no_mirrors() {
    for address in [
        0x0410_0000,
        0x0410_0020,
        0x0414_0000,
        0x041F_FFE0,
        0x041F_FFF8,
        0x041F_FFFC,
        0x0410_0021,
        0x0420_0000,
    ] {
        for kind in [8, 9] {
            let mut bytes = record(kind, address, 0);
            bytes.extend([0; 4]);
            assert_eq!(read_record(&bytes, 0).number, 6, "{address:08X}");
            let answer = write_record(kind, address, 0, &mut bytes, 0);
            assert_eq!(answer.number, 6, "{address:08X}");
            expect_replay(&Bench::new(), &bytes, 6);
        }
    }
}

/// A replay by hand: `R` lines have the address as recorded, and a write
/// through one copy is seen through the others.
#[test]
fn a_replay_prints_the_address_as_recorded() {
    let records = [
        record(1, 0x041F_FFE0, 0x2007),
        record(2, 0x0410_0000, 0x2000),
        record(2, 0x0410_0020, 0x2000),
        record(1, 0x0410_0024, 0x2010),
        record(2, 0x041F_FFE4, 0x2018),
        vec![4, 0, 0, 0, 1],
        record(2, 0x0418_0008, 0x2008),
        record(2, 0x041A_BCCC, 0x1A8),
        vec![5, 0, 0, 0, 9],
        record(2, 0x0410_0030, 0x9),
        record(2, 0x041F_FFF8, 0x8),
        record(2, 0x041F_FFFC, 0),
    ];
    let (state, listing) = Bench::new().replay_to_end(&records.concat(), 12);
    let expected = "replay 1\nR 04100000 00002000 ok\nR 04100020 00002000 ok\n\
        R 041FFFE4 00002010 expected 00002018\nD 00000001\n\
        R 04180008 00002008 ok\nR 041ABCCC 000001A8 ok\nR 04100030 00000009 ok\n\
        R 041FFFF8 00000009 expected 00000008\nR 041FFFFC 00000000 ok\nend 12\n";
    assert_eq!(listing, expected);
    let mut after = power_up();
    after.dp.start = 0x2000;
    after.dp.end = 0x2010;
    after.dp.limit = 0x2010;
    after.dp.current = 0x2008;
    after.dp.pipe_busy = 1;
    after.dp.clock = 9;
    after.dp.pipe_busy_count = 9;
    assert_eq!(state, after);
}

/// Mirrors before the refused record are done, and it has its place.
#[test]
fn a_replay_stops_past_the_mirrors() {
    for (address, number) in [
        (0x0420_0000, 5),
        (0x040F_FFFC, 5),
        (0x0404_0020, 5),
        (0x041F_FFFE, 10),
        (0x0420_0002, 10),
    ] {
        for kind in [1, 2] {
            let records = [
                record(1, 0x041F_FFE0, 0x2000),
                vec![6],
                record(2, 0x041F_FFFC, 0),
                record(kind, address, 0),
                record(1, 0x0410_0020, 0x3000),
            ];
            let (replayed, listing) = Bench::new().replay(&records.concat());
            let answer = replayed.outcome.answer;
            assert_eq!((answer.number, answer.value, answer.count), (number, 0, 3));
            assert_eq!(replayed.place, 19);
            assert_eq!(replayed.outcome.state.dp.start, 0x2000);
            let lines = format!("R 041FFFFC 00000000 ok\nstop 3 {number} 19\n");
            assert_eq!(listing, format!("replay 1\n{lines}"));
        }
    }
}
