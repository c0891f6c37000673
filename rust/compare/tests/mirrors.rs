//! The mirrors of the DP registers: every copy against the model, and the library against itself at
//! the first copy.

use compare::cases::addresses::in_any_copy;
use compare::cases::bursts::{any_burst, burst};
use compare::cases::invalid_recordings::with_changed_bytes;
use compare::cases::lengths::odd_lengths;
use compare::cases::seed::random_of_test;
use compare::cases::states::sound;
use compare::cases::traffic::Traffic;
use compare::cases::unsound_states::unsound;
use compare::cases::values::register_value;
use compare::comparison::Comparison;
use compare::coverage::counting_replay::CountingReplay;
use compare::data::call::{Call, Case};
use compare::data::memory::Lent;
use compare::data::recording::pieces;
use compare::data::registers::{first_copy, in_copy, COPIES};
use compare::data::state_fields::to_model;
use compare::sides::library::library;
use compare::sides::observed::Observed;
use model::machine::REGISTERS;
use ofersky::{State, LISTING_BYTES};
use random::Random;

/// The DP registers among the sixteen.
fn dp_registers() -> &'static [u32] {
    &REGISTERS[8..]
}

/// A state, at times one that is not sound.
fn any_state(random: &mut Random) -> State {
    if random.once_in(8) {
        unsound(random, 4_096)
    } else {
        sound(random, 4_096)
    }
}

fn case(state: State, lent: Lent, call: Call) -> Case {
    Case { state, lent, call }
}

#[test]
fn every_copy() {
    let mut random = random_of_test(51);
    let mut comparison = Comparison::new("call");
    for copy in 0..COPIES {
        let state = any_state(&mut random);
        let value = register_value(&mut random);
        for register in dp_registers() {
            let address = in_copy(*register, copy);
            for call in [Call::Read { address }, Call::Write { address, value }] {
                comparison.check(&case(state, Lent::new(0, 0), call));
            }
        }
        let pairs: Vec<(u32, u32)> = dp_registers()
            .iter()
            .map(|register| (in_copy(*register, copy), value))
            .collect();
        comparison.check(&case(state, Lent::new(0, 0), burst(&pairs)));
    }
    for call in ["read_register", "write_register", "write_registers"] {
        comparison.totals.expect_mirrors(call, 200_000);
    }
    println!("every copy: {}", comparison.totals.calls_line());
}

/// The library, called at the first copy of each register.
fn at_first_copy(case: &Case) -> Observed {
    // What it is lent is not what differs.
    let pairs = case.call.pairs().map(<[u32]>::to_vec);
    let mut case = case.clone();
    match &mut case.call {
        Call::Read { address } | Call::Write { address, .. } => *address = first_copy(*address),
        Call::WriteRegisters { addresses, .. } => addresses
            .iter_mut()
            .for_each(|address| *address = first_copy(*address)),
        Call::Replay { recording, .. } => unmirror(recording),
        call => panic!("{} is not called through mirrors", call.name()),
    }
    Observed {
        pairs,
        ..library(&case)
    }
}

/// Puts the first copy's address into each record that names a register.
fn unmirror(recording: &mut [u8]) {
    for piece in pieces(recording) {
        let record = &mut recording[piece];
        if matches!(record[0], 1 | 2) && record.len() == 9 {
            let address = u32::from_be_bytes(record[1..5].try_into().expect("four bytes"));
            record[1..5].copy_from_slice(&first_copy(address).to_be_bytes());
        }
    }
}

/// The library through mirrors, and in its listing the first copy's address in each `R` line.
fn shown_at_first_copy(case: &Case) -> Observed {
    let mut seen = library(case);
    let listing = &mut seen.bytes[3][..seen.written];
    for line in listing.split_mut(|byte| *byte == b'\n') {
        if line.starts_with(b"R ") && line.len() >= 10 {
            let digits = std::str::from_utf8(&line[2..10]).expect("hex digits");
            let address = u32::from_str_radix(digits, 16).expect("hex digits");
            line[2..10].copy_from_slice(format!("{:08X}", first_copy(address)).as_bytes());
        }
    }
    seen
}

#[test]
fn calls_as_at_the_first_copy() {
    let mut random = random_of_test(52);
    let mut comparison = Comparison::of(at_first_copy, library, "call");
    for _ in 0..20_000 {
        let state = any_state(&mut random);
        let value = register_value(&mut random);
        let register = random.pick(dp_registers()) + random.pick(&[0, 0, 0, 1, 2, 3]);
        let address = in_any_copy(&mut random, register);
        let burst = any_burst(&mut random, 4_096);
        for call in [
            Call::Read { address },
            Call::Write { address, value },
            burst,
        ] {
            comparison.check(&case(state, Lent::new(0, 0), call));
        }
    }
    for call in ["read_register", "write_register", "write_registers"] {
        comparison.totals.expect_numbers(call, &[0, 4, 10], 1_000);
        comparison.totals.expect_mirrors(call, 5_000);
    }
    println!("as at the first copy: {}", comparison.totals.calls_line());
}

/// Traffic of some sequences, at times with a byte changed, from this state.
fn recording(random: &mut Random, state: &State, lent: &Lent) -> Vec<u8> {
    let replay = CountingReplay::new(to_model(state), lent.bytes());
    let mut traffic = Traffic::new(random, replay);
    for _ in 0..6 {
        traffic.sequence();
    }
    let mut bytes = traffic.bytes;
    if random.once_in(3) && !bytes.is_empty() {
        bytes = with_changed_bytes(random, &bytes);
    }
    bytes
}

#[test]
fn replays_as_at_the_first_copy() {
    let mut random = random_of_test(53);
    let mut comparison = Comparison::of(at_first_copy, shown_at_first_copy, "recording");
    let mut through_mirrors = 0;
    for _ in 0..2_000 {
        let state = sound(&mut random, 4_096);
        let lent = if random.once_in(8) {
            odd_lengths(&mut random)
        } else {
            Lent::new(4_096, random.below(1 << 16).into())
        };
        let recording = recording(&mut random, &state, &lent);
        let mut unmirrored = recording.clone();
        unmirror(&mut unmirrored);
        through_mirrors += u64::from(unmirrored != recording);
        let out = LISTING_BYTES;
        comparison.check(&case(state, lent, Call::Replay { recording, out }));
    }
    assert!(through_mirrors >= 1_000, "{through_mirrors} recordings");
    println!(
        "replays as at the first copy: {}",
        comparison.totals.recordings_line()
    );
}
