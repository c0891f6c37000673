//! Bursts of register writes, by the library and by the model; and by the library's own single
//! writes, and cut in two, with the ring slot by slot.

use compare::cases::addresses::{in_any_copy, register};
use compare::cases::bursts::{any_burst, burst, good_pairs, lengthen, refused_by, Pair};
use compare::cases::seed::random_of_test;
use compare::cases::states::sound;
use compare::cases::unsound_states::{break_clause, unsound, BREAKS};
use compare::cases::values::{register_value, value_for};
use compare::comparison::Comparison;
use compare::coverage::summary::grouped;
use compare::coverage::totals::Sum;
use compare::data::call::{burst_is_allowed, Call, Case, LONGEST_BURST};
use compare::data::memory::Lent;
use compare::data::ring::{normalized, rotated};
use compare::data::state_fields::{field, FLAGS};
use compare::sides::composed_calls::{burst_by_two, burst_by_writes};
use compare::sides::library::library_with_ring;
use compare::sides::model::model;
use compare::sides::observed::Observed;
use model::machine::*;
use ofersky::State;
use random::Random;

/// What the eight tests compared.
static ALL: Sum = Sum::of_tests(8);

/// The length of RDRAM that values are picked for.
const RDRAM: usize = 4_096;

/// A burst of the library beside the model's, its own single writes, and two of its own bursts.
struct Sides([Comparison; 3]);

impl Sides {
    fn new() -> Sides {
        Sides([
            Comparison::new("call"),
            Comparison::of(burst_by_writes, library_with_ring, "call"),
            Comparison::of(burst_by_two, library_with_ring, "call"),
        ])
    }

    /// Gives what the model gave. Each burst is cut at another place.
    fn check(&mut self, state: State, call: Call) -> Observed {
        let Sides([model, singly, cut]) = self;
        let lent = Lent::new(0, model.totals.compared);
        let case = Case { state, lent, call };
        let seen = model.check(&case);
        singly.check(&case);
        let pairs = case.call.pairs();
        if burst_is_allowed(pairs) && pairs[0].len() > 1 {
            cut.check(&case);
        }
        seen
    }

    /// A burst with this number and so many pairs written. It never has a value, and without a pair
    /// written the state is as handed in.
    fn expect(&mut self, state: State, call: Call, number: u32, written: usize) -> Observed {
        let seen = self.check(state, call);
        let answer = seen.outcome.answer;
        let given = (answer.number, answer.value, answer.count as usize);
        assert_eq!(given, (number, 0, written));
        if matches!(number, 4 | 11) {
            assert_eq!(seen.outcome.state, state);
        } else if written == 0 {
            assert_eq!(seen.outcome.state, normalized(&state));
        }
        seen
    }

    /// Prints the line of a test, and after the last one those of all.
    fn done(&self, test: &str) {
        let Sides([model, _, cut]) = self;
        let totals = &model.totals;
        let twice = grouped(cut.totals.compared);
        println!("{test}: {}; {twice} cut in two", totals.calls_line());
        if let Some(all) = ALL.add(totals) {
            println!("all bursts: {}", all.calls_line());
            println!("among them: {}", all.bursts.tally.line());
            all.bursts.tally.expect(100);
            all.expect_numbers("write_registers", &[0, 4, 5, 10, 11], 2_000);
            all.expect_misaligned("write_registers", 500);
            all.expect_mirrors("write_registers", 10_000);
        }
    }
}

/// Lengths that are equal or differ by one, and some that are much longer or differ by more; some
/// of these are 0 or 64 in fewer bits.
fn lengths_to_try() -> Vec<(usize, usize)> {
    let beside = |n: usize| [(n, n), (n + 1, n), (n, n + 1)];
    let far = [1, 63, 65, 128, 256, 320, 65_536, 65_600];
    let apart = |n: usize| [(n, n), (0, n), (n, 0), (64, n), (n, 64)];
    let apart = far.into_iter().flat_map(apart);
    (0..=66).flat_map(beside).chain(apart).collect()
}

/// A burst with so many addresses and so many values, all of them good.
fn of_lengths(random: &mut Random, lengths: (usize, usize)) -> Call {
    let pairs = good_pairs(random, lengths.0.max(lengths.1), RDRAM);
    let mut call = burst(&pairs);
    if let Call::WriteRegisters { addresses, values } = &mut call {
        addresses.truncate(lengths.0);
        values.truncate(lengths.1);
    }
    call
}

/// Puts an address that is refused by this number in the first place, if there is one.
fn spoil(random: &mut Random, call: &mut Call, number: u32) {
    if let Call::WriteRegisters { addresses, .. } = call {
        let bad = refused_by(random, number);
        addresses.iter_mut().take(1).for_each(|first| *first = bad);
    }
}

/// Of sound and unsound states, with good addresses alone and with a bad one first.
#[test]
fn lengths() {
    let mut random = random_of_test(101);
    let mut sides = Sides::new();
    for lengths in lengths_to_try() {
        for round in 0..6 {
            let (state, is_sound) = match round % 2 {
                0 => (sound(&mut random, RDRAM), true),
                _ => (unsound(&mut random, RDRAM), false),
            };
            let bad = [0, 10, 5][round / 2];
            let mut call = of_lengths(&mut random, lengths);
            if bad > 0 {
                spoil(&mut random, &mut call, bad);
            }
            let (addresses, values) = lengths;
            let (number, written) = match bad {
                _ if addresses != values || addresses > 64 => (11, 0),
                _ if !is_sound => (4, 0),
                5 | 10 if addresses > 0 => (bad, 0),
                _ => (0, addresses),
            };
            sides.expect(state, call, number, written);
        }
    }
    sides.done("lengths");
}

/// The first, each in the middle and the last, by either number. The pairs before it are written,
/// and none behind it.
#[test]
fn a_bad_pair_at_each_place() {
    let mut random = random_of_test(102);
    let mut sides = Sides::new();
    let mut changed = 0;
    for length in [1, 2, 3, 8, 63, 64] {
        for place in 0..length {
            for round in 0..10 {
                let number = [10, 5][round % 2];
                let state = sound(&mut random, RDRAM);
                let mut pairs = good_pairs(&mut random, length, RDRAM);
                pairs[place].0 = refused_by(&mut random, number);
                let seen = sides.expect(state, burst(&pairs), number, place);
                changed += u32::from(seen.outcome.state != normalized(&state));
                // The same pairs without it are all written.
                pairs.remove(place);
                sides.expect(state, burst(&pairs), 0, length - 1);
            }
        }
    }
    assert!(changed >= 1_000, "{changed} kept what was written before");
    sides.done("a bad pair at each place");
}

/// Each two places of short bursts, and some of the longest.
fn two_places() -> Vec<(usize, [usize; 2])> {
    let of_length = |length: usize| {
        let step = if length == LONGEST_BURST { 9 } else { 1 };
        let places = move || (0..length).step_by(step);
        let both = move |first| places().map(move |second| (length, [first, second]));
        places().flat_map(both)
    };
    let all = [2, 3, 4, 5, 8, LONGEST_BURST]
        .into_iter()
        .flat_map(of_length);
    all.filter(|(_, [first, second])| first < second).collect()
}

/// The first decides, by whichever number.
#[test]
fn two_bad_pairs() {
    let mut random = random_of_test(103);
    let mut sides = Sides::new();
    for (length, places) in two_places() {
        for round in 0..16 {
            let numbers = [[10, 5], [5, 10], [10, 10], [5, 5]][round % 4];
            let state = sound(&mut random, RDRAM);
            let mut pairs = good_pairs(&mut random, length, RDRAM);
            for (place, number) in places.into_iter().zip(numbers) {
                pairs[place].0 = refused_by(&mut random, number);
            }
            sides.expect(state, burst(&pairs), numbers[0], places[0]);
        }
    }
    sides.done("two bad pairs");
}

/// Writes that show what came before them.
const WRITES: [Pair; 20] = [
    (SP_SPADDR, 0x1010),
    (SP_SPADDR, 0x20),
    (SP_RAMADDR, 0x2000),
    (SP_RAMADDR, 0x40),
    (SP_RDLEN, 0x0F),
    (SP_RDLEN, 0x0080_1017),
    (SP_WRLEN, 0x07),
    (SP_WRLEN, 0x0100_201F),
    (SP_STATUS, 0x01),
    (SP_STATUS, 0x02),
    (SP_SEMAPHORE, 0),
    (DP_START, 0x2000),
    (DP_START, 0x3000),
    (DP_END, 0x2018),
    (DP_END, 0x3008),
    (DP_STATUS, 0x08),
    (DP_STATUS, 0x04),
    (DP_STATUS, 0x20),
    (DP_STATUS, 0x10),
    (DP_STATUS, 0x3C0),
];

/// A burst, and whether the model gives another state for its pairs in reverse.
fn check_order(sides: &mut Sides, state: State, mut pairs: Vec<Pair>) -> bool {
    let seen = sides.expect(state, burst(&pairs), 0, pairs.len());
    pairs.reverse();
    let (lent, call) = (Lent::new(0, 0), burst(&pairs));
    let reversed = model(&Case { state, lent, call });
    reversed.outcome.state != seen.outcome.state
}

/// Each three of those writes in each order, from power-up and from any state.
#[test]
fn writes_in_order() {
    let mut random = random_of_test(104);
    let mut sides = Sides::new();
    let mut shown = 0;
    for first in WRITES {
        for second in WRITES {
            for third in WRITES {
                for state in [ofersky::power_up(), sound(&mut random, RDRAM)] {
                    let pairs = vec![first, second, third];
                    shown += u32::from(check_order(&mut sides, state, pairs));
                }
            }
        }
    }
    println!("writes in order: {shown} are other ones in reverse");
    assert!(shown >= 3_000);
    sides.done("writes in order");
}

/// Each register twice, with other pairs before, between and behind; then SEMAPHORE, which no value
/// changes.
#[test]
fn registers_twice() {
    let mut random = random_of_test(105);
    let mut sides = Sides::new();
    let ordered = [
        SP_SPADDR, SP_RAMADDR, SP_RDLEN, SP_WRLEN, SP_STATUS, DP_START, DP_END, DP_STATUS,
    ];
    for register in ordered {
        let mut shown = 0;
        for _ in 0..300 {
            let mut pair = || {
                // A few low bits are flags of a status.
                let value = match random.once_in(2) {
                    true => random.next_u32() & 0x3F,
                    false => value_for(&mut random, register, RDRAM),
                };
                (in_any_copy(&mut random, register), value)
            };
            let twice = vec![pair(), pair()];
            let state = sound(&mut random, RDRAM);
            sides.check(state, burst(&among_others(&mut random, &twice)));
            shown += u32::from(check_order(&mut sides, state, twice));
        }
        assert!(shown >= 30, "{register:08X}: {shown} show their order");
    }
    for round in 0..300 {
        let mut state = sound(&mut random, RDRAM);
        state.sp.semaphore = 1;
        let twice = [0, 1].map(|_| (SP_SEMAPHORE, register_value(&mut random)));
        let pairs = match round % 2 {
            0 => twice.to_vec(),
            _ => among_others(&mut random, &twice),
        };
        let seen = sides.expect(state, burst(&pairs), 0, pairs.len());
        assert_eq!(seen.outcome.state.sp.semaphore, 0);
    }
    sides.done("registers twice");
}

/// These pairs with good ones before, between and behind them.
fn among_others(random: &mut Random, pairs: &[Pair]) -> Vec<Pair> {
    let before = random.index(4);
    let mut all = good_pairs(random, before, RDRAM);
    for pair in pairs {
        all.push(*pair);
        let others = random.index(4);
        all.extend(good_pairs(random, others, RDRAM));
    }
    all
}

/// Each broken clause, and each byte that is no flag in each flag, with bursts of each kind: 4
/// comes before the numbers of pairs, and 11 before 4.
#[test]
fn unsound_states() {
    let mut random = random_of_test(106);
    let mut sides = Sides::new();
    for clause in BREAKS {
        for _ in 0..10 {
            let mut state = sound(&mut random, RDRAM);
            break_clause(&mut random, &mut state, clause);
            refused_bursts(&mut sides, &mut random, state);
        }
    }
    for name in FLAGS {
        for byte in 2..256 {
            let mut state = sound(&mut random, RDRAM);
            (field(name).set)(&mut state, byte);
            let length = random.index(4);
            let pairs = good_pairs(&mut random, length, RDRAM);
            sides.expect(state, burst(&pairs), 4, 0);
            if byte % 32 == 2 {
                refused_bursts(&mut sides, &mut random, state);
            }
        }
    }
    sides.done("unsound states");
}

/// Bursts of each kind on a state that is not sound.
fn refused_bursts(sides: &mut Sides, random: &mut Random, state: State) {
    for length in [0, 1, 63, 64, 65] {
        let number = if length > 64 { 11 } else { 4 };
        let mut pairs = good_pairs(random, length, RDRAM);
        sides.expect(state, burst(&pairs), number, 0);
        for with_address in [false, true] {
            let mut call = burst(&pairs);
            lengthen(&mut call, with_address);
            sides.expect(state, call, 11, 0);
        }
        for place in [0, length / 2, length.saturating_sub(1)] {
            for bad in [10, 5] {
                if let Some(pair) = pairs.get_mut(place) {
                    pair.0 = refused_by(random, bad);
                    sides.expect(state, burst(&pairs), number, 0);
                }
            }
        }
    }
}

/// They succeed, count and change nothing, alone and before a pair that is refused.
#[test]
fn read_only_registers() {
    let mut random = random_of_test(107);
    let mut sides = Sides::new();
    for round in 0..500 {
        let state = sound(&mut random, RDRAM);
        let mut pairs: Vec<Pair> = (0..1 + random.index(40))
            .map(|_| {
                let register = random.pick(&READ_ONLY);
                let address = in_any_copy(&mut random, register);
                (address, register_value(&mut random))
            })
            .collect();
        let all = pairs.len();
        let seen = sides.expect(state, burst(&pairs), 0, all);
        assert_eq!(seen.outcome.state, normalized(&state));
        let number = [10, 5][round % 2];
        pairs.push((refused_by(&mut random, number), 0));
        pairs.push((register(&mut random), register_value(&mut random)));
        let seen = sides.expect(state, burst(&pairs), number, all);
        assert_eq!(seen.outcome.state, normalized(&state));
    }
    sides.done("read-only registers");
}

/// One after the other, each on what the last one left, wherever it stopped; at times on a state
/// that is not sound.
#[test]
fn any_bursts() {
    let mut random = random_of_test(108);
    let mut sides = Sides::new();
    for walk in 0..800 {
        let mut state = match walk % 2 {
            0 => ofersky::power_up(),
            _ => sound(&mut random, RDRAM),
        };
        for _ in 0..20 {
            let call = any_burst(&mut random, RDRAM);
            if random.once_in(8) {
                sides.check(unsound(&mut random, RDRAM), call.clone());
            }
            let seen = sides.check(state, call);
            assert_ne!(seen.number(), 4, "bursts keep a sound state sound");
            // The queue's words go on from other slots.
            state = rotated(&seen.outcome.state, &mut random);
        }
        assert!(ofersky::is_sound(state));
    }
    sides.done("any bursts");
}
