//! Rows in one call, by the library and by the model; and by the library's own single turns and its
//! own run, with the ring slot by slot.

use compare::cases::lengths::good_lengths;
use compare::cases::rows::{busy, wait, Edges};
use compare::cases::seed::random_of_test;
use compare::cases::states::sound;
use compare::cases::unsound_states::{break_clause, BREAKS};
use compare::comparison::Comparison;
use compare::coverage::totals::Sum;
use compare::data::call::{Call, Case};
use compare::data::memory::{Lent, BANK_WORDS, LONGEST_RDRAM};
use compare::data::words_left::row_words;
use compare::sides::composed_calls::{row_by_run, row_by_turns};
use compare::sides::library::library_with_ring;
use compare::sides::observed::{next_state, Observed};
use ofersky::{SpState, State};
use random::Random;

/// What the seven tests compared.
static ALL: Sum = Sum::of_tests(7);

/// A row of the library beside the model's, its own turns and its own run.
struct Sides([Comparison; 3]);

impl Sides {
    fn new() -> Sides {
        Sides([
            Comparison::new("call"),
            Comparison::of(row_by_turns, library_with_ring, "call"),
            Comparison::of(row_by_run, library_with_ring, "call"),
        ])
    }

    /// Gives what the model gave.
    fn check(&mut self, case: &Case) -> Observed {
        let Sides([model, turns, run]) = self;
        let seen = model.check(case);
        turns.check(case);
        run.check(case);
        seen
    }

    /// A row that is accepted: its words are all counted, and there is no value.
    fn accepted(&mut self, case: &Case) -> Observed {
        let seen = self.check(case);
        let answer = seen.outcome.answer;
        let given = (answer.number, answer.value, answer.count);
        assert_eq!(given, (0, 0, row_words(&case.state)));
        seen
    }

    /// Prints the line of a test, and after the last one those of all.
    fn done(&self, test: &str) {
        let totals = &self.0[0].totals;
        println!("{test}: {}", totals.calls_line());
        if let Some(all) = ALL.add(totals) {
            println!("all rows: {}", all.calls_line());
            println!("among them: {}", all.rows.calls.line());
            all.rows.calls.expect(100);
        }
    }
}

/// A row of this engine over filled memory. Words are queued, in the last slots and the first.
fn row(sp: SpState, rdram: usize) -> Case {
    let mut state = State {
        sp,
        ..ofersky::power_up()
    };
    (state.dp.queued, state.dp.head) = (3, 30);
    state.queue = std::array::from_fn(|i| 0x2700_0000_0000_0000 + i as u64);
    Case {
        state,
        lent: Lent::new(rdram, 1 + u64::from(sp.ram_addr / 8 + sp.sp_addr)),
        call: Call::SpRow,
    }
}

/// No edge, or one before each word of a row but the first.
fn edges_of(words: u32) -> impl Iterator<Item = Option<u32>> + Clone {
    (1..words).map(Some).chain([None])
}

/// A row that ends the transfer, with nothing that waits or with a transfer of either direction,
/// and one that has a row after it.
const ENDS: [(u32, Option<u8>); 5] = [
    (0, None),
    (0, Some(0)),
    (0, Some(1)),
    (2, None),
    (1, Some(1)),
];

/// A row of so many words at these edges in both banks and directions, before each end; whole, and
/// with two words moved already.
fn at_edges(sides: &mut Sides, words: u32, edges: Edges) {
    for (storing, bank) in [(0, 0), (0, 0x1000), (1, 0), (1, 0x1000)] {
        for (i, (count, waiting)) in (0..).zip(ENDS) {
            let mut sp = busy(words, i % 2 * 2, count, storing);
            sp.sp_addr = bank;
            wait(&mut sp, waiting);
            let rdram = edges.place(&mut sp, words);
            assert_eq!(edges_found(&sp, words, rdram), edges);
            sides.accepted(&row(sp, rdram));
        }
    }
}

/// The edges that the words of a row pass, by their addresses one by one.
fn edges_found(sp: &SpState, words: u32, rdram: usize) -> Edges {
    let address = |c: u32| (sp.ram_addr + 8 * c) % (1 << 24);
    let fits = |c: u32| (address(c) as usize) < rdram;
    let later = || 1..words;
    Edges {
        bank: later().find(|c| (sp.sp_addr + 8 * c) % 0x1000 == 0),
        top: later().find(|c| address(*c) == 0),
        length: later().find(|c| fits(c - 1) && !fits(*c)),
    }
}

/// Each edge before each word, with each place of the others: so every two and all three come in
/// each order, and together.
#[test]
fn edges_in_each_order() {
    let mut sides = Sides::new();
    for bank in edges_of(5) {
        for top in edges_of(5) {
            for length in edges_of(5) {
                let edges = Edges { bank, top, length };
                if edges.are_small() {
                    at_edges(&mut sides, 5, edges);
                }
            }
        }
    }
    let rows = &sides.0[0].totals.rows.calls;
    println!("edges in each order: {}", rows.line());
    sides.done("edges in each order");
}

/// The lent length just below the top of RDRAM, or there, with the end of the bank before, between,
/// at and after them. These are few, because each takes long.
#[test]
fn edges_of_the_longest_rdram() {
    let mut sides = Sides::new();
    let orders = [
        // The length before the top.
        (Some(1), Some(3), Some(2)),
        (Some(2), Some(3), Some(1)),
        (Some(4), Some(3), Some(1)),
        (None, Some(4), Some(1)),
        // The length at the top: every address is fitted.
        (Some(1), Some(2), Some(2)),
        (Some(2), Some(2), Some(2)),
        (Some(3), Some(2), Some(2)),
    ];
    for (i, (bank, top, length)) in (0..).zip(orders) {
        let edges = Edges { bank, top, length };
        assert!(!edges.are_small());
        for storing in [0, 1] {
            let mut sp = busy(5, 1, i % 2, storing);
            sp.sp_addr = u32::from(storing ^ (i % 2) as u8) << 12;
            let rdram = edges.place(&mut sp, 5);
            // At the top, the length is no edge: past it every address is fitted again.
            let found = edges_found(&sp, 5, rdram);
            assert_eq!((found.bank, found.top), (bank, top));
            assert_eq!(rdram == LONGEST_RDRAM, top == length);
            assert_eq!(found.length, length.filter(|_| top != length));
            sides.accepted(&row(sp, rdram));
        }
    }
    sides.done("edges of the longest RDRAM");
}

/// Every length of a row, with each edge halfway, and with no RDRAM at all.
#[test]
fn every_length() {
    let mut sides = Sides::new();
    for words in 1..=BANK_WORDS {
        for edge in 0..3 {
            let half = |number: u32| (edge == number && words > 1).then_some(words / 2);
            let edges = Edges {
                bank: half(0),
                top: half(1),
                length: half(2),
            };
            let mut sp = busy(words, 0, words % 3, (words + edge) as u8 & 1);
            sp.sp_addr = words << 9 & 0x1000;
            let rdram = edges.place(&mut sp, words);
            sides.accepted(&row(sp, rdram));
            sides.accepted(&row(sp, 0));
        }
    }
    sides.done("every length");
}

/// A row of 512 words goes once round the bank, from each offset.
#[test]
fn whole_banks_from_each_offset() {
    let mut sides = Sides::new();
    for offset in 0..BANK_WORDS {
        for storing in [0, 1] {
            let mut sp = busy(BANK_WORDS, 0, offset % 2, storing);
            let length = (offset % 3 == 0).then_some(511 - offset);
            let top = (offset % 4 == 1).then_some(300);
            let edges = Edges {
                bank: Some(BANK_WORDS - offset).filter(|_| offset > 0),
                top,
                length: length.filter(|_| top.is_none()),
            };
            sp.sp_addr = u32::from(storing) << 12;
            let rdram = edges.place(&mut sp, BANK_WORDS);
            sides.accepted(&row(sp, rdram));
        }
    }
    sides.done("whole banks from each offset");
}

/// A transfer as its registers start it, and one that waits.
fn started(random: &mut Random, words: u32) -> State {
    let mut state = ofersky::power_up();
    let [first, second] =
        [0x0404_0008, 0x0404_000C].map(|register| register ^ random.next_u32() & 4);
    let near_end = |random: &mut Random| 0x1000 - 8 * random.below(40);
    let writes = [
        (0x0404_0000, near_end(random) | random.next_u32() & 0x1000),
        (0x0404_0004, near_end(random)),
        (first, 0x0180_2000 | (8 * words - 1)),
        (0x0404_0000, near_end(random)),
        (0x0404_0004, 0u32.wrapping_sub(8 * random.below(40))),
        (second, 0x0080_1000 | (8 * words - 1)),
    ];
    for (address, value) in writes {
        let written = ofersky::write_register(state, address, value);
        assert_eq!(written.answer.number, 0);
        state = written.state;
    }
    state
}

/// After each number of turns from none to all words of a row, rows up to the end of both
/// transfers, and two more.
#[test]
fn rows_begun_in_their_middle() {
    let mut random = random_of_test(91);
    let mut sides = Sides::new();
    let mut middle = 0;
    for words in [1, 2, 3, 8, 16, 17, 40] {
        for turns in 0..=words {
            let lent = Lent::new(
                4_096 - 8 * random.index(40),
                u64::from(1 + random.below(1 << 16)),
            );
            let mut state = started(&mut random, words);
            let [mut rdram, mut dmem, mut imem] = lent.bytes();
            for _ in 0..turns {
                let turn = ofersky::sp_turn(state, &mut rdram, &mut dmem, &mut imem);
                state = turn.state;
            }
            middle += u32::from(state.sp.len < state.sp.row_len);
            // Three rows and two, of which the first may be moved already.
            let rows = if turns == words { 4 } else { 5 };
            for i in 0..rows + 2 {
                assert_eq!(state.sp.busy == 1, i < rows);
                let call = Call::SpRow;
                let case = Case { state, lent, call };
                let seen = sides.accepted(&case);
                state = next_state(&case, &seen);
            }
        }
    }
    assert!(middle >= 70);
    sides.done("rows begun in their middle");
}

#[test]
fn any_rows() {
    let mut random = random_of_test(92);
    let mut sides = Sides::new();
    for _ in 0..8_000 {
        let lent = good_lengths(&mut random);
        let mut state = sound(&mut random, lent.rdram);
        // Most are busy, which must then be sound.
        if state.sp.len <= state.sp.row_len && !random.once_in(4) {
            state.sp.busy = 1;
        }
        let call = Call::SpRow;
        let seen = sides.accepted(&Case { state, lent, call });
        if state.sp.busy == 0 {
            assert_eq!(seen.outcome.state.sp, state.sp);
            assert_eq!(seen.bytes[..3], lent.bytes());
        }
    }
    sides.done("any rows");
}

/// Each wrong length and each broken clause alone and before each later one, busy or idle. Nothing
/// is left changed.
#[test]
fn refused_rows() {
    let mut random = random_of_test(93);
    let mut sides = Sides::new();
    for round in 0..6_400 {
        let wrong = |bit: u32| round >> bit & 1 == 1;
        let mut lent = good_lengths(&mut random);
        let bad_bank = [0, 8, 4_088, 4_095, 4_097, 8_192];
        if wrong(0) {
            lent.rdram = random.pick(&[1, 4, 7, 9, 4_095, 4_097, 32_764]);
        }
        if wrong(1) {
            lent.dmem = random.pick(&bad_bank);
        }
        if wrong(2) {
            lent.imem = random.pick(&bad_bank);
        }
        let mut state = sound(&mut random, lent.rdram);
        if wrong(3) {
            let clause = random.pick(BREAKS);
            break_clause(&mut random, &mut state, clause);
        }
        let call = Call::SpRow;
        let seen = sides.check(&Case { state, lent, call });
        let number = (0..4).find(|bit| wrong(*bit)).map_or(0, |bit| bit + 1);
        assert_eq!(seen.number(), number);
        if number != 0 {
            assert_eq!((seen.outcome.state, seen.outcome.answer.count), (state, 0));
            assert_eq!(seen.bytes[..3], lent.bytes());
        }
    }
    let totals = &sides.0[0].totals;
    totals.expect_numbers("sp_row", &[0, 1, 2, 3, 4], 400);
    sides.done("refused rows");
}
