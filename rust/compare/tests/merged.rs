//! Runs of the SP, the DP and the consumer, by the library and by the model: any, every small one,
//! those in which the SP acts alone, and the library against its own single turns. And series of
//! such turns: what the order does to them.

use compare::cases::calls::run_of;
use compare::cases::lengths::{good_lengths, odd_lengths};
use compare::cases::rows::{busy, wait, Edges};
use compare::cases::seed::random_of_test;
use compare::cases::states::{both_busy, sound};
use compare::cases::turns::any_turns;
use compare::cases::unsound_states::{break_clause, BREAKS};
use compare::comparison::Comparison;
use compare::coverage::shared_bytes::shares;
use compare::coverage::totals::{Sum, Totals};
use compare::data::call::{Call, Case};
use compare::data::memory::{Lent, BANK_WORDS};
use compare::data::words_left::sp_left;
use compare::sides::composed_calls::run_by_turns;
use compare::sides::library::library_with_ring;
use compare::sides::series::{
    sp_turns_first, sync_full_before_the_last, words_to_consume, Series, Turn,
};
use ofersky::{SpState, State};
use random::Random;

/// What the six tests compared.
static ALL: Sum = Sum::of_tests(6);

/// Prints the lines of a test, and after the last one those of all.
fn done(test: &str, totals: &Totals) {
    println!("{test}: {}; {}", totals.calls_line(), totals.runs.line());
    assert_eq!(totals.runs.unforeseen, 0);
    if let Some(all) = ALL.add(totals) {
        println!("all runs: {}; {}", all.calls_line(), all.runs.line());
        assert!(all.compared >= 100_000);
    }
}

/// A run on a sound state, mostly one in which both engines have words left.
fn any_run(random: &mut Random) -> Case {
    let lent = good_lengths(random);
    let state = match random.below(4) {
        0 => sound(random, lent.rdram),
        _ => both_busy(random, lent.rdram),
    };
    let call = run_of(random, &state);
    Case { state, lent, call }
}

#[test]
fn any_runs() {
    let mut random = random_of_test(71);
    let mut comparison = Comparison::new("call");
    for _ in 0..40_000 {
        comparison.check(&any_run(&mut random));
    }
    let totals = &comparison.totals;
    totals.runs.expect(200);
    done("any runs", totals);
}

/// A transfer of four words that writes this many words after the place where a list of four
/// begins, or before it; and so many words queued.
fn four_words_each(after: i32, xbus: bool, queued: u8) -> State {
    let mut state = ofersky::power_up();
    let place = 0x100u32.wrapping_add_signed(8 * after);
    let State { sp, dp, queue } = &mut state;
    (sp.busy, sp.len, sp.row_len) = (1, 0x18, 0x18);
    (sp.sp_addr, sp.ram_addr) = (place, place);
    (sp.storing, dp.xbus) = (u8::from(!xbus), u8::from(xbus));
    // With XBUS the list stands above DMEM and is read there.
    dp.current = if xbus { 0x3100 } else { 0x100 };
    dp.limit = dp.current + 0x20;
    // The oldest words stand in the last slots. Each third one is a SYNC_FULL.
    (dp.queued, dp.head) = (queued, 30);
    for (i, word) in (0..).zip(queue) {
        *word = if i % 3 == 0 { 0x29 << 56 | i } else { i };
    }
    state
}

/// Each of these budgets with each of the others.
fn small_budgets() -> Vec<[u32; 3]> {
    let mut budgets = Vec::new();
    for sp in [0, 1, 3, u32::MAX] {
        for dp in [0, 1, 2, 4, u32::MAX] {
            budgets.extend([0, 1, 3, 4, u32::MAX].map(|consumer| [sp, dp, consumer]));
        }
    }
    budgets
}

#[test]
fn every_small_run() {
    let mut comparison = Comparison::new("call");
    let shapes = (-5..=5).flat_map(|after| [(after, false), (after, true)]);
    for (fill, (after, xbus)) in (1..).zip(shapes) {
        let lent = Lent::new(0x200, fill);
        for (queued, outs) in [(0, 0..=40), (2, 0..=7), (30, 16..=16), (32, 32..=40)] {
            let state = four_words_each(after, xbus, queued);
            for budgets in small_budgets() {
                // Every rest of a word once, and room for all of them.
                for out in outs.clone().step_by(5).chain([512]) {
                    let call = Call::Run { budgets, out };
                    comparison.check(&Case { state, lent, call });
                }
            }
        }
    }
    let totals = &comparison.totals;
    let runs = &totals.runs;
    assert!(runs.apart >= 4_000 && runs.shared >= 10_000 && runs.decided >= 2_000);
    done("every small run", totals);
}

#[test]
fn runs_of_single_turns() {
    let mut random = random_of_test(72);
    // The ring is compared too, slot by slot.
    let mut comparison = Comparison::of(run_by_turns, library_with_ring, "call");
    for _ in 0..20_000 {
        comparison.check(&any_run(&mut random));
    }
    comparison.totals.runs.expect(100);
    done("runs of single turns", &comparison.totals);
}

/// A run against the model, and against single turns of the library with the ring slot by slot.
struct Sides([Comparison; 2]);

impl Sides {
    fn new() -> Sides {
        Sides([
            Comparison::new("call"),
            Comparison::of(run_by_turns, library_with_ring, "call"),
        ])
    }

    fn check(&mut self, case: &Case) {
        self.0.iter_mut().for_each(|side| {
            side.check(case);
        });
    }

    fn done(&self, test: &str, least: u64) {
        let totals = &self.0[0].totals;
        println!("{test}, the SP's rows: {}", totals.rows.runs.line());
        totals.rows.runs.expect(least);
        done(test, totals);
    }
}

/// A way in which the SP comes to act alone, at the outset or after some rounds: the words of the
/// list and those queued, FREEZE, the budgets of the DP and the consumer, and the length of the
/// output.
type Way = (u32, u8, u8, [u32; 2], usize);

const WAYS: [Way; 10] = [
    // No list and nothing queued; no budgets; FREEZE; a full queue without room, and one without a
    // budget.
    (0, 0, 0, [u32::MAX, u32::MAX], 64),
    (40, 5, 0, [0, 0], 64),
    (40, 5, 1, [u32::MAX, u32::MAX], 64),
    (40, 32, 0, [u32::MAX, u32::MAX], 7),
    (40, 32, 0, [u32::MAX, 0], 64),
    // A short list that is consumed, and one that stays queued; words queued before.
    (3, 0, 0, [u32::MAX, u32::MAX], 64),
    (3, 0, 0, [u32::MAX, 0], 64),
    (0, 2, 0, [0, u32::MAX], 64),
    // A full queue that lets one word in, after one was consumed: then the budget or the room is
    // used.
    (40, 32, 0, [u32::MAX, 1], 64),
    (40, 32, 0, [u32::MAX, u32::MAX], 15),
];

/// A run of this engine with this budget. The list stands in the memory that the SP writes, at the
/// third of its words, so that it is fetched before them.
fn beside(way: Way, sp: SpState, budget: u32) -> (State, Call) {
    let (list, queued, freeze, [fetch, consume], out) = way;
    let mut state = four_words_each(0, sp.storing == 0, queued);
    state.sp = sp;
    state.dp.freeze = freeze;
    let third = match sp.storing {
        0 => sp.sp_addr % 0x1000 + 0x10,
        _ => sp.ram_addr + 0x10,
    };
    // A list does not go round at the top of RDRAM.
    state.dp.current = if third < 0xFF_0000 { third } else { 0 };
    state.dp.limit = state.dp.current + 8 * list;
    let budgets = [budget, fetch, consume];
    (state, Call::Run { budgets, out })
}

/// The budgets that end within a row, with it, some words after it, with the next row and with all
/// that is left, or beside these.
fn sp_budgets(sp: &SpState) -> Vec<u32> {
    let (words, row) = (sp.len / 8 + 1, sp.row_len / 8 + 1);
    let state = State {
        sp: *sp,
        ..State::default()
    };
    let left = sp_left(&state) as u32;
    // Of a long row, those about its parts and its edges.
    let parts = [2, 3, 4].map(|part| words / part);
    let ends = [&[1, 8, 16, 64, 128, words * 2 / 3, words], &parts[..]].concat();
    let mut budgets: Vec<u32> = match words {
        1..=64 => (0..=words + 3).collect(),
        _ => ends.iter().flat_map(|end| end - 1..=end + 1).collect(),
    };
    budgets.extend([words + row - 1, words + row, words + row + 1]);
    budgets.extend([left - 1, left, left + 1, u32::MAX]);
    budgets
}

/// None, and each with the others: the bank, the top of RDRAM and the lent length, in two orders
/// where there is room for them.
fn some_edges(words: u32) -> Vec<Edges> {
    let inside = |word: u32| Some(word).filter(|word| (1..words).contains(word));
    let mut all = Vec::new();
    for bank in [None, inside(words / 2), inside(words / 4)] {
        for top in [None, inside(words / 3)] {
            for length in [None, inside(words * 2 / 3)] {
                let edges = Edges { bank, top, length };
                if edges.are_small() && !all.contains(&edges) {
                    all.push(edges);
                }
            }
        }
    }
    all
}

/// What comes after a row: more rows, or a transfer that waits, in either direction; or nothing.
const ENDS: [(u32, Option<u8>); 4] = [(0, None), (0, Some(0)), (2, None), (1, Some(1))];

/// Rows of these lengths, whole and half moved, at the edges, in both directions and banks.
fn rows_for_runs() -> Vec<(SpState, usize)> {
    let mut rows = Vec::new();
    for row in [1, 2, 8, 15, 16, 17, 64, BANK_WORDS] {
        for moved in [0, row / 2] {
            let words = row - moved;
            for edges in some_edges(words) {
                for (i, (count, waiting)) in ENDS.into_iter().enumerate() {
                    for storing in [0, 1] {
                        let mut sp = busy(words, moved, count, storing);
                        sp.sp_addr = u32::from(storing ^ i as u8 & 1) << 12;
                        wait(&mut sp, waiting);
                        let rdram = edges.place(&mut sp, words);
                        rows.push((sp, rdram));
                    }
                }
            }
        }
    }
    rows
}

/// With the longest RDRAM, and with one that is three words shorter: both wrap at the top after the
/// fourth word. These are few, because each takes long.
fn longest_rdram(sides: &mut Sides) {
    for (budget, length) in [(3, 4), (5, 4), (u32::MAX, 4), (5, 1), (u32::MAX, 1)] {
        let edges = Edges {
            bank: Some(6),
            top: Some(4),
            length: Some(length),
        };
        for storing in [0, 1] {
            let mut sp = busy(16, 0, 1, storing);
            let rdram = edges.place(&mut sp, 16);
            let (state, call) = beside(WAYS[0], sp, budget);
            let lent = Lent::new(rdram, 5);
            sides.check(&Case { state, lent, call });
        }
    }
}

/// Every budget about a row's end, in each of the ways in turn.
#[test]
fn runs_of_the_sp_alone() {
    let mut sides = Sides::new();
    let mut ways = WAYS.into_iter().cycle();
    for (sp, rdram) in rows_for_runs() {
        for (budget, way) in sp_budgets(&sp).into_iter().zip(&mut ways) {
            let (state, call) = beside(way, sp, budget);
            let lent = Lent::new(rdram, 1 + u64::from(sp.ram_addr / 8 + sp.sp_addr));
            sides.check(&Case { state, lent, call });
        }
    }
    longest_rdram(&mut sides);
    sides.done("runs of the SP alone", 100);
}

/// Any rows, at edges in any order.
#[test]
fn any_runs_of_the_sp_alone() {
    let mut random = random_of_test(76);
    let mut sides = Sides::new();
    for _ in 0..4_000 {
        let most = random.pick(&[4, 20, 20, 200, 512]);
        let words = 1 + random.below(most);
        let edge = |random: &mut Random| {
            let word = random.below(words + 4);
            Some(word).filter(|word| (1..words).contains(word))
        };
        let [bank, top, length] = [(); 3].map(|_| edge(&mut random));
        let length = length.filter(|length| top < Some(*length));
        let moved = random.below(BANK_WORDS - words + 1);
        let moved = moved.min(random.pick(&[0, 0, 9, 512]));
        let mut sp = busy(words, moved, random.below(3), random.flag());
        sp.sp_addr = random.next_u32() & 0x1000;
        let waiting = random.pick(&[None, None, Some(0), Some(1)]);
        wait(&mut sp, waiting);
        let mut rdram = Edges { bank, top, length }.place(&mut sp, words);
        if random.once_in(8) {
            rdram = 0;
        }
        let budget = random.pick(&sp_budgets(&sp));
        let (state, call) = beside(random.pick(&WAYS), sp, budget);
        let lent = Lent::new(rdram, u64::from(1 + random.below(1 << 16)));
        sides.check(&Case { state, lent, call });
    }
    sides.done("any runs of the SP alone", 20);
}

/// Every number in its order, also where a budget is 0; the words that would be consumed, and the
/// memories, stay as they were.
#[test]
fn refused_runs() {
    let mut random = random_of_test(73);
    let mut comparison = Comparison::new("call");
    for round in 0..20_000 {
        let lent = if round % 3 == 0 {
            good_lengths(&mut random)
        } else {
            odd_lengths(&mut random)
        };
        let mut state = both_busy(&mut random, lent.rdram);
        if random.once_in(2) {
            let clause = random.pick(BREAKS);
            break_clause(&mut random, &mut state, clause);
        }
        let call = run_of(&mut random, &state);
        let case = Case { state, lent, call };
        let seen = comparison.check(&case);
        if seen.number() != 0 {
            assert!(seen.words == 0 && seen.bytes[3] == case.call.output());
        }
    }
    let totals = &comparison.totals;
    totals.expect_numbers("run", &[0, 1, 2, 3, 4], 1_000);
    done("refused runs", totals);
}

/// Series of turns from states in which the lists have some words, and what was seen of them.
#[derive(Clone, Copy, Debug, Default)]
struct Orders {
    /// The SP had no byte to write that the lists had yet to fetch; or it had some.
    apart: u64,
    shared: u64,
    /// Another order gave or left something else: by bytes that are shared.
    decided: u64,
    /// And by PIPE_BUSY alone, where a SYNC_FULL stands before the last word.
    decided_pipe: u64,
    /// A SYNC_FULL stands before the last word.
    sync_before: u64,
    /// Series that did not end with everything consumed.
    undrained: u64,
    /// Words that were queued at the outset were consumed.
    queued: u64,
    declined: u64,
    /// Rows that moved words were among the turns.
    rows: u64,
}

impl Orders {
    /// Each was seen at least so often.
    fn expect(&self, least: u64, counts: &[u64]) {
        assert!(counts.iter().all(|seen| *seen >= least), "{self:?}");
    }
}

/// Did a row among the turns move words?
fn rows_moved(turns: &[Turn], series: &Series) -> bool {
    let sp_turns = turns.iter().filter(|turn| turn.is_sp());
    let mut answers = sp_turns.zip(&series.answers[0]);
    answers.any(|(turn, answer)| *turn == Turn::Row && answer.count > 0)
}

/// A state for a series: both engines have words left, but no list is longer than a series can
/// fetch.
fn outset(random: &mut Random, rdram: usize) -> State {
    let mut state = both_busy(random, rdram);
    let dp = &mut state.dp;
    dp.end = dp.end.min(dp.start + 8 * random.below(60));
    state
}

/// For every series, drained or not, with FREEZE or without: the same turns with the SP's first
/// give the same answers, memories and end state, ring included, where no byte is shared.
#[test]
fn sp_turns_moved_to_the_front() {
    let mut random = random_of_test(74);
    let mut orders = Orders::default();
    for _ in 0..5_000 {
        let lent = good_lengths(&mut random);
        let state = outset(&mut random, lent.rdram);
        let turns = any_turns(&mut random, 30);
        let series = Series::of(state, lent.bytes(), &turns);
        let other = Series::of(state, lent.bytes(), &sp_turns_first(&turns));
        let shares = shares(&state, lent.rdram);
        let decided = series != other;
        assert!(shares || !decided, "{state:?} {turns:?}");
        let consumed = series.consumed().len();
        orders.apart += u64::from(!shares && consumed > 0);
        orders.shared += u64::from(shares && consumed > 0);
        orders.decided += u64::from(decided);
        orders.undrained += u64::from(!series.is_drained() && consumed > 0);
        orders.queued += u64::from(consumed > 0 && state.dp.queued > 0);
        orders.declined += u64::from(turns.contains(&Turn::DeclinedSp));
        orders.rows += u64::from(!shares && consumed > 0 && rows_moved(&turns, &series));
    }
    println!("series with the SP's turns moved to the front: {orders:?}");
    orders.expect(300, &[orders.apart, orders.shared, orders.decided]);
    orders.expect(300, &[orders.undrained, orders.queued, orders.declined]);
    orders.expect(100, &[orders.rows]);
}

/// These SP turns with any others between them, and then turns until nothing is left to fetch or
/// consume.
fn drained(random: &mut Random, state: State, lent: &Lent, sp_turns: &[Turn]) -> Series {
    let mut series = Series::of(state, lent.bytes(), &[]);
    for turn in sp_turns {
        if random.once_in(3) {
            let between = any_turns(random, 3);
            let others = between.into_iter().filter(|turn| !turn.is_sp());
            others.for_each(|turn| series.take(turn));
        }
        series.take(*turn);
    }
    series.drain(random);
    series
}

/// What two series must have in common, beside the words: SP answers, memories and the end state.
/// PIPE_BUSY is left out if it may differ.
fn in_common(mut series: Series, pipe_counts: bool) -> Series {
    if !pipe_counts {
        series.state.dp.pipe_busy = 0;
    }
    let [sp, ..] = series.answers;
    series.answers = [sp, Vec::new(), Vec::new()];
    series
}

/// Two drained series from one outset, with the same SP turns.
struct Pair {
    state: State,
    lent: Lent,
    sp_turns: Vec<Turn>,
    series: [Series; 2],
}

impl Pair {
    fn new(random: &mut Random) -> Pair {
        let lent = good_lengths(random);
        let mut state = outset(random, lent.rdram);
        state.dp.freeze = 0;
        let mut sp_turns = any_turns(random, 20);
        sp_turns.retain(Turn::is_sp);
        let series = [(); 2].map(|_| drained(random, state, &lent, &sp_turns));
        Pair {
            state,
            lent,
            sp_turns,
            series,
        }
    }

    /// The two series and the run with as many SP turns agree, and consume the words of the outset.
    fn agrees(&self, words: &[u64], pipe_counts: bool) {
        let [one, other] = self.series.clone();
        assert_eq!(one.consumed(), words);
        assert_eq!(other.consumed(), words);
        let run = self.as_a_run(words);
        let [one, other, run] = [one, other, run].map(|series| in_common(series, pipe_counts));
        assert!(one == other && one == run, "{:?}", self.state);
    }

    /// A run that has room for all words.
    fn as_a_run(&self, words: &[u64]) -> Series {
        let [mut rdram, mut dmem, mut imem] = self.lent.bytes();
        let mut out = vec![0; 8 * words.len()];
        let answers = self.series[0].answers.clone();
        let taken = self.sp_turns.iter().zip(&answers[0]);
        let taken = taken.map(|(turn, answer)| match turn {
            Turn::Sp => 1,
            _ => answer.count,
        });
        let (sp, all) = (taken.sum(), u32::MAX);
        let (r, d, i) = (&mut rdram, &mut dmem, &mut imem);
        let ran = ofersky::run(self.state, sp, all, all, r, d, i, &mut out);
        let expected: Vec<u8> = words.iter().flat_map(|word| word.to_be_bytes()).collect();
        assert!(out == expected && ran.words as usize == words.len());
        // A run has one count for all its SP turns.
        let moved: u32 = answers[0].iter().map(|answer| answer.count).sum();
        assert_eq!(ran.outcome.answer.count, moved);
        Series {
            state: ran.outcome.state,
            memories: [rdram, dmem, imem],
            answers,
        }
    }
}

/// Demand 3: series that end with nothing left to fetch or consume.
#[test]
fn drained_series() {
    let mut random = random_of_test(75);
    let mut orders = Orders::default();
    for _ in 0..4_000 {
        let pair = Pair::new(&mut random);
        let (state, [one, other]) = (&pair.state, &pair.series);
        let words = words_to_consume(state, &pair.lent.bytes());
        let sync_before = sync_full_before_the_last(&words, state.dp.words_left);
        let shares = shares(state, pair.lent.rdram);
        if !shares {
            pair.agrees(&words, !sync_before);
        }
        let pipe_differs = one.state.dp.pipe_busy != other.state.dp.pipe_busy;
        let declined = pair.sp_turns.contains(&Turn::DeclinedSp);
        orders.apart += u64::from(!shares);
        orders.shared += u64::from(shares);
        orders.decided += u64::from(one.consumed() != other.consumed());
        orders.decided_pipe += u64::from(!shares && pipe_differs);
        orders.sync_before += u64::from(!shares && sync_before);
        orders.queued += u64::from(!shares && state.dp.queued > 0);
        orders.declined += u64::from(!shares && declined);
        orders.rows += u64::from(!shares && rows_moved(&pair.sp_turns, one));
    }
    println!("drained series: {orders:?}");
    orders.expect(150, &[orders.apart, orders.shared, orders.decided]);
    orders.expect(150, &[orders.sync_before, orders.queued, orders.declined]);
    orders.expect(100, &[orders.decided_pipe, orders.rows]);
}
