//! Demand 3 for series of SP turns, fetches and consumer turns, on random
//! outsets: where no byte that the SP has yet to write is one that the DP has yet
//! to fetch, the order of the turns does not matter.

mod common;

use common::*;
use model::calls::*;
use std::collections::HashSet;

/// A turn. A declined one is handed a bank that is too short.
#[derive(Clone, Copy, Debug, PartialEq, Eq)]
enum Turn {
    Sp,
    DeclinedSp,
    Dp,
    DeclinedDp,
    Consumer,
}

use Turn::{Consumer, DeclinedDp, DeclinedSp, Dp, Sp};

impl Turn {
    fn is_of_sp(self) -> bool {
        matches!(self, Sp | DeclinedSp)
    }
}

/// What the turns of the SP, of the DP and of the consumer gave, in their order.
#[derive(Debug, Default, PartialEq)]
struct Answers {
    sp: Vec<Answer>,
    dp: Vec<Answer>,
    consumer: Vec<Answer>,
}

/// Takes these turns one by one.
fn taken(bench: &mut Bench, turns: &[Turn]) -> Answers {
    let mut answers = Answers::default();
    for turn in turns {
        match turn {
            Sp => answers.sp.push(bench.sp_turn()),
            DeclinedSp => answers.sp.push(declined_sp_turn(bench)),
            Dp => answers.dp.push(bench.dp_turn()),
            DeclinedDp => answers.dp.push(declined_dp_turn(bench)),
            Consumer => answers.consumer.push(bench.consumer_turn()),
        }
    }
    answers
}

fn declined_sp_turn(bench: &mut Bench) -> Answer {
    let (rdram, dmem) = (&mut bench.rdram, &mut bench.dmem);
    let outcome = sp_turn(&bench.state, rdram, dmem, &mut bench.imem[1..]);
    assert_eq!(outcome, declined(&bench.state, 3));
    outcome.answer
}

fn declined_dp_turn(bench: &Bench) -> Answer {
    let outcome = dp_turn(&bench.state, &bench.rdram, &bench.dmem[1..]);
    assert_eq!(outcome, declined(&bench.state, 2));
    outcome.answer
}

/// The words that consumer turns handed out.
fn consumed(answers: &Answers) -> Vec<u64> {
    let words = answers.consumer.iter().filter(|answer| answer.count == 1);
    words.map(|answer| answer.value).collect()
}

/// A word of memory: RDRAM, DMEM or IMEM is 0, 1 or 2, then its address there.
type Place = (u8, usize);

/// Where the words stand that are yet to be fetched, and the words: first those
/// from CURRENT to below LIMIT, then with END_PENDING those from START to below
/// END. A word that is not fitted has no place.
fn yet_to_fetch(bench: &Bench) -> (HashSet<Place>, Vec<u64>) {
    let dp = &bench.state.dp;
    let mut addresses: Vec<u32> = (dp.current..dp.limit).step_by(8).collect();
    if dp.end_pending == 1 {
        addresses.extend((dp.start..dp.end).step_by(8));
    }
    let (mut places, mut words) = (HashSet::new(), Vec::new());
    for address in addresses {
        let (number, memory, offset) = match dp.xbus {
            1 => (1, &bench.dmem, address as usize % BANK),
            _ => (0, &bench.rdram, address as usize),
        };
        let word = memory.get(offset..offset + 8);
        let word = word.map(|bytes| u64::from_be_bytes(bytes.try_into().expect("8 bytes")));
        places.extend(word.map(|_| (number, offset)));
        words.push(word.unwrap_or(0));
    }
    (places, words)
}

/// Where the words of the SP are yet to be written, and how many it has yet to
/// move. A word that is not fitted has no place.
fn yet_to_write(bench: &Bench) -> (HashSet<Place>, u32) {
    let (mut places, mut words) = (HashSet::new(), 0);
    let mut ahead = bench.clone();
    while ahead.state.sp.busy == 1 {
        let sp = ahead.state.sp;
        let place = match (sp.storing, sp.sp_addr & 0x1000) {
            (1, _) => (0, sp.ram_addr as usize),
            (_, 0) => (1, sp.sp_addr as usize),
            _ => (2, sp.sp_addr as usize % BANK),
        };
        if place.0 != 0 || place.1 < ahead.rdram.len() {
            places.insert(place);
        }
        assert_eq!(ahead.sp_turn().count, 1);
        words += 1;
    }
    assert_eq!(words, words_left(&bench.state.sp));
    (places, words)
}

/// The rules' number of words that the SP has yet to move.
fn words_left(sp: &SpState) -> u32 {
    if sp.busy == 0 {
        return 0;
    }
    let waiting = sp.waiting_word;
    let of_waiting = ((waiting >> 12 & 0xFF) + 1) * ((waiting & 0xFF8) / 8 + 1);
    let running = sp.len / 8 + 1 + sp.count * (sp.row_len / 8 + 1);
    running + of_waiting * u32::from(sp.full)
}

/// A length word of a few short rows.
fn length_word(random: &mut Random) -> u32 {
    let few = random.number();
    (few & 0x38) << 20 | (few >> 8 & 3) << 12 | (few >> 16 & 0x38)
}

/// A sound state with both engines at work, or nearly so, over a small part of
/// the memories, so that what the SP writes is often near the lists. FREEZE and
/// FLUSH are off.
fn outset(random: &mut Random) -> Bench {
    let mut bench = Bench::running();
    loop {
        let mut state = random.sound_state();
        let State { sp, dp, .. } = &mut state;
        let near = random.number();
        (dp.freeze, dp.flush) = (0, 0);
        dp.current = 0xF000 + (near & 0x7F8);
        dp.limit = dp.current + 8 * (random.number() % 60);
        dp.start = 0xF800 + (random.number() & 0x7F8);
        dp.end = dp.start + 8 * (random.number() % 40);
        let word = length_word(random);
        (sp.row_len, sp.count, sp.skip) = (word & 0xFF8, word >> 12 & 0xFF, word >> 20);
        sp.len = sp.row_len / 8 * (random.number() % 2) * 8;
        sp.waiting_word = length_word(random);
        sp.ram_addr = 0xF000 + (random.number() & 0x17F8);
        sp.ram_latch = 0xF000 + (random.number() & 0xFF8);
        (sp.sp_addr, sp.sp_latch) = (random.number() & 0x1FF8, random.number() & 0x1FF8);
        if is_sound(&state) {
            bench.state = state;
            return bench;
        }
    }
}

/// Is nothing left to fetch or consume?
fn drained(state: &State) -> bool {
    state.queue.is_empty() && state.dp.current >= state.dp.limit
}

/// SP turns, some of them declined. There may be more than it has words.
fn turns_of_sp(random: &mut Random, words: u32) -> Vec<Turn> {
    let turns = random.number() % (words + 4);
    let turn = |number| if number % 8 == 0 { DeclinedSp } else { Sp };
    (0..turns).map(|_| turn(random.number())).collect()
}

/// A series with these SP turns that ends with nothing left to fetch or consume.
/// How often the other kinds have a turn is chosen once for it.
fn series_to_the_end(random: &mut Random, bench: &Bench, of_sp: &[Turn]) -> Vec<Turn> {
    let mut ahead = bench.clone();
    let mut turns = Vec::new();
    let mut of_sp = of_sp.iter().copied().peekable();
    let shares = [1 + random.number() % 8, 1 + random.number() % 8];
    while of_sp.peek().is_some() || !drained(&ahead.state) {
        let number = random.number() % (5 + shares[0] + shares[1]);
        let next = match number {
            0..4 => of_sp.next(),
            4 => Some(DeclinedDp),
            _ if number < 5 + shares[0] => Some(Dp),
            _ => Some(Consumer),
        };
        if let Some(turn) = next {
            taken(&mut ahead, &[turn]);
            turns.push(turn);
        }
    }
    turns
}

/// Does a SYNC_FULL stand before the last of these words, which are framed from
/// so many words left on?
fn sync_full_before_the_last(words: &[u64], words_left: u8) -> bool {
    let mut state = power_up();
    state.dp.words_left = words_left;
    let before = words.split_last().map_or(&[][..], |(_, before)| before);
    before.iter().any(|word| {
        state.queue = vec![*word];
        state.dp.line = 0;
        state = consumer_turn(&state).state;
        state.dp.line == 1
    })
}

/// Two series from one outset with the same SP turns, both to the end: same
/// memory, SP answers, consumed words and state. PIPE_BUSY is left out where a
/// SYNC_FULL stands before the last word. Gives whether it differed.
fn expect_same_end(random: &mut Random, bench: &Bench, of_sp: &[Turn]) -> bool {
    let mut words = bench.state.queue.clone();
    words.extend(yet_to_fetch(bench).1);
    let ends = [0, 1].map(|_| {
        let mut end = bench.clone();
        let turns = series_to_the_end(random, bench, of_sp);
        let answers = taken(&mut end, &turns);
        assert!(drained(&end.state));
        assert_eq!(consumed(&answers), words);
        (end, answers)
    });
    let [(mut first, first_answers), (second, second_answers)] = ends;
    assert_eq!(first_answers.sp, second_answers.sp);
    let differed = first.state.dp.pipe_busy != second.state.dp.pipe_busy;
    if sync_full_before_the_last(&words, bench.state.dp.words_left) {
        first.state.dp.pipe_busy = second.state.dp.pipe_busy;
    }
    assert_eq!(first.state, second.state);
    assert!(first == second);
    differed
}

/// Any series, to the end or not: with the SP's turns in front and the others in
/// the order that they had, every answer, all memory and the whole state are the
/// same.
fn expect_sp_first(random: &mut Random, bench: &Bench) {
    const KINDS: [Turn; 8] = [Sp, Sp, DeclinedSp, Dp, Dp, DeclinedDp, Consumer, Consumer];
    let length = random.number() % 250;
    let turns: Vec<Turn> = (0..length)
        .map(|_| KINDS[random.number() as usize % 8])
        .collect();
    let mut sp_first = turns.clone();
    sp_first.sort_by_key(|turn| !turn.is_of_sp());
    let (mut mixed, mut sorted) = (bench.clone(), bench.clone());
    assert_eq!(taken(&mut mixed, &turns), taken(&mut sorted, &sp_first));
    assert!(mixed == sorted);
}

#[test]
fn the_order_of_the_turns_does_not_matter() {
    let mut random = Random(0x3A5C_7E91_B2D4_F608);
    let (mut held, mut busy, mut differed) = (0, 0, 0);
    for _ in 0..2_000 {
        let bench = outset(&mut random);
        let (to_fetch, words) = yet_to_fetch(&bench);
        let (to_write, sp_words) = yet_to_write(&bench);
        if !to_fetch.is_disjoint(&to_write) {
            continue;
        }
        held += 1;
        busy += u32::from(!to_write.is_empty() && words.len() > 32);
        let of_sp = turns_of_sp(&mut random, sp_words);
        differed += u32::from(expect_same_end(&mut random, &bench, &of_sp));
        expect_sp_first(&mut random, &bench);
    }
    // The premise holds often enough, and PIPE_BUSY does differ at times.
    assert!(held >= 600 && busy >= 100, "{held} {busy}");
    assert!(differed >= 50, "{differed}");
}

/// Bytes of words that are queued may be written: they are not yet to fetch.
#[test]
fn what_is_queued_may_be_overwritten() {
    let mut bench = Bench::running();
    bench.state = power_up();
    bench.writes(&[(0x0410_0000, 0x2000), (0x0410_0004, 0x2010)]);
    bench.fetches(2);
    bench.writes(&[(0x0404_0004, 0x2000), (0x0404_000C, 0x0F)]);
    let words = bench.state.queue.clone();
    for turns in [[Sp, Sp, Consumer, Consumer], [Consumer, Sp, Sp, Consumer]] {
        let mut end = bench.clone();
        let answers = taken(&mut end, &turns);
        assert_eq!(consumed(&answers), words);
        assert_eq!(end.rdram[0x2000..0x2010], end.dmem[..0x10]);
    }
}

/// Where the premise fails, the order decides.
#[test]
fn where_the_sp_writes_what_is_yet_to_be_fetched_the_order_decides() {
    let mut bench = Bench::running();
    bench.state = power_up();
    bench.writes(&[(0x0410_0000, 0x2000), (0x0410_0004, 0x2008)]);
    bench.writes(&[(0x0404_0004, 0x2000), (0x0404_000C, 7)]);
    let ends = [[Sp, Dp, Consumer], [Dp, Sp, Consumer]].map(|turns| {
        let mut end = bench.clone();
        consumed(&taken(&mut end, &turns))
    });
    assert_eq!(
        ends[0],
        [u64::from_be_bytes(
            bench.dmem[..8].try_into().expect("8 bytes")
        )]
    );
    assert!(ends[0] != ends[1]);
}
