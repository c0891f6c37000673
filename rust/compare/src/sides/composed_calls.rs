//! Calls of the library made of its other calls: a run, a row and a burst, each of smaller ones.

use crate::data::call::{burst_is_allowed, Call, Case};
use crate::data::words_left::row_words;
use crate::sides::library::library_with_ring;
use crate::sides::observed::Observed;
use ofersky::{Outcome, State};
use std::ops::Range;

/// The library's side of an accepted run, made of its single turns.
pub fn run_by_turns(case: &Case) -> Observed {
    let Call::Run { budgets, .. } = case.call else {
        panic!("{} is no run", case.call.name());
    };
    let mut seen = Observed::lent(case);
    let [rdram, dmem, imem, out, _] = &mut seen.bytes;
    let mut state = case.state;
    let [mut moved, mut fetched, mut words] = [0; 3];
    loop {
        let before = (moved, fetched, words);
        if moved < budgets[0] {
            let turn = ofersky::sp_turn(state, rdram, dmem, imem);
            (state, moved) = (turn.state, moved + turn.answer.count);
        }
        if fetched < budgets[1] {
            let turn = ofersky::dp_turn(state, rdram, dmem);
            (state, fetched) = (turn.state, fetched + turn.answer.count);
        }
        let room = out.chunks_exact_mut(8).nth(words as usize);
        if let Some(room) = room.filter(|_| words < budgets[2]) {
            let turn = ofersky::consumer_turn(state);
            if turn.answer.count == 1 {
                room.copy_from_slice(&turn.answer.value.to_be_bytes());
            }
            (state, words) = (turn.state, words + turn.answer.count);
        }
        if (moved, fetched, words) == before {
            break;
        }
    }
    (seen.outcome.state, seen.outcome.answer.count, seen.words) = (state, moved, words);
    seen
}

/// The library's side of a row, made of its single turns. One is taken at least: it is refused
/// where the row is, and does nothing if the engine is idle.
pub fn row_by_turns(case: &Case) -> Observed {
    let mut seen = Observed::lent(case);
    let [rdram, dmem, imem, ..] = &mut seen.bytes;
    let mut outcome = ofersky::sp_turn(case.state, rdram, dmem, imem);
    let mut count = outcome.answer.count;
    let turns = match outcome.answer.number {
        0 => row_words(&case.state),
        _ => 1,
    };
    for _ in 1..turns {
        outcome = ofersky::sp_turn(outcome.state, rdram, dmem, imem);
        count += outcome.answer.count;
    }
    outcome.answer.count = count;
    seen.outcome = outcome;
    seen
}

/// The library's side of a row, made of a run in which the SP alone has a budget.
pub fn row_by_run(case: &Case) -> Observed {
    let budgets = [row_words(&case.state), 0, 0];
    library_with_ring(&Case {
        call: Call::Run { budgets, out: 0 },
        ..case.clone()
    })
}

/// The library's side of a burst, made of its single writes. No single write tells of lengths, and
/// an empty burst has none that tells of the state.
pub fn burst_by_writes(case: &Case) -> Observed {
    let mut seen = Observed::lent(case);
    let Outcome { state, answer } = &mut seen.outcome;
    *state = case.state;
    answer.number = match (
        burst_is_allowed(case.call.pairs()),
        ofersky::is_sound(*state),
    ) {
        (false, _) => 11,
        (true, false) => 4,
        (true, true) => 0,
    };
    let [addresses, values] = case.call.pairs();
    let mut pairs = addresses.iter().zip(values);
    while let (0, Some((address, value))) = (answer.number, pairs.next()) {
        let single = ofersky::write_register(*state, *address, *value);
        (*state, answer.number) = (single.state, single.answer.number);
        answer.count += u32::from(answer.number == 0);
    }
    seen
}

/// The library's side of a burst of an allowed length, made of two, of which either may be empty.
/// Where the first stops, there is no second.
pub fn burst_by_two(case: &Case) -> Observed {
    let [addresses, values] = case.call.pairs();
    let part = |state: State, pairs: Range<usize>| {
        let [addresses, values] = [addresses, values].map(|all| all[pairs.clone()].to_vec());
        let call = Call::WriteRegisters { addresses, values };
        let lent = case.lent;
        library_with_ring(&Case { state, lent, call }).outcome
    };
    let cut = case.lent.fill as usize % (addresses.len() + 1);
    let mut outcome = part(case.state, 0..cut);
    if outcome.answer.number == 0 {
        let first = outcome.answer.count;
        outcome = part(outcome.state, cut..addresses.len());
        outcome.answer.count += first;
    }
    Observed {
        outcome,
        ..Observed::lent(case)
    }
}
