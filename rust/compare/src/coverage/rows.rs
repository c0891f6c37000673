//! Rows that the SP moved, in one call or in a run: the conditions that must have come up.

use crate::coverage::tally::Tally;
use crate::data::call::{Call, Case};
use crate::data::memory::{ALL_WORDS, BANK_WORDS};
use crate::data::words_left::row_words;
use crate::sides::observed::Observed;
use ofersky::{SpState, State};

/// An accepted row, or an accepted run in which the SP had a word to move, as the conditions look
/// at it.
struct RowFacts {
    before: SpState,
    after: SpState,
    /// The words left of the row at the outset, and those moved in all.
    row: u32,
    moved: u32,
    /// The words that a run fetched and consumed, together.
    others: u32,
    /// The words of RDRAM.
    fitted: u32,
}

impl RowFacts {
    fn of(case: &Case, seen: &Observed) -> RowFacts {
        let queued = |state: &State| u32::from(state.dp.queued);
        let (before, after) = (&case.state, &seen.outcome.state);
        RowFacts {
            before: before.sp,
            after: after.sp,
            row: row_words(before),
            moved: seen.outcome.answer.count,
            others: 2 * seen.words + queued(after) - queued(before),
            fitted: (case.lent.rdram / 8) as u32,
        }
    }

    fn busy(&self) -> bool {
        self.row > 0
    }

    /// The words moved of the row that was under way at the outset.
    fn words(&self) -> u32 {
        self.row.min(self.moved)
    }

    fn wraps_in_bank(&self) -> bool {
        self.before.sp_addr % 0x1000 / 8 + self.words() > BANK_WORDS
    }

    fn wraps_at_top(&self) -> bool {
        self.before.ram_addr / 8 + self.words() > ALL_WORDS
    }

    /// Are some of its words fitted and others not?
    fn partly_fitted(&self) -> bool {
        let first = self.before.ram_addr / 8;
        let fits = |word: &u32| (first + word) % ALL_WORDS < self.fitted;
        let fitting = (0..self.words()).filter(fits).count();
        0 < fitting && fitting < self.words() as usize
    }

    fn edges(&self) -> u32 {
        u32::from(self.wraps_in_bank())
            + u32::from(self.wraps_at_top())
            + u32::from(self.partly_fitted())
    }

    fn begun_within(&self) -> bool {
        self.busy() && self.before.len < self.before.row_len
    }

    fn began_waiting(&self) -> bool {
        self.before.full > self.after.full
    }

    fn ended_within(&self) -> bool {
        self.after.busy == 1 && self.after.len < self.after.row_len
    }

    /// A run went on into the second row after the one at the outset, or farther.
    fn over_rows(&self) -> bool {
        let next = self.before.row_len / 8 + 1;
        self.before.count > 1 && self.moved > self.row + next
    }
}

type Condition = (&'static str, fn(&RowFacts) -> bool);

/// What rows in one call must show.
const CALLS: &[Condition] = &[
    ("loads", |f| f.busy() && f.before.storing == 0),
    ("stores", |f| f.busy() && f.before.storing == 1),
    ("of DMEM", |f| f.busy() && f.before.sp_addr < 0x1000),
    ("of IMEM", |f| f.busy() && f.before.sp_addr >= 0x1000),
    ("begun in their middle", RowFacts::begun_within),
    ("of one word", |f| f.row == 1),
    ("of a whole bank", |f| f.row == BANK_WORDS),
    ("that wrap in the bank", RowFacts::wraps_in_bank),
    ("that wrap at the top", RowFacts::wraps_at_top),
    ("partly past the lent length", RowFacts::partly_fitted),
    ("with two of these", |f| f.edges() == 2),
    ("with all three", |f| f.edges() == 3),
    ("with a row after them", |f| f.busy() && f.before.count > 0),
    ("that end a transfer", |f| f.before.busy > f.after.busy),
    ("that begin a waiting one", RowFacts::began_waiting),
    ("that begin one of the other direction", |f| {
        f.began_waiting() && f.before.storing != f.after.storing
    }),
    ("idle", |f| !f.busy()),
];

/// What runs must show of the rows that the SP moves.
const RUNS: &[Condition] = &[
    ("by the SP alone", |f| f.others == 0),
    ("that go on with the SP alone", |f| {
        f.others > 0 && f.moved > f.others + 1
    }),
    ("begun within a row", RowFacts::begun_within),
    ("ended within a row", RowFacts::ended_within),
    ("ended within the row of their outset", |f| {
        0 < f.moved && f.moved < f.row
    }),
    ("ended with that row", |f| f.moved == f.row),
    ("over that row's end", |f| f.moved > f.row),
    ("over several rows", RowFacts::over_rows),
    ("that begin a waiting transfer", RowFacts::began_waiting),
    ("ended within a transfer that waited", |f| {
        f.began_waiting() && f.ended_within()
    }),
    ("that wrap in the bank", RowFacts::wraps_in_bank),
    ("that wrap at the top", RowFacts::wraps_at_top),
    ("partly past the lent length", RowFacts::partly_fitted),
    ("with two of these", |f| f.edges() == 2),
    ("with all three", |f| f.edges() == 3),
];

/// How often each condition held.
#[derive(Clone, Copy, Debug)]
pub struct RowCoverage {
    pub calls: Tally<{ CALLS.len() }>,
    pub runs: Tally<{ RUNS.len() }>,
}

impl Default for RowCoverage {
    fn default() -> RowCoverage {
        RowCoverage {
            calls: Tally::of(std::array::from_fn(|i| CALLS[i].0)),
            runs: Tally::of(std::array::from_fn(|i| RUNS[i].0)),
        }
    }
}

impl RowCoverage {
    /// Counts an accepted row, or a run in which the SP had a word to move.
    pub fn count(&mut self, case: &Case, seen: &Observed) {
        if seen.number() != 0 {
            return;
        }
        let facts = || RowFacts::of(case, seen);
        match case.call {
            Call::SpRow => {
                let facts = facts();
                self.calls.count(|i| CALLS[i].1(&facts));
            }
            Call::Run { .. } if case.state.sp.busy == 1 => {
                let facts = facts();
                self.runs.count(|i| RUNS[i].1(&facts));
            }
            _ => {}
        }
    }

    pub fn add(&mut self, other: &RowCoverage) {
        self.calls.add(&other.calls);
        self.runs.add(&other.runs);
    }
}
