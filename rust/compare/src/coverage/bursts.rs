//! Bursts of register writes: the conditions that must have come up.

use crate::coverage::tally::Tally;
use crate::data::call::{Call, Case};
use crate::data::registers::{first_copy, is_register};
use crate::data::state_fields::{field, to_model, FLAGS};
use crate::sides::observed::Observed;
use model::calls::is_sound;
use model::machine::*;
use ofersky::{Outcome, State};

/// A burst, as the conditions look at it.
struct BurstFacts<'a> {
    addresses: &'a [u32],
    values: &'a [u32],
    before: &'a State,
    after: &'a State,
    number: u32,
    /// The pairs that were written.
    written: usize,
}

impl BurstFacts<'_> {
    /// Were all of so many pairs written?
    fn done(&self, pairs: usize) -> bool {
        self.number == 0 && self.written == pairs
    }

    /// Was it refused by 11 with these lengths?
    fn bad_lengths(&self, addresses: usize, values: usize) -> bool {
        self.number == 11 && (self.addresses.len(), self.values.len()) == (addresses, values)
    }

    fn pairs(&self) -> usize {
        self.addresses.len()
    }

    /// Did a pair other than the first and the last stop it by this number?
    fn stopped_within(&self, number: u32) -> bool {
        self.number == number && 0 < self.written && self.written + 1 < self.pairs()
    }

    fn stopped_first(&self, number: u32) -> bool {
        self.number == number && self.written == 0 && self.pairs() > 1
    }

    fn stopped_last(&self, number: u32) -> bool {
        self.number == number && self.written > 0 && self.written + 1 == self.pairs()
    }

    /// Is there a pair that was not written and has this number?
    fn has_bad(&self, number: u32) -> bool {
        let bad = |address: &u32| match number {
            10 => address % 4 != 0,
            _ => address % 4 == 0 && !is_register(*address),
        };
        self.addresses.iter().skip(self.written).any(bad)
    }

    /// Has the state a byte that is no flag where there must be one?
    fn has_no_flag(&self) -> bool {
        let byte = |name: &str| (field(name).get)(self.before);
        FLAGS.iter().any(|name| byte(name) > 1)
    }

    /// The places of the pairs that were written to this register.
    fn places(&self, register: u32) -> impl Iterator<Item = usize> + '_ {
        let written = self.addresses[..self.written].iter().enumerate();
        let to_it =
            move |(i, address): (usize, &u32)| (first_copy(*address) == register).then_some(i);
        written.filter_map(to_it)
    }

    /// Was it written twice, with other values?
    fn twice(&self, register: u32) -> bool {
        let mut values = self.places(register).map(|place| self.values[place]);
        let first = values.next();
        first.is_some_and(|first| values.any(|value| value != first))
    }

    /// Was one written, and the other after it?
    fn one_after_other(&self, first: u32, second: u32) -> bool {
        let place = self.places(first).next();
        place.is_some_and(|place| self.places(second).any(|later| later > place))
    }

    fn writes(&self, of: impl Fn(u32) -> bool) -> bool {
        self.addresses[..self.written]
            .iter()
            .any(|address| of(*address))
    }
}

type Condition = (&'static str, fn(&BurstFacts) -> bool);

/// What bursts must show.
const CONDITIONS: &[Condition] = &[
    ("empty", |f| f.done(0)),
    ("of one pair", |f| f.done(1)),
    ("of 63", |f| f.done(63)),
    ("of 64", |f| f.done(64)),
    ("of 65", |f| f.bad_lengths(65, 65)),
    ("with an address more", |f| {
        f.bad_lengths(f.values.len() + 1, f.values.len())
    }),
    ("with a value more", |f| {
        f.bad_lengths(f.pairs(), f.pairs() + 1)
    }),
    ("refused by 11 of an unsound state", |f| {
        f.number == 11 && !is_sound(&to_model(f.before))
    }),
    ("refused by 11 with a bad address", |f| {
        f.number == 11 && (f.has_bad(10) || f.has_bad(5))
    }),
    ("empty and refused by 4", |f| {
        f.number == 4 && f.pairs() == 0
    }),
    ("refused by 4 for a byte that is no flag", |f| {
        f.number == 4 && f.has_no_flag()
    }),
    ("refused by 4 with a bad address", |f| {
        f.number == 4 && (f.has_bad(10) || f.has_bad(5))
    }),
    ("stopped by 10 at the first pair", |f| f.stopped_first(10)),
    ("in the middle", |f| f.stopped_within(10)),
    ("at the last", |f| f.stopped_last(10)),
    ("stopped by 5 at the first pair", |f| f.stopped_first(5)),
    ("in the middle", |f| f.stopped_within(5)),
    ("at the last", |f| f.stopped_last(5)),
    ("stopped by 10 before a pair for 5", |f| {
        f.number == 10 && f.has_bad(5)
    }),
    ("stopped by 5 before one for 10", |f| {
        f.number == 5 && f.has_bad(10)
    }),
    ("SEMAPHORE twice", |f| f.twice(SP_SEMAPHORE)),
    ("SP STATUS twice", |f| f.twice(SP_STATUS)),
    ("DP STATUS twice", |f| f.twice(DP_STATUS)),
    ("RDLEN twice", |f| f.twice(SP_RDLEN)),
    ("WRLEN twice", |f| f.twice(SP_WRLEN)),
    ("RDLEN and then WRLEN", |f| {
        f.one_after_other(SP_RDLEN, SP_WRLEN)
    }),
    ("WRLEN and then RDLEN", |f| {
        f.one_after_other(SP_WRLEN, SP_RDLEN)
    }),
    ("START and then END", |f| {
        f.one_after_other(DP_START, DP_END)
    }),
    ("END and then START", |f| {
        f.one_after_other(DP_END, DP_START)
    }),
    ("through mirrors", |f| {
        f.writes(|address| first_copy(address) != address)
    }),
    ("to read-only registers", |f| {
        f.writes(|address| READ_ONLY.contains(&first_copy(address)))
    }),
    ("that begin a transfer", |f| {
        f.before.sp.busy < f.after.sp.busy
    }),
    ("that begin one and let one wait", |f| {
        f.before.sp.busy == 0 && f.after.sp.full == 1
    }),
    ("that begin a list", |f| {
        f.before.dp.current != f.after.dp.current
    }),
    ("that let a list wait", |f| {
        f.before.dp.end_pending < f.after.dp.end_pending
    }),
    ("that flush queued words", |f| {
        f.before.dp.queued > f.after.dp.queued
    }),
];

/// How often each condition held.
#[derive(Clone, Copy, Debug)]
pub struct BurstCoverage {
    pub tally: Tally<{ CONDITIONS.len() }>,
}

impl Default for BurstCoverage {
    fn default() -> BurstCoverage {
        let tally = Tally::of(std::array::from_fn(|i| CONDITIONS[i].0));
        BurstCoverage { tally }
    }
}

impl BurstCoverage {
    pub fn count(&mut self, case: &Case, seen: &Observed) {
        let Call::WriteRegisters { addresses, values } = &case.call else {
            return;
        };
        let Outcome { state, answer } = &seen.outcome;
        let facts = BurstFacts {
            addresses,
            values,
            before: &case.state,
            after: state,
            number: answer.number,
            written: answer.count as usize,
        };
        self.tally.count(|i| CONDITIONS[i].1(&facts));
    }
}
