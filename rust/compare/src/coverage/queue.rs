//! Single calls about the queue: the conditions that must have come up.

use crate::coverage::tally::Tally;
use crate::data::call::{Call, Case};
use crate::data::registers::first_copy;
use crate::sides::observed::Observed;
use model::machine::DP_STATUS;
use ofersky::DpState;

/// The words that the queue has room for.
const FULL: u8 = 32;

/// A call on a sound state, as the conditions look at it.
struct QueueFacts<'a> {
    call: &'a Call,
    before: &'a DpState,
    after: &'a DpState,
    seen: &'a Observed,
}

impl QueueFacts<'_> {
    /// Did a turn of this kind move a word?
    fn moved(&self, turn: Call) -> bool {
        *self.call == turn && self.seen.outcome.answer.count == 1
    }

    /// Did a turn of this kind move none?
    fn did_nothing(&self, turn: Call) -> bool {
        *self.call == turn && self.seen.outcome.answer.count == 0
    }

    fn lists(&self) -> bool {
        self.before.current < self.before.limit
    }

    fn began_waiting(&self) -> bool {
        self.before.end_pending > self.after.end_pending
    }

    /// The bits of a value written to DP STATUS with words queued.
    fn status_bits(&self, mask: u32) -> Option<u32> {
        match self.call {
            Call::Write { address, value } if first_copy(*address) == DP_STATUS => {
                (self.before.queued > 0).then_some(value & mask)
            }
            _ => None,
        }
    }

    fn reads_status(&self) -> bool {
        matches!(self.call, Call::Read { address } if first_copy(*address) == DP_STATUS)
    }

    fn ticks(&self) -> bool {
        matches!(self.call, Call::Tick { n } if n % (1 << 24) > 0)
    }

    /// Within a command, with nothing queued: what bit 6 meant once.
    fn only_words_left(&self) -> bool {
        self.before.queued == 0 && self.before.words_left > 0
    }

    fn runs(&self) -> bool {
        matches!(self.call, Call::Run { .. })
    }

    /// A run that took all the room of the output, and would have consumed more.
    fn ended_by_room(&self) -> bool {
        let room = |budget: u32, out: usize| {
            let words = self.seen.words;
            words as usize == out / 8 && words < budget
        };
        matches!(self.call, Call::Run { budgets, out } if room(budgets[2], *out))
            && self.after.queued > 0
            && self.before.freeze == 0
    }

    /// The words that a run fetched.
    fn fetched(&self) -> u32 {
        self.seen.words + u32::from(self.after.queued) - u32::from(self.before.queued)
    }

    /// A run whose consumer could have taken words, but found none.
    fn consumer_found_none(&self) -> bool {
        let could = matches!(self.call, Call::Run { budgets, out } if budgets[2] > 0 && *out >= 8);
        could && self.seen.words == 0 && self.seen.outcome.answer.count > 0
    }
}

type Condition = (&'static str, fn(&QueueFacts) -> bool);

/// All of them, with their names in the totals.
const CONDITIONS: &[Condition] = &[
    ("fetches into an empty queue", |f| {
        f.moved(Call::DpTurn) && f.before.queued == 0
    }),
    ("fetches that fill the queue", |f| {
        f.moved(Call::DpTurn) && f.after.queued == FULL
    }),
    ("no fetch into a full queue", |f| {
        f.did_nothing(Call::DpTurn) && f.lists() && f.before.freeze == 0
    }),
    ("no fetch while frozen, with room", |f| {
        f.did_nothing(Call::DpTurn) && f.lists() && f.before.queued < FULL
    }),
    ("waiting lists begun by a fetch", |f| {
        f.moved(Call::DpTurn) && f.began_waiting()
    }),
    ("waiting lists begun by a fetch that fills the queue", |f| {
        f.moved(Call::DpTurn) && f.began_waiting() && f.after.queued == FULL
    }),
    ("words consumed of a full queue", |f| {
        f.moved(Call::ConsumerTurn) && f.before.queued == FULL
    }),
    ("last words consumed", |f| {
        f.moved(Call::ConsumerTurn) && f.after.queued == 0
    }),
    ("words consumed under FLUSH", |f| {
        f.moved(Call::ConsumerTurn) && f.before.flush == 1
    }),
    ("later words of a command consumed", |f| {
        f.moved(Call::ConsumerTurn) && f.before.words_left > 0
    }),
    ("SYNC_FULL consumed", |f| {
        f.moved(Call::ConsumerTurn) && f.before.line < f.after.line
    }),
    ("PIPE_BUSY left off by a word consumed", |f| {
        f.moved(Call::ConsumerTurn) && f.before.pipe_busy == 0 && f.after.line == 0
    }),
    ("no word consumed while frozen", |f| {
        f.did_nothing(Call::ConsumerTurn) && f.before.queued > 0
    }),
    ("no word consumed of an empty queue", |f| {
        f.did_nothing(Call::ConsumerTurn) && f.before.freeze == 0
    }),
    ("words found by a look with a full queue", |f| {
        *f.call == Call::Look && f.seen.part.length == 8 && f.before.queued == FULL
    }),
    ("words found by a look otherwise", |f| {
        *f.call == Call::Look && f.seen.part.length == 8 && f.before.queued < FULL
    }),
    ("FLUSH set with words queued", |f| {
        f.status_bits(0x30) == Some(0x20)
    }),
    ("FLUSH set again with words queued", |f| {
        f.status_bits(0x30) == Some(0x20) && f.before.flush == 1
    }),
    ("FLUSH kept by both bits with words queued", |f| {
        f.status_bits(0x30) == Some(0x30) && f.before.flush == 1
    }),
    ("FREEZE set with words queued", |f| {
        f.status_bits(0x0C) == Some(0x08)
    }),
    ("DP STATUS read with words queued", |f| {
        f.reads_status() && f.before.queued > 0 && f.before.words_left == 0
    }),
    ("DP STATUS read with words left alone", |f| {
        f.reads_status() && f.only_words_left()
    }),
    ("ticks with words queued", |f| {
        f.ticks() && f.before.queued > 0 && f.before.words_left == 0
    }),
    ("ticks with words left alone", |f| {
        f.ticks() && f.only_words_left()
    }),
    ("runs begun with words queued", |f| {
        f.runs() && f.before.queued > 0
    }),
    ("runs begun with a full queue", |f| {
        f.runs() && f.before.queued == FULL && f.fetched() > 0
    }),
    ("runs begun within a command", |f| {
        f.runs() && f.before.words_left > 0 && f.seen.words > 0
    }),
    ("runs that leave words queued within a command", |f| {
        f.runs() && f.after.words_left > 0 && f.after.queued > 0 && f.seen.words > 0
    }),
    ("runs that leave words queued", |f| {
        f.runs() && f.after.queued > 0 && f.fetched() > 0
    }),
    ("runs that fill the queue", |f| {
        f.runs() && f.after.queued == FULL && f.before.queued < FULL
    }),
    ("runs that fetch on without room", |f| {
        f.ended_by_room() && f.fetched() > f.seen.words
    }),
    ("runs while frozen with words queued", |f| {
        f.runs() && f.before.freeze == 1 && f.before.queued > 0
    }),
    ("runs that pass over the consumer", |f| {
        f.consumer_found_none()
    }),
    ("runs with more words than the ring has slots", |f| {
        f.runs() && f.fetched() > u32::from(FULL)
    }),
];

/// How often each condition held.
#[derive(Clone, Copy, Debug)]
pub struct QueueCoverage {
    pub tally: Tally<{ CONDITIONS.len() }>,
}

impl Default for QueueCoverage {
    fn default() -> QueueCoverage {
        let tally = Tally::of(std::array::from_fn(|i| CONDITIONS[i].0));
        QueueCoverage { tally }
    }
}

impl QueueCoverage {
    /// Counts an accepted call.
    pub fn count(&mut self, case: &Case, seen: &Observed) {
        if seen.number() != 0 {
            return;
        }
        let facts = QueueFacts {
            call: &case.call,
            before: &case.state.dp,
            after: &seen.outcome.state.dp,
            seen,
        };
        self.tally.count(|i| CONDITIONS[i].1(&facts));
    }
}
