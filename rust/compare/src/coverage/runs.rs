//! Accepted runs: what ended each, and whether the order of the turns decided.

use crate::coverage::shared_bytes::shares;
use crate::coverage::summary::grouped;
use crate::data::call::{Call, Case};
use crate::data::ring::normalized;
use crate::sides::model::sp_first;
use crate::sides::observed::Observed;
use ofersky::State;

/// Why the SP, the DP and the consumer took no more turns. Where two reasons hold, it is the first.
pub const SP_ENDS: [&str; 2] = ["idle", "budget"];
pub const DP_ENDS: [&str; 4] = ["no list", "FREEZE", "budget", "full queue"];
pub const CONSUMER_ENDS: [&str; 4] = ["no word", "FREEZE", "budget", "room"];

/// Which ends of the consumer go with each of the DP: FREEZE ends both, and a full queue is not
/// empty.
const TOGETHER: [[bool; CONSUMER_ENDS.len()]; DP_ENDS.len()] = [
    [true, true, true, true],
    [true, true, false, false],
    [true, false, true, true],
    [false, false, true, true],
];

/// The words of an accepted run: moved, fetched and consumed.
#[derive(Clone, Copy)]
struct Words {
    moved: u32,
    fetched: u32,
    consumed: u32,
}

/// Counts of accepted runs.
#[derive(Clone, Copy, Debug, Default)]
pub struct RunCoverage {
    /// By what ended the SP, the DP and the consumer.
    pub ends: [[[u64; CONSUMER_ENDS.len()]; DP_ENDS.len()]; SP_ENDS.len()],
    /// By who took turns: 1 for the SP, 2 for the DP and 4 for the consumer, added up.
    pub took: [u64; 8],
    /// The SP's budget was used while the others went on; the DP's; the consumer's; or the room of
    /// the output.
    pub first: [u64; 4],
    /// Where the SP and another took turns: no byte that the SP had yet to write was one that the
    /// lists had yet to fetch; or some was.
    pub apart: u64,
    pub shared: u64,
    /// The order decided: with all SP turns first, something else would have been given or left.
    pub decided: u64,
    /// It decided though no byte was shared, which must never be.
    pub unforeseen: u64,
}

impl RunCoverage {
    pub fn count(&mut self, case: &Case, seen: &Observed) {
        let Call::Run { budgets, out } = case.call else {
            return;
        };
        if seen.number() != 0 {
            return;
        }
        let after = &seen.outcome.state;
        let queued = [&case.state, after].map(|state| u32::from(state.dp.queued));
        let words = Words {
            moved: seen.outcome.answer.count,
            fetched: seen.words + queued[1] - queued[0],
            consumed: seen.words,
        };
        let dp = dp_end(after, budgets[1], words.fetched);
        let consumer = consumer_end(after, budgets[2], out / 8, words.consumed);
        self.ends[usize::from(after.sp.busy)][dp][consumer] += 1;
        let counts = [words.moved, words.fetched, words.consumed];
        let [sp, fetch, consume] = counts.map(|count| usize::from(count > 0));
        self.took[sp + 2 * fetch + 4 * consume] += 1;
        if sp + fetch + consume == 3 {
            let ended = [after.sp.busy == 1, dp == 2, consumer == 2, consumer == 3];
            self.count_first(words, ended);
        }
        if sp == 1 && fetch + consume > 0 {
            self.count_order(case, seen);
        }
    }

    /// Who ended first, told by the words: each takes at most one turn a round, the SP and the
    /// consumer in each round until their end. The DP does so too where the consumer goes on
    /// longer, but for the first round if the queue was full.
    fn count_first(&mut self, words: Words, ended: [bool; 4]) {
        let Words {
            moved,
            fetched,
            consumed,
        } = words;
        let less = |mine: u32, one: u32, other: u32| mine < one && mine < other;
        let consumer = less(consumed, moved, fetched);
        let first = [
            less(moved, fetched, consumed),
            less(fetched + 1, moved, consumed),
            consumer,
            consumer,
        ];
        for (count, (first, ended)) in self.first.iter_mut().zip(first.into_iter().zip(ended)) {
            *count += u64::from(first && ended);
        }
    }

    fn count_order(&mut self, case: &Case, seen: &Observed) {
        let shares = shares(&case.state, case.lent.rdram);
        let other = sp_first(case);
        let answers = |seen: &Observed| (seen.outcome.answer, seen.words);
        let decided = answers(&other) != answers(seen)
            || other.outcome.state != normalized(&seen.outcome.state)
            || other.bytes != seen.bytes;
        self.apart += u64::from(!shares);
        self.shared += u64::from(shares);
        self.decided += u64::from(decided);
        self.unforeseen += u64::from(decided && !shares);
    }

    pub fn add(&mut self, other: &RunCoverage) {
        let ends = self.ends.as_flattened_mut().as_flattened_mut().iter_mut();
        for (mine, others) in ends.zip(other.ends.as_flattened().as_flattened()) {
            *mine += others;
        }
        for (mine, others) in self.took.iter_mut().zip(other.took) {
            *mine += others;
        }
        for (mine, others) in self.first.iter_mut().zip(other.first) {
            *mine += others;
        }
        self.apart += other.apart;
        self.shared += other.shared;
        self.decided += other.decided;
        self.unforeseen += other.unforeseen;
    }

    /// The ends that can come together, each with its count.
    fn ends(&self) -> Vec<(String, u64)> {
        let mut ends = Vec::new();
        for (sp, counts) in SP_ENDS.iter().zip(&self.ends) {
            for (i, dp) in DP_ENDS.iter().enumerate() {
                for (j, consumer) in CONSUMER_ENDS.iter().enumerate() {
                    assert!(TOGETHER[i][j] || counts[i][j] == 0, "{dp} and {consumer}");
                    if TOGETHER[i][j] {
                        ends.push((format!("{sp}, {dp}, {consumer}"), counts[i][j]));
                    }
                }
            }
        }
        ends
    }

    /// The runs in words.
    pub fn line(&self) -> String {
        let ends: Vec<String> = self
            .ends()
            .into_iter()
            .map(|(name, seen)| format!("{name}: {}", grouped(seen)))
            .collect();
        let [none, sp, dp, sp_dp, consumer, sp_consumer, dp_consumer, all] = self.took.map(grouped);
        let [sp_first, dp_first, consumer_first, room_first] = self.first.map(grouped);
        format!(
            "ends of SP, DP and consumer: {}; turns of none {none}, SP {sp}, DP {dp}, consumer {consumer}, SP and DP {sp_dp}, SP and consumer {sp_consumer}, DP and consumer {dp_consumer}, all {all}; of all the SP's budget ended first {sp_first}, the DP's {dp_first}, the consumer's {consumer_first}, the room {room_first}; over other bytes {}, over the same {}, decided by the order {}",
            ends.join("; "),
            grouped(self.apart),
            grouped(self.shared),
            grouped(self.decided)
        )
    }

    /// Each of these was seen at least so often.
    pub fn expect(&self, least: u64) {
        let orders = [self.apart, self.shared, self.decided];
        let counts = [&self.took[..], &self.first, &orders].concat();
        let ends = self.ends().into_iter().map(|(_, seen)| seen);
        let enough = ends.chain(counts).all(|seen| seen >= least);
        assert!(enough, "less than {least}: {}", self.line());
    }
}

fn dp_end(after: &State, budget: u32, fetched: u32) -> usize {
    let dp = &after.dp;
    if dp.current >= dp.limit {
        0
    } else if dp.freeze == 1 {
        1
    } else if fetched == budget {
        2
    } else {
        3
    }
}

fn consumer_end(after: &State, budget: u32, room: usize, consumed: u32) -> usize {
    let dp = &after.dp;
    if dp.queued == 0 {
        0
    } else if dp.freeze == 1 {
        1
    } else if consumed == budget {
        2
    } else {
        assert_eq!(consumed as usize, room);
        3
    }
}
