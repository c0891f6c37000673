//! What was compared, counted from the model's answers.

use crate::coverage::accesses::{accessed, refused_address};
use crate::coverage::bursts::BurstCoverage;
use crate::coverage::events::Events;
use crate::coverage::findings::FindingCounts;
use crate::coverage::queue::QueueCoverage;
use crate::coverage::rows::RowCoverage;
use crate::coverage::runs::RunCoverage;
use crate::data::call::{Call, Case, NAMES};
use crate::data::registers::{first_copy, is_register};
use crate::data::verdicts::CODES;
use crate::sides::observed::Observed;
use std::sync::Mutex;

/// The numbers that calls give: success and the refusals up to 14.
pub(super) const NUMBERS: usize = 15;

/// The number of a register address that is not a multiple of 4.
const MISALIGNED: usize = 10;

/// The replays and the single verdicts among the calls.
pub(super) const REPLAY: usize = NAMES.len() - 2;
const VERDICT: usize = NAMES.len() - 1;

/// Counts of cases.
#[derive(Clone, Debug, Default)]
pub struct Totals {
    pub compared: u64,
    /// Answers by call and by number.
    pub answers: [[u64; NUMBERS]; NAMES.len()],
    /// The records that replays accepted, and the replays that stopped at one or before the first.
    pub records: u64,
    pub stopped: u64,
    /// Those of them that stopped at a place other than 0, by number.
    pub later: [u64; NUMBERS],
    /// The addresses that are not a multiple of 4, by call: within the blocks of registers, and
    /// elsewhere.
    pub misaligned: [[u64; 2]; NAMES.len()],
    /// The accepted accesses through a mirror, by call.
    pub mirrors: [u64; NAMES.len()],
    /// The verdicts by call, in the order of `CODES`.
    pub verdicts: [[u64; CODES.len()]; NAMES.len()],
    pub findings: FindingCounts,
    pub runs: RunCoverage,
    pub rows: RowCoverage,
    pub bursts: BurstCoverage,
    pub queue: QueueCoverage,
    pub events: Events,
}

impl Totals {
    pub fn count(&mut self, case: &Case, seen: &Observed) {
        let (call, number) = (case.call.index(), seen.number() as usize);
        self.answers[call][number] += 1;
        if number == MISALIGNED {
            let within = is_register(refused_address(case, seen) & !3);
            self.misaligned[call][usize::from(!within)] += 1;
        }
        let mirrors = accessed(case, seen)
            .into_iter()
            .filter(|address| first_copy(*address) != *address);
        self.mirrors[call] += mirrors.count() as u64;
        self.runs.count(case, seen);
        self.rows.count(case, seen);
        self.bursts.count(case, seen);
        self.queue.count(case, seen);
        if call == REPLAY || call == VERDICT {
            let verdict = CODES.iter().position(|(code, _)| *code == seen.code);
            self.verdicts[call][verdict.expect("a verdict's code")] += 1;
        }
        if let Call::Replay { recording, .. } = &case.call {
            self.findings.count(recording, seen);
            self.records += u64::from(seen.outcome.answer.count);
            self.stopped += u64::from(number != 0);
            self.later[number] += u64::from(seen.place != 0);
        }
    }

    pub fn add(&mut self, other: &Totals) {
        self.compared += other.compared;
        self.records += other.records;
        self.stopped += other.stopped;
        add_each(
            self.answers.as_flattened_mut(),
            other.answers.as_flattened(),
        );
        add_each(&mut self.later, &other.later);
        add_each(
            self.misaligned.as_flattened_mut(),
            other.misaligned.as_flattened(),
        );
        add_each(&mut self.mirrors, &other.mirrors);
        add_each(
            self.verdicts.as_flattened_mut(),
            other.verdicts.as_flattened(),
        );
        self.findings.add(&other.findings);
        self.runs.add(&other.runs);
        self.rows.add(&other.rows);
        self.bursts.tally.add(&other.bursts.tally);
        self.queue.tally.add(&other.queue.tally);
        self.events.add(&other.events);
    }
}

/// The place of a call's name among the names.
pub(super) fn index(call: &str) -> usize {
    let index = NAMES.iter().position(|name| *name == call);
    index.expect("a call's name")
}

fn add_each(mine: &mut [u64], others: &[u64]) {
    for (mine, others) in mine.iter_mut().zip(others) {
        *mine += others;
    }
}

/// The totals of several tests, which may end in any order.
pub struct Sum {
    tests: usize,
    done: Mutex<Vec<Totals>>,
}

impl Sum {
    pub const fn of_tests(tests: usize) -> Sum {
        let done = Mutex::new(Vec::new());
        Sum { tests, done }
    }

    /// Adds the totals of a test. After the last one, gives the totals of all.
    pub fn add(&self, totals: &Totals) -> Option<Totals> {
        let mut done = self.done.lock().unwrap();
        done.push(totals.clone());
        if done.len() < self.tests {
            return None;
        }
        let mut all = Totals::default();
        done.iter().for_each(|totals| all.add(totals));
        Some(all)
    }
}
