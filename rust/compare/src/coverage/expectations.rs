//! The least that must have been compared. Each of these panics where it was less.

use crate::coverage::events::Event;
use crate::coverage::findings::FindingCounts;
use crate::coverage::totals::{index, Totals, REPLAY};
use crate::data::verdicts::CODES;

impl Totals {
    /// Each of these numbers was given by this call at least so often.
    pub fn expect_numbers(&self, call: &str, numbers: &[usize], least: u64) {
        let answers = &self.answers[index(call)];
        for number in numbers {
            let seen = answers[*number];
            assert!(
                seen >= least,
                "{call} gave number {number} only {seen} times"
            );
        }
    }

    /// By each of these numbers, replays stopped at least so often at place 0, and so often at
    /// another.
    pub fn expect_places(&self, numbers: &[usize], at_0: u64, later: u64) {
        for number in numbers {
            let others = self.later[*number];
            let zeros = self.answers[REPLAY][*number] - others;
            assert!(
                zeros >= at_0 && others >= later,
                "number {number} stopped {zeros} replays at place 0 and {others} at others"
            );
        }
    }

    /// This call refused misaligned addresses at least so often within the blocks of registers, and
    /// so often elsewhere.
    pub fn expect_misaligned(&self, call: &str, least: u64) {
        let seen = self.misaligned[index(call)];
        assert!(
            seen.iter().all(|seen| *seen >= least),
            "{call} refused misaligned addresses within the blocks and elsewhere: {seen:?}"
        );
    }

    /// This call accepted accesses through mirrors at least so often; a replay may have many.
    pub fn expect_mirrors(&self, call: &str, least: u64) {
        let seen = self.mirrors[index(call)];
        assert!(
            seen >= least,
            "{call} accepted only {seen} accesses through mirrors"
        );
    }

    /// This call gave each verdict at least so often, in the order of `CODES`.
    pub fn expect_verdicts(&self, call: &str, least: [u64; CODES.len()]) {
        let seen = self.verdicts[index(call)];
        let enough = seen.iter().zip(least).all(|(seen, least)| *seen >= least);
        assert!(enough, "{call} gave verdicts {seen:?}, less than {least:?}");
    }

    /// Replays found each of what `FindingCounts` singles out at least so often.
    pub fn expect_found(&self, least: FindingCounts) {
        let seen = &self.findings;
        let enough = seen.stopped >= least.stopped
            && seen.uncounted >= least.uncounted
            && seen.later >= least.later
            && seen.several >= least.several;
        assert!(enough, "replays found {seen:?}, less than {least:?}");
    }

    /// Each of these events was seen at least so often.
    pub fn expect_events(&self, events: &[Event], least: u64) {
        for event in events {
            let seen = self.events.of(*event);
            assert!(seen >= least, "{event:?} was seen only {seen} times");
        }
    }
}
