//! The totals in words, for the line that a test prints.

use crate::coverage::totals::{index, Totals, NUMBERS, REPLAY};
use crate::data::call::NAMES;
use crate::data::verdicts::CODES;

impl Totals {
    /// The line of a test that compares recordings.
    pub fn recordings_line(&self) -> String {
        format!(
            "compared {} recordings: {} records, {} stopped{}, {} of them past place 0{}; {}",
            grouped(self.compared),
            grouped(self.records),
            grouped(self.stopped),
            refusals(&self.answers[REPLAY]),
            grouped(self.later.iter().sum()),
            refusals(&self.later),
            self.found_line()
        )
    }

    /// How often a call gave each verdict, in words.
    pub fn verdicts_line(&self, call: &str) -> String {
        let verdicts: Vec<String> = CODES
            .iter()
            .zip(&self.verdicts[index(call)])
            .map(|((_, name), seen)| format!("{name} {}", grouped(*seen)))
            .collect();
        verdicts.join(", ")
    }

    /// The verdicts of replays, and what they found.
    fn found_line(&self) -> String {
        let found = &self.findings;
        format!(
            "{}; several differed in {}, the first not the first compared in {}, {} stopped after a difference, {} at a read or check",
            self.verdicts_line("replay"),
            grouped(found.several),
            grouped(found.later),
            grouped(found.stopped),
            grouped(found.uncounted)
        )
    }

    /// The line of a test that compares single calls.
    pub fn calls_line(&self) -> String {
        let calls: Vec<String> = NAMES
            .iter()
            .zip(&self.answers)
            .filter(|(_, answers)| answers.iter().sum::<u64>() > 0)
            .map(|(name, answers)| {
                let sum = grouped(answers.iter().sum());
                format!("{name} {sum}{}", refusals(answers))
            })
            .collect();
        format!(
            "compared {} single calls: {}",
            grouped(self.compared),
            calls.join(", ")
        )
    }
}

/// The refusals among the answers, by number.
fn refusals(answers: &[u64; NUMBERS]) -> String {
    let parts: Vec<String> = (1..NUMBERS)
        .filter(|number| answers[*number] > 0)
        .map(|number| format!("{number}: {}", grouped(answers[number])))
        .collect();
    if parts.is_empty() {
        String::new()
    } else {
        format!(" ({})", parts.join(", "))
    }
}

/// A number with a comma between each three digits.
pub fn grouped(number: u64) -> String {
    if number < 1_000 {
        return number.to_string();
    }
    format!("{},{:03}", grouped(number / 1_000), number % 1_000)
}
