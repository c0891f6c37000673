//! Compares case after case, and stops at the first difference.

use crate::coverage::totals::Totals;
use crate::data::call::Case;
use crate::report::case::describe;
use crate::report::report;
use crate::shrink::shrink;
use crate::sides::differences::differences;
use crate::sides::library::library;
use crate::sides::model::model;
use crate::sides::observed::{Observed, Side};
use std::panic::catch_unwind;

/// The two sides and what was compared so far.
pub struct Comparison {
    expected: Side,
    given: Side,
    /// What a case is called in the report: a call or a recording.
    noun: &'static str,
    pub totals: Totals,
}

impl Comparison {
    /// The library against the model.
    pub fn new(noun: &'static str) -> Comparison {
        Comparison::of(model, library, noun)
    }

    /// Any two sides: one that is wrong on purpose shows that a difference is found.
    pub fn of(expected: Side, given: Side, noun: &'static str) -> Comparison {
        Comparison {
            expected,
            given,
            noun,
            totals: Totals::default(),
        }
    }

    /// Compares one case. Panics with the report where the sides differ, else gives what the model
    /// gave.
    pub fn check(&mut self, case: &Case) -> Observed {
        self.totals.compared += 1;
        let expected = self.ask(self.expected, case);
        let given = self.ask(self.given, case);
        if expected != given {
            panic!("{}", self.explain(case));
        }
        self.totals.count(case, &expected);
        expected
    }

    /// What a side gives. Where it panics instead, the case is told.
    fn ask(&self, side: Side, case: &Case) -> Observed {
        catch_unwind(|| side(case)).unwrap_or_else(|_| {
            let (noun, compared) = (self.noun, self.totals.compared);
            panic!("a side panics at {noun} {compared}:\n{}", describe(case))
        })
    }

    fn explain(&self, case: &Case) -> String {
        let between = |case: &Case| differences(&(self.expected)(case), &(self.given)(case));
        let smallest = shrink(case, &|case| !between(case).is_empty());
        report(
            self.noun,
            self.totals.compared,
            &smallest,
            &between(&smallest),
        )
    }
}
