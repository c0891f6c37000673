//! What a reader is told of a difference.

pub mod case;
pub mod recording;

use crate::data::call::Case;
use case::describe;

/// The whole report of a difference.
pub fn report(noun: &str, compared: u64, case: &Case, differences: &[String]) -> String {
    format!(
        "difference at {noun} {compared}; the smallest that shows it:\n{}differs:\n  {}\n",
        describe(case),
        differences.join("\n  ")
    )
}
