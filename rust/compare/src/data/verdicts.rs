//! What a replay gives, as a table of numbers; and findings and verdicts of the model as the
//! library has them.

use crate::data::state_fields;
use model::calls;
use ofersky::{Findings, Replayed, Verdict};

/// A number of a struct that is judged.
pub struct Number {
    pub name: &'static str,
    pub get: fn(&Replayed) -> u64,
    pub set: fn(&mut Replayed, u64),
}

macro_rules! numbers {
    ($($name:literal: $($field:ident).+,)*) => {
        /// All of them but the state.
        pub const NUMBERS: &[Number] = &[
            $(Number {
                name: $name,
                get: |replayed| replayed.$($field).+ as u64,
                set: |replayed, value| replayed.$($field).+ = value as _,
            },)*
        ];
    };
}

numbers! {
    "number": outcome.answer.number,
    "value": outcome.answer.value,
    "count": outcome.answer.count,
    "written": written,
    "place": place,
    "compared": findings.compared,
    "differed": findings.differed,
    "first_index": findings.first_index,
    "first_place": findings.first_place,
}

/// The codes in the order of their counts.
pub const CODES: [(u32, &str); 4] = [
    (ofersky::PASSED, "passed"),
    (ofersky::DIFFERS, "differs"),
    (ofersky::NOTHING_COMPARED, "nothing compared"),
    (ofersky::REFUSED, "refused"),
];

/// The findings of the model.
pub fn findings(found: calls::Findings) -> Findings {
    let calls::Findings {
        compared,
        differed,
        first_index,
        first_place,
    } = found;
    Findings {
        compared,
        differed,
        first_index,
        first_place,
    }
}

/// The struct as the model knows it.
pub fn to_model(replayed: &Replayed) -> calls::Replayed {
    let answer = replayed.outcome.answer;
    let found = replayed.findings;
    calls::Replayed {
        outcome: calls::Outcome {
            state: state_fields::to_model(&replayed.outcome.state),
            answer: calls::Answer {
                number: answer.number,
                value: answer.value,
                count: answer.count,
            },
        },
        place: replayed.place,
        written: replayed.written,
        findings: calls::Findings {
            compared: found.compared,
            differed: found.differed,
            first_index: found.first_index,
            first_place: found.first_place,
        },
    }
}

/// The verdict of the model.
pub fn from_model(verdict: calls::Verdict) -> Verdict {
    match verdict {
        calls::Verdict::Passed { compared } => Verdict::Passed { compared },
        calls::Verdict::Differs {
            compared,
            differed,
            first_index,
            first_place,
        } => Verdict::Differs {
            compared,
            differed,
            first_index,
            first_place,
        },
        calls::Verdict::NothingCompared => Verdict::NothingCompared,
        calls::Verdict::Refused {
            number,
            compared,
            differed,
        } => Verdict::Refused {
            number,
            compared,
            differed,
        },
    }
}

/// The number, compared, differed, first index and first place that a verdict carries, 0 where it
/// has none.
pub fn carried(verdict: Option<Verdict>) -> [u64; 5] {
    match verdict {
        Some(Verdict::Passed { compared }) => [0, compared.into(), 0, 0, 0],
        Some(Verdict::Differs {
            compared,
            differed,
            first_index,
            first_place,
        }) => [
            0,
            compared.into(),
            differed.into(),
            first_index.into(),
            first_place as u64,
        ],
        Some(Verdict::Refused {
            number,
            compared,
            differed,
        }) => [number.into(), compared.into(), differed.into(), 0, 0],
        Some(Verdict::NothingCompared) | None => [0; 5],
    }
}
