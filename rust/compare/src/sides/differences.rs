//! Where two sides differ, in words.

use crate::data::recording::hex;
use crate::data::state_fields::FIELDS;
use crate::data::verdicts::carried;
use crate::sides::observed::Observed;
use ofersky::{Findings, Part, Reading};

/// The memories in the order of `Observed::bytes`.
const MEMORIES: [&str; 5] = ["RDRAM", "DMEM", "IMEM", "output", "next word"];

/// What a burst is lent, in the order of `Observed::pairs`.
const PAIRS: [&str; 2] = ["addresses", "values"];

/// One line for each part that differs, none where both sides agree.
pub fn differences(expected: &Observed, given: &Observed) -> Vec<String> {
    if expected == given {
        return Vec::new();
    }
    let mut lines = Vec::new();
    let numbers = numbers(expected).into_iter().zip(numbers(given));
    for ((name, expected), (_, given)) in numbers {
        if expected != given {
            lines.push(format!(
                "{name}: expected 0x{expected:X} by the model, given 0x{given:X} by the library"
            ));
        }
    }
    for (name, (expected, given)) in MEMORIES.iter().zip(expected.bytes.iter().zip(&given.bytes)) {
        lines.extend(bytes(name, expected, given));
    }
    for (name, (expected, given)) in PAIRS.iter().zip(expected.pairs.iter().zip(&given.pairs)) {
        lines.extend(first_number(name, expected, given));
    }
    lines
}

/// Every number that a call gives, with its name.
fn numbers(seen: &Observed) -> Vec<(&'static str, u64)> {
    let answer = seen.outcome.answer;
    let Part {
        memory,
        offset,
        length,
    } = seen.part;
    let Reading {
        item,
        place,
        number,
    } = seen.reading;
    let mut numbers = vec![
        ("number", answer.number.into()),
        ("value", answer.value),
        ("count", answer.count.into()),
        ("words", seen.words.into()),
        ("sound", seen.sound.into()),
        ("part.memory", memory.into()),
        ("part.offset", offset.into()),
        ("part.length", length.into()),
        ("reading.number", number.into()),
        ("reading.kind", item.kind.into()),
        ("reading.address", item.address.into()),
        ("reading.value", item.value),
        ("reading.place", place as u64),
        ("written", seen.written as u64),
        ("place", seen.place as u64),
        ("bytes beside the lent ones changed", seen.outside.into()),
    ];
    numbers.extend(findings(seen));
    let state = &seen.outcome.state;
    numbers.extend(FIELDS.iter().map(|field| (field.name, (field.get)(state))));
    numbers
}

/// What a replay found, and what its verdict carries.
fn findings(seen: &Observed) -> [(&'static str, u64); 10] {
    let Findings {
        compared,
        differed,
        first_index,
        first_place,
    } = seen.findings;
    let [number, all, others, index, place] = carried(seen.verdict);
    [
        ("findings.compared", compared.into()),
        ("findings.differed", differed.into()),
        ("findings.first_index", first_index.into()),
        ("findings.first_place", first_place as u64),
        ("verdict", seen.code.into()),
        ("verdict.number", number),
        ("verdict.compared", all),
        ("verdict.differed", others),
        ("verdict.first_index", index),
        ("verdict.first_place", place),
    ]
}

/// The first word that differs in a memory, and how many bytes differ in all.
fn bytes(name: &str, expected: &[u8], given: &[u8]) -> Option<String> {
    if expected == given {
        return None;
    }
    if expected.len() != given.len() {
        let (expected, given) = (expected.len(), given.len());
        return Some(format!(
            "{name}: {expected} bytes expected by the model, {given} given by the library"
        ));
    }
    let differs = |i: &usize| expected[*i] != given[*i];
    let places: Vec<usize> = (0..expected.len()).filter(differs).collect();
    let first = places[0] / 8 * 8;
    let last = (first + 8).min(expected.len());
    Some(format!(
        "{name} at 0x{first:X}: expected {} by the model, given {} by the library; bytes that differ: {}",
        hex(&expected[first..last]),
        hex(&given[first..last]),
        places.len()
    ))
}

/// The first number of a burst that differs from the one that was lent.
fn first_number(name: &str, expected: &[u32], given: &[u32]) -> Option<String> {
    let mut both = expected.iter().zip(given).enumerate();
    let (i, (expected, given)) = both.find(|(_, (expected, given))| expected != given)?;
    Some(format!(
        "{name} at 0x{i:X}: expected 0x{expected:08X} by the model, given 0x{given:08X} by the library"
    ))
}
