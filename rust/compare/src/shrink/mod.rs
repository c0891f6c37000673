//! Makes a case that shows a difference as small as it can: fewer records or pairs, shorter
//! buffers, and numbers nearer to zero.

mod numbers;

use crate::data::call::{Call, Case};
use crate::data::memory::BANK;
use crate::data::recording::pieces;
use model::machine::DP_CURRENT;
use numbers::{all_numbers, get, recording, recording_mut, set, sizes, Number};
use std::ops::Range;
use std::time::{Duration, Instant};

/// How long it may take: shrinking must end also where each answer of the sides is slow.
const SECONDS: u64 = 5;

/// The smallest case found that still differs.
pub fn shrink(case: &Case, differs: &dyn Fn(&Case) -> bool) -> Case {
    let mut best = case.clone();
    let end = Instant::now() + Duration::from_secs(SECONDS);
    let mut keep = |best: &mut Case, candidate: Case| {
        let better = Instant::now() < end && candidate != *best && differs(&candidate);
        if better {
            *best = candidate;
        }
        better
    };
    loop {
        let before = best.clone();
        // Small memories first: every later try is faster with them.
        lower_numbers(&mut best, sizes(), &mut keep);
        fewer_records_or_pairs(&mut best, &mut keep);
        let numbers = all_numbers(&best);
        lower_numbers(&mut best, numbers, &mut keep);
        if best == before {
            return best;
        }
    }
}

type Keep<'a> = dyn FnMut(&mut Case, Case) -> bool + 'a;

/// Leaves records or pairs out, many at once and then one by one, from the end on: what a
/// difference needs is mostly before it.
fn fewer_records_or_pairs(best: &mut Case, keep: &mut Keep) {
    let mut size = records_or_pairs(best);
    while size > 0 {
        let mut end = records_or_pairs(best);
        while end > 0 {
            let from = end.saturating_sub(size);
            let candidate = without(best, from..end);
            keep(best, candidate);
            end = from;
        }
        size /= 2;
    }
}

/// The number of records, or of pairs; an address or a value alone is one, too.
fn records_or_pairs(case: &Case) -> usize {
    let [addresses, values] = case.call.pairs();
    let pairs = addresses.len().max(values.len());
    pairs.max(pieces(recording(case)).len())
}

/// The case without these records or pairs.
fn without(case: &Case, range: Range<usize>) -> Case {
    let mut candidate = case.clone();
    if let Call::WriteRegisters { addresses, values } = &mut candidate.call {
        for numbers in [addresses, values] {
            let [from, to] = [range.start, range.end].map(|end| end.min(numbers.len()));
            numbers.drain(from..to);
        }
    }
    if let Some(recording) = recording_mut(&mut candidate) {
        let pieces = pieces(recording);
        recording.drain(pieces[range.start].start..pieces[range.end - 1].end);
    }
    candidate
}

/// Lowers each number as far as the difference stays.
fn lower_numbers(best: &mut Case, numbers: Vec<Number>, keep: &mut Keep) {
    for number in numbers {
        loop {
            let value = get(best, &number);
            let lowered = lower(&number, value).into_iter().any(|value| {
                let mut candidate = best.clone();
                set(&mut candidate, &number, value);
                keep(best, candidate)
            });
            if !lowered {
                break;
            }
        }
    }
}

/// Values to try instead, the simplest first. The banks only become good, because a bad length is
/// no simpler than another; and of the addresses in a burst, one where a write does nothing is the
/// simplest.
fn lower(number: &Number, value: u64) -> Vec<u64> {
    let bank = BANK as u64;
    match number {
        Number::Dmem | Number::Imem if value == bank => Vec::new(),
        Number::Dmem | Number::Imem => vec![bank],
        Number::Address(_) if value == u64::from(DP_CURRENT) => Vec::new(),
        Number::Address(_) => vec![DP_CURRENT.into()],
        Number::Rdram => [0, 8, 4_096, 32_768]
            .into_iter()
            .filter(|length| *length < value)
            .collect(),
        _ if value == 0 => Vec::new(),
        _ => smaller(value),
    }
}

/// Less of a number: bits taken away, then a half of it, a quarter and so on, also as multiples of
/// 8.
fn smaller(value: u64) -> Vec<u64> {
    let highest = 1 << value.ilog2();
    let mut values = vec![0, value ^ highest, value & (value - 1)];
    for part in 1..=value.ilog2() {
        let less = value - (value >> part);
        values.extend([less, less & !7]);
    }
    values.retain(|less| *less < value);
    values
}
