//! The verdicts of replays: over structs that no replay gives, and over recordings whose wrong
//! expectations are known.

use compare::cases::invalid_recordings::{with_bad_address, with_bad_kind};
use compare::cases::replayed::any_replayed;
use compare::cases::seed::random_of_test;
use compare::cases::states::sound;
use compare::cases::traffic::Traffic;
use compare::cases::unsound_states::unsound;
use compare::comparison::Comparison;
use compare::coverage::counting_replay::CountingReplay;
use compare::coverage::findings::FindingCounts;
use compare::data::call::{Call, Case};
use compare::data::findings::{compared, findings_of};
use compare::data::memory::Lent;
use compare::data::recording::{pieces, LONGEST};
use compare::data::state_fields::to_model;
use compare::sides::observed::Observed;
use ofersky::{Findings, Replayed, State, Verdict, LISTING_BYTES};
use random::Random;
use std::ops::Range;

/// The verdict of a struct, on both sides.
fn judge(comparison: &mut Comparison, state: State, replayed: Replayed) -> Observed {
    let lent = Lent::new(0, 0);
    let replayed = Box::new(replayed);
    let call = Call::Verdict { replayed };
    comparison.check(&Case { state, lent, call })
}

/// Every number that a call gives, the codes, and others.
fn numbers() -> Vec<u32> {
    let others = [100, 101, 102, 103, 255, 256, 1 << 16, 1 << 31, u32::MAX];
    (0..20).chain(others).collect()
}

#[test]
fn structs_that_no_replay_gives() {
    let mut random = random_of_test(61);
    let mut comparison = Comparison::new("call");
    let counts = [0, 1, 2, 255, 256, 1 << 16, 1 << 31, u32::MAX];
    for number in numbers() {
        for compared in counts {
            for differed in counts {
                let mut replayed = any_replayed(&mut random);
                replayed.outcome.answer.number = number;
                replayed.findings.compared = compared;
                replayed.findings.differed = differed;
                let state = sound(&mut random, 4_096);
                judge(&mut comparison, state, replayed);
            }
        }
    }
    for _ in 0..40_000 {
        let replayed = any_replayed(&mut random);
        let state = match random.below(3) {
            0 => ofersky::power_up(),
            1 => sound(&mut random, 4_096),
            _ => unsound(&mut random, 4_096),
        };
        judge(&mut comparison, state, replayed);
    }
    let nobody_set = judge(&mut comparison, State::default(), Replayed::default());
    assert_eq!(nobody_set.verdict, Some(Verdict::NothingCompared));
    let totals = &comparison.totals;
    totals.expect_verdicts("verdict", [4_000, 8_000, 2_500, 8_000]);
    println!(
        "all verdicts: {}: {}",
        totals.calls_line(),
        totals.verdicts_line("verdict")
    );
}

/// A recording of which every expectation is right, from this state.
fn right(random: &mut Random, state: &State, lent: &Lent) -> Vec<u8> {
    let sequences = 1 + random.below(8);
    let mut traffic = Traffic::new(random, CountingReplay::new(to_model(state), lent.bytes()));
    traffic.wrong = None;
    for _ in 0..sequences {
        traffic.sequence();
    }
    let mut bytes = traffic.bytes;
    let ends = pieces(&bytes).into_iter().map(|piece| piece.end);
    let end = ends.take_while(|end| *end <= LONGEST).last();
    bytes.truncate(end.unwrap_or(0));
    bytes
}

/// Changes a bit of the expectations of some reads and checks: of none, one, some or all. Says of
/// which.
fn make_wrong(random: &mut Random, recording: &mut [u8]) -> Vec<bool> {
    let compared = compared(recording, usize::MAX);
    let style = random.below(4);
    let one = random.index(compared.len().max(1));
    let mut wrong = Vec::new();
    for (i, (_, piece)) in compared.into_iter().enumerate() {
        let this = match style {
            0 => false,
            1 => i == one,
            2 => random.once_in(3),
            _ => true,
        };
        if this {
            let expected = piece.start + 5..piece.end;
            recording[expected.start + random.index(expected.len())] ^= 1 << random.below(8);
        }
        wrong.push(this);
    }
    wrong
}

/// The recording with one record refused, or none; and how many are before that one.
fn stopped(random: &mut Random, recording: Vec<u8>) -> (Vec<u8>, usize) {
    let pieces = pieces(&recording);
    if recording.is_empty() || random.once_in(2) {
        return (recording, pieces.len());
    }
    let at = random.index(recording.len());
    let changed = match random.below(3) {
        0 => Some(with_bad_kind(random, &recording)),
        1 => with_bad_address(random, &recording, 4_096),
        _ => Some(recording[..at].to_vec()),
    };
    let changed = changed.unwrap_or_else(|| recording.clone());
    let same = |piece: &Range<usize>| changed.get(piece.clone()) == recording.get(piece.clone());
    let records = pieces.iter().take_while(|piece| same(piece)).count();
    (changed, records)
}

/// The verdict by its rule, of a replay that began.
fn expected(number: u32, found: Findings) -> Verdict {
    let Findings {
        compared,
        differed,
        first_index,
        first_place,
    } = found;
    match (number, differed, compared) {
        (0, 0, 0) => Verdict::NothingCompared,
        (0, 0, _) => Verdict::Passed { compared },
        (0, _, _) => Verdict::Differs {
            compared,
            differed,
            first_index,
            first_place,
        },
        _ => Verdict::Refused {
            number,
            compared,
            differed,
        },
    }
}

#[test]
fn recordings_with_known_expectations() {
    let mut random = random_of_test(62);
    let mut comparison = Comparison::new("recording");
    for _ in 0..15_000 {
        let lent = Lent::new(4_096, random.below(1 << 16).into());
        let state = match random.below(2) {
            0 => ofersky::power_up(),
            _ => sound(&mut random, lent.rdram),
        };
        let mut recording = right(&mut random, &state, &lent);
        let wrong = make_wrong(&mut random, &mut recording);
        let (recording, records) = stopped(&mut random, recording);
        let accepted = compared(&recording, records);
        let found = findings_of(&accepted, &wrong[..accepted.len()]);
        let out = random.pick(&[LISTING_BYTES, 0, 300]);
        let call = Call::Replay { recording, out };
        let seen = comparison.check(&Case { state, lent, call });
        assert_eq!(seen.outcome.answer.count as usize, records);
        assert_eq!(seen.findings, found);
        assert_eq!(seen.verdict, Some(expected(seen.number(), found)));
    }
    let totals = &comparison.totals;
    totals.expect_verdicts("replay", [1_000, 2_000, 1_000, 4_000]);
    totals.expect_found(FindingCounts {
        stopped: 1_000,
        uncounted: 300,
        later: 800,
        several: 1_200,
    });
    println!("all verdicts of recordings: {}", totals.recordings_line());
}
