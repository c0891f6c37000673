//! What a replay gives, made at random, for verdicts on it.

use crate::data::verdicts::NUMBERS;
use ofersky::Replayed;
use random::Random;

/// A number that a verdict looks at: often 0 or 1, or at an edge.
fn looked_at(random: &mut Random) -> u32 {
    match random.below(8) {
        0..=2 => 0,
        3 => 1,
        4 => u32::MAX,
        5 => 1 << random.below(32),
        6 => random.below(300),
        _ => random.next_u32(),
    }
}

/// A struct of any numbers, of which most are from no replay. Its state is left as it is.
pub fn any_replayed(random: &mut Random) -> Replayed {
    let mut replayed = Replayed::default();
    for number in NUMBERS {
        let any = random.next_u64() & random.pick(&[0, 1, 0xFFFF, u64::MAX]);
        (number.set)(&mut replayed, any);
    }
    // Most of them came to their end: a refusal looks at the number alone.
    replayed.outcome.answer.number = looked_at(random) * random.below(2);
    replayed.findings.compared = looked_at(random);
    replayed.findings.differed = looked_at(random);
    replayed
}
