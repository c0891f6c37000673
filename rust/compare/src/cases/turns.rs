//! Series of turns made at random.

use crate::sides::series::Turn;
use random::Random;

/// Turns in no order, often some of one kind together.
pub fn any_turns(random: &mut Random, groups: u32) -> Vec<Turn> {
    let mut turns = Vec::new();
    for _ in 0..random.below(groups) {
        let turn = match random.below(17) {
            0 => Turn::DeclinedSp,
            1 => Turn::DeclinedFetch,
            2..=6 => Turn::Sp,
            7..=11 => Turn::Fetch,
            12 => Turn::Row,
            _ => Turn::Consume,
        };
        let most = match turn {
            Turn::Row => 2,
            _ => random.pick(&[1, 1, 4, 40]),
        };
        turns.extend(vec![turn; 1 + random.index(most)]);
    }
    turns
}
