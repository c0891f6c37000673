//! Single calls made at random.

use crate::cases::addresses::{not_register, register};
use crate::cases::bursts::any_burst;
use crate::cases::values::{budget, ticks, value_for};
use crate::data::call::{Call, Case};
use crate::data::memory::Lent;
use crate::data::words_left::{consumer_left, dp_left, sp_left};
use ofersky::State;
use random::Random;

/// The kinds of call that act on a state, for `call_of`.
pub const ON_A_STATE: usize = 13;

/// The first of them that names no register, the first that takes memory, and the run.
pub const NO_REGISTER: usize = 4;
pub const ON_MEMORY: usize = 8;
pub const RUN: usize = 11;

/// A call of this kind, with arguments that suit the state.
pub fn call_of(random: &mut Random, kind: usize, state: &State, rdram: usize) -> Call {
    match kind {
        0 => Call::IsSound,
        1 => Call::Read {
            address: any_address(random),
        },
        2 => {
            let address = any_address(random);
            let value = value_for(random, address, rdram);
            Call::Write { address, value }
        }
        3 => any_burst(random, rdram),
        NO_REGISTER => Call::Tick { n: ticks(random) },
        5 => Call::Break,
        6 => Call::Acknowledge,
        7 => Call::ConsumerTurn,
        ON_MEMORY => Call::SpTurn,
        9 => Call::SpRow,
        10 => Call::DpTurn,
        RUN => run_of(random, state),
        _ => Call::Look,
    }
}

/// A register's address, or at times none.
fn any_address(random: &mut Random) -> u32 {
    if random.once_in(8) {
        not_register(random)
    } else {
        register(random)
    }
}

/// A run of all three, or with a budget of 0 for one of them or two. At times the consumer's is
/// about what the output has room for.
pub fn run_of(random: &mut Random, state: &State) -> Call {
    let left = [sp_left(state), dp_left(state), consumer_left(state)];
    let out = run_output(random, left[2]);
    let mut budgets = left.map(|left| budget(random, left));
    if random.once_in(4) {
        budgets[2] = (out / 8 + random.index(3)).saturating_sub(1) as u32;
    }
    if random.once_in(3) {
        budgets[random.index(3)] = 0;
    }
    if random.once_in(8) {
        budgets[random.index(3)] = 0;
    }
    Call::Run { budgets, out }
}

/// The length of a run's output: none, less than a word, some words and a rest, or what so many
/// words take, a byte less or more.
fn run_output(random: &mut Random, words: u64) -> usize {
    let needed = 8 * words.min(300) as usize;
    match random.below(6) {
        0 => random.pick(&[0, 1, 7, 8, 9, 15, 16]),
        1 => random.index(300),
        2 => random.pick(&[needed, needed + 1, needed + 7, needed.saturating_sub(1)]),
        3 => random.index(needed + 1),
        _ => random.pick(&[64, 2_048, 2_051]),
    }
}

/// A case of any call on this state.
pub fn any_case(random: &mut Random, state: State, lent: Lent) -> Case {
    let kind = random.index(ON_A_STATE);
    let call = call_of(random, kind, &state, lent.rdram);
    Case { state, lent, call }
}
