//! Series of single turns by the library, and what demand 3 says of them.

use crate::data::ring::words;
use model::machine::command_length;
use ofersky::{Answer, State};
use random::Random;

/// A turn of the SP, the DP or the consumer, or a row, which counts as the turns that it takes; or
/// one that is declined, because a bank is lent with a byte less.
#[derive(Clone, Copy, Debug, PartialEq, Eq)]
pub enum Turn {
    Sp,
    Row,
    Fetch,
    Consume,
    DeclinedSp,
    DeclinedFetch,
}

impl Turn {
    pub fn is_sp(&self) -> bool {
        matches!(self, Turn::Sp | Turn::Row | Turn::DeclinedSp)
    }
}

/// What turns one after the other leave, and their answers by kind: the SP's, the DP's and the
/// consumer's.
#[derive(Clone, Debug, PartialEq, Eq)]
pub struct Series {
    pub state: State,
    pub memories: [Vec<u8>; 3],
    pub answers: [Vec<Answer>; 3],
}

impl Series {
    /// These turns from a state on.
    pub fn of(state: State, memories: [Vec<u8>; 3], turns: &[Turn]) -> Series {
        let mut series = Series {
            state,
            memories,
            answers: Default::default(),
        };
        turns.iter().for_each(|turn| series.take(*turn));
        series
    }

    pub fn take(&mut self, turn: Turn) {
        let [rdram, dmem, imem] = &mut self.memories;
        let state = self.state;
        let (kind, outcome) = match turn {
            Turn::Sp => (0, ofersky::sp_turn(state, rdram, dmem, imem)),
            Turn::Row => (0, ofersky::sp_row(state, rdram, dmem, imem)),
            Turn::DeclinedSp => (0, ofersky::sp_turn(state, rdram, dmem, &mut imem[1..])),
            Turn::Fetch => (1, ofersky::dp_turn(state, rdram, dmem)),
            Turn::DeclinedFetch => (1, ofersky::dp_turn(state, rdram, &dmem[1..])),
            Turn::Consume => (2, ofersky::consumer_turn(state)),
        };
        self.state = outcome.state;
        self.answers[kind].push(outcome.answer);
    }

    /// Is there nothing left to fetch or consume?
    pub fn is_drained(&self) -> bool {
        let dp = &self.state.dp;
        dp.current >= dp.limit && dp.end_pending == 0 && dp.queued == 0
    }

    /// Goes on until it is, with some turns of one kind and then of the other.
    pub fn drain(&mut self, random: &mut Random) {
        while !self.is_drained() {
            let turn = random.pick(&[Turn::Fetch, Turn::Consume]);
            (0..1 + random.below(40)).for_each(|_| self.take(turn));
        }
    }

    pub fn consumed(&self) -> Vec<u64> {
        let words = self.answers[2].iter().filter(|answer| answer.count == 1);
        words.map(|answer| answer.value).collect()
    }
}

/// The same turns, the SP's first.
pub fn sp_turns_first(turns: &[Turn]) -> Vec<Turn> {
    let (mut first, others): (Vec<Turn>, Vec<Turn>) = turns.iter().partition(|turn| turn.is_sp());
    first.extend(others);
    first
}

/// The queued words and then those of the lists, as they stand.
pub fn words_to_consume(state: &State, [rdram, dmem, _]: &[Vec<u8>; 3]) -> Vec<u64> {
    let dp = &state.dp;
    let waiting = if dp.end_pending == 1 { dp.end } else { 0 };
    let lists = (dp.current..dp.limit).chain(dp.start..waiting).step_by(8);
    let word = |address: u32| {
        let (memory, at) = match dp.xbus {
            0 => (rdram, address as usize),
            _ => (dmem, address as usize % 4_096),
        };
        let bytes = memory.get(at..at + 8).map(|bytes| bytes.try_into());
        bytes.map_or(0, |bytes| u64::from_be_bytes(bytes.expect("eight bytes")))
    };
    words(state).into_iter().chain(lists.map(word)).collect()
}

/// Does a SYNC_FULL stand before the last of these words? They are framed from these words left on.
pub fn sync_full_before_the_last(words: &[u64], words_left: u8) -> bool {
    let mut left = u32::from(words_left);
    let syncs = words.iter().map(|word| {
        let opcode = (word >> 56) as u8 % 64;
        let begins = left == 0;
        left = match begins {
            true => command_length(opcode) - 1,
            false => left - 1,
        };
        begins && opcode == 0x29
    });
    let before_the_last = words.len().saturating_sub(1);
    syncs.take(before_the_last).any(|sync| sync)
}
