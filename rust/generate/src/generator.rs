//! The state of a recording that is being made, and the loop that makes it.

use crate::sequences::sequences;
use model::machine::Machine;
use model::recording::RDRAM_BYTES;
use random::Random;

/// What a recording has in it.
#[derive(Clone, Copy, Debug, PartialEq, Eq)]
pub enum Traffic {
    /// Runs of one engine each.
    Plain,
    /// Runs of both engines, too.
    Merged,
    /// Runs of both engines, and words that often stay queued behind a run.
    Queue,
}

/// A recording that is being made, and the machine that its records lead to.
pub(crate) struct Generator {
    pub(crate) random: Random,
    /// Chooses the mirrors and nothing else, so that all other choices of a seed are the same with
    /// mirrors and without.
    pub(crate) mirrors: Random,
    pub(crate) machine: Machine,
    pub(crate) bytes: Vec<u8>,
    pub(crate) limit: usize,
    /// Runs of both engines are made. Nothing is chosen for them otherwise, so that a seed gives
    /// what it gave before there were any.
    pub(crate) merged: bool,
    /// A record did not fit: nothing more is written.
    pub(crate) done: bool,
    pub(crate) sp_words: u32,
    /// Opcodes still to be used before any is used again.
    pub(crate) opcodes: Vec<u8>,
    /// Memory addresses worth a check.
    pub(crate) touched: Vec<u32>,
}

impl Generator {
    fn new(seed: u64, limit: usize, traffic: Traffic) -> Generator {
        Generator {
            random: Random::new(seed),
            mirrors: Random::new(!seed),
            machine: Machine::new(RDRAM_BYTES),
            bytes: Vec::new(),
            limit,
            merged: traffic != Traffic::Plain,
            done: false,
            sp_words: 0,
            opcodes: Vec::new(),
            touched: Vec::new(),
        }
    }
}

/// The recording of a seed, of at most `limit` bytes. The same arguments always give the same
/// bytes.
pub fn generate(seed: u64, limit: usize, traffic: Traffic) -> Vec<u8> {
    let mut generator = Generator::new(seed, limit, traffic);
    // Most recordings begin with memories that are not zeros.
    if limit > 3_000 && !generator.random.once_in(8) {
        generator.fill();
    }
    while !generator.done {
        let mut sequences = sequences(traffic);
        generator.random.shuffle(&mut sequences);
        for sequence in sequences {
            sequence(&mut generator);
        }
    }
    generator.bytes
}
