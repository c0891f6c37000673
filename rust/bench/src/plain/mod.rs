//! The same two engines in plain Rust, written for speed: a machine that is changed in place, with
//! no check of a call's input and no proof.

mod all_three;
pub mod dp;
mod listing;
pub mod registers;
pub mod replay;
pub mod sp;
mod words;
pub mod writing;

use dp::Dp;
use sp::Sp;

/// A bank has a fixed size, so that an offset cut to it needs no bounds check.
pub type Bank = [u8; 4096];

/// The slots of the queue. Where the oldest word stands and how many there are is told by registers
/// of the DP.
pub type Ring = [u64; SLOTS];

pub const SLOTS: usize = 32;

#[derive(Clone, Copy, Default)]
pub struct Machine {
    pub sp: Sp,
    pub dp: Dp,
    pub queue: Ring,
}

/// What a call leaves: the machine; the words moved or the records done; and the words consumed by
/// a run.
#[derive(Clone, Copy, Default)]
pub struct Ran {
    pub machine: Machine,
    pub count: u32,
    pub words: u32,
}

impl Ran {
    /// Where no word is consumed by a run.
    pub fn counted(machine: Machine, count: u32) -> Ran {
        Ran {
            machine,
            count,
            words: 0,
        }
    }
}
