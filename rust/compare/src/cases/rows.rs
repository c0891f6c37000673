//! Rows of the SP at the edges that their words can pass.

use crate::data::memory::{ALL_WORDS, BANK_WORDS};
use ofersky::SpState;

/// Before which word of a row the bank begins again, RDRAM begins again and the lent length ends.
#[derive(Clone, Copy, Debug, Default, PartialEq, Eq)]
pub struct Edges {
    pub bank: Option<u32>,
    pub top: Option<u32>,
    pub length: Option<u32>,
}

impl Edges {
    /// Does little RDRAM do? It must reach almost to the top where its length ends before that, or
    /// there.
    pub fn are_small(&self) -> bool {
        match (self.top, self.length) {
            (Some(top), Some(length)) => top < length,
            _ => true,
        }
    }

    /// Puts a row with so many words left at these edges, and gives the length of RDRAM.
    pub fn place(&self, sp: &mut SpState, words: u32) -> usize {
        let inside = if words <= BANK_WORDS - 8 { 8 } else { 0 };
        let offset = 8 * self.bank.map_or(inside, |bank| BANK_WORDS - bank);
        let first = self.top.map_or(3, |top| ALL_WORDS - top);
        let fitted = match (self.top, self.length) {
            (Some(top), Some(length)) if top < length => length - top,
            (_, Some(length)) => first + length,
            (Some(top), None) => words.saturating_sub(top) + 4,
            (None, None) => first + words + 4,
        };
        sp.sp_addr = sp.sp_addr & 0x1000 | offset;
        sp.ram_addr = 8 * first;
        8 * fitted as usize
    }
}

/// A busy engine with so many words left of its row and so many moved already, so many rows after
/// it, and this direction.
pub fn busy(words: u32, moved: u32, count: u32, storing: u8) -> SpState {
    SpState {
        busy: 1,
        len: 8 * (words - 1),
        row_len: 8 * (words + moved - 1),
        count,
        skip: 0x18,
        storing,
        ..SpState::default()
    }
}

/// Lets a transfer of two rows of three words wait, in this direction if there is one. It wraps in
/// its bank.
pub fn wait(sp: &mut SpState, direction: Option<u8>) {
    if let Some(storing) = direction {
        (sp.full, sp.waiting_storing) = (1, storing);
        sp.waiting_word = 0x0080_1010;
        (sp.sp_latch, sp.ram_latch) = (0x1FF0, 0x20);
    }
}
