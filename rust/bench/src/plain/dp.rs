//! The DP engine.

use super::{words, Bank, Ring, SLOTS};
use std::iter::Take;
use std::slice::ChunksExactMut;

#[derive(Clone, Copy, Default)]
pub struct Dp {
    pub start: u32,
    pub end: u32,
    pub current: u32,
    pub limit: u32,
    pub clock: u32,
    pub cmd_busy_count: u32,
    pub pipe_busy_count: u32,
    pub tmem_busy_count: u32,
    pub start_pending: bool,
    pub end_pending: bool,
    pub xbus: bool,
    pub freeze: bool,
    pub flush: bool,
    pub pipe_busy: bool,
    pub words_left: u8,
    pub line: bool,
    pub queued: u8,
    /// The slot of the oldest queued word.
    pub head: u8,
}

const SYNC_FULL: u8 = 0x29;

/// The words of each command.
pub const LENGTHS: [u8; 64] = lengths();

const fn lengths() -> [u8; 64] {
    let triangles = [4, 6, 12, 14, 12, 14, 20, 22];
    let mut table = [1; 64];
    let mut i = 0;
    while i < 8 {
        table[8 + i] = triangles[i];
        i += 1;
    }
    table[0x24] = 2;
    table[0x25] = 2;
    table
}

impl Dp {
    #[inline]
    pub fn runs(&self) -> bool {
        self.current < self.limit
    }

    pub fn start_list(&mut self) {
        self.current = self.start;
        self.limit = if self.flush { self.start } else { self.end };
        self.start_pending = false;
        self.end_pending = false;
    }

    /// Counts a word for its command; a SYNC_FULL acts here.
    #[inline]
    fn frame(&mut self, op: u8) {
        if self.words_left > 0 {
            self.words_left -= 1;
            return;
        }
        self.words_left = LENGTHS[op as usize] - 1;
        if op == SYNC_FULL {
            self.pipe_busy = false;
            self.line = true;
        }
    }

    /// One turn: fetches a word into the queue. Tells whether it did.
    #[inline]
    pub fn fetch(&mut self, ring: &mut Ring, rdram: &[u8], dmem: &Bank) -> bool {
        if !self.runs() || self.freeze || usize::from(self.queued) == SLOTS {
            return false;
        }
        let word = if self.xbus {
            words::load(dmem, (self.current & 0xFF8) as usize)
        } else {
            words::load(rdram, self.current as usize)
        };
        ring[(self.head + self.queued) as usize % SLOTS] = u64::from_be_bytes(word);
        self.queued += 1;
        self.pipe_busy = true;
        self.current = (self.current + 8) & 0xFF_FFFF;
        if !self.runs() && self.end_pending {
            self.start_list();
        }
        true
    }

    #[inline]
    fn consumes(&self) -> bool {
        self.queued > 0 && !self.freeze
    }

    /// One consumer turn; gives the word taken.
    #[inline]
    pub fn consume(&mut self, ring: &Ring) -> Option<u64> {
        if !self.consumes() {
            return None;
        }
        let word = ring[self.head as usize % SLOTS];
        self.head = (self.head + 1) % SLOTS as u8;
        self.queued -= 1;
        self.frame((word >> 56) as u8 & 63);
        Some(word)
    }

    /// A fetch and a consumer turn, as far as they may; tells whether any acted.
    #[inline]
    pub fn round(&mut self, ring: &mut Ring, rest: &mut Rest, rdram: &[u8], dmem: &Bank) -> bool {
        let fetched = rest.fetches > 0 && self.fetch(ring, rdram, dmem);
        rest.fetches -= fetched as u32;
        if !self.consumes() {
            return fetched;
        }
        let Some(to) = rest.room.next() else {
            return fetched;
        };
        let word = self.consume(ring).unwrap_or_default();
        to.copy_from_slice(&word.to_be_bytes());
        rest.words += 1;
        true
    }

    /// Rounds until neither acts; gives the words consumed.
    pub fn run(&mut self, ring: &mut Ring, mut rest: Rest, rdram: &[u8], dmem: &Bank) -> u32 {
        // A local copy, so that the loop can hold these registers in the processor's.
        let mut dp = *self;
        while dp.round(ring, &mut rest, rdram, dmem) {}
        *self = dp;
        rest.words
    }
}

/// What is left to a run of its budgets and its output, and how many words it has consumed.
pub struct Rest<'a> {
    fetches: u32,
    room: Take<ChunksExactMut<'a, u8>>,
    pub words: u32,
}

impl Rest<'_> {
    pub fn new([fetches, words]: [u32; 2], out: &mut [u8]) -> Rest<'_> {
        Rest {
            fetches,
            room: out.chunks_exact_mut(8).take(words as usize),
            words: 0,
        }
    }
}
