//! The memories that a call is lent: their lengths and what stands in them.

use random::Random;
use std::sync::OnceLock;

/// The banks' only allowed length.
pub const BANK: usize = 4_096;
/// The longest RDRAM allowed.
pub const LONGEST_RDRAM: usize = 1 << 24;
/// The bits of an RDRAM address.
pub const ADDRESS_BITS: u32 = 0xFF_FFF8;

/// The words of a bank, and those that have an RDRAM address.
pub const BANK_WORDS: u32 = 512;
pub(crate) const ALL_WORDS: u32 = 1 << 21;

/// Lengths in bytes, and which bytes: `fill` 0 means zeros.
#[derive(Clone, Copy, Debug, PartialEq, Eq)]
pub struct Lent {
    pub rdram: usize,
    pub dmem: usize,
    pub imem: usize,
    pub fill: u64,
}

impl Lent {
    pub fn new(rdram: usize, fill: u64) -> Lent {
        Lent {
            rdram,
            dmem: BANK,
            imem: BANK,
            fill,
        }
    }

    /// How far what is lent stands from where it would stand otherwise.
    pub fn shift(&self) -> usize {
        self.fill as usize % 8
    }

    /// RDRAM, DMEM and IMEM.
    pub fn bytes(&self) -> [Vec<u8>; 3] {
        [
            filled(self.rdram, self.fill),
            filled(self.dmem, self.fill.wrapping_mul(3)),
            filled(self.imem, self.fill.wrapping_mul(7)),
        ]
    }
}

/// Random bytes, made once: a part of them fills a memory much faster than new ones.
fn pool() -> &'static [u8] {
    static POOL: OnceLock<Vec<u8>> = OnceLock::new();
    POOL.get_or_init(|| {
        let mut random = Random::new(0x4F46_4552_534B_5930);
        (0..1 << 17)
            .flat_map(|_| drawing_word(&mut random).to_be_bytes())
            .collect()
    })
}

/// A random word, more often than by chance the first one of a SYNC_FULL or of a long command.
pub fn drawing_word(random: &mut Random) -> u64 {
    let mut word = random.next_u64().to_be_bytes();
    match random.below(8) {
        0 => word[0] = word[0] & 0xC0 | 0x29,
        1 => word[0] = word[0] & 0xCF | 0x08,
        _ => {}
    }
    u64::from_be_bytes(word)
}

/// As many bytes of this pattern; 0 means zeros.
pub fn filled(length: usize, fill: u64) -> Vec<u8> {
    if fill == 0 {
        return vec![0; length];
    }
    let pool = pool();
    let mut bytes = Vec::with_capacity(length);
    let mut from = fill.wrapping_mul(8) as usize % pool.len();
    while bytes.len() < length {
        let part = (length - bytes.len()).min(pool.len() - from);
        bytes.extend_from_slice(&pool[from..from + part]);
        from = 0;
    }
    bytes
}

/// An output whose bytes all tell their place, so that one written by mistake is seen.
pub fn output(length: usize) -> Vec<u8> {
    (0..length).map(|i| (i * 31) as u8 ^ 0x5A).collect()
}
