//! The bits of SP STATUS: as it is read, and `CLR_` and `SET_` as it is written.
//!
//! Where a write has both bits of a pair on, neither acts.

/// Read: the SP is halted. A transfer goes on all the same.
pub const HALTED: u32 = 1;
/// Read: a BREAK was met.
pub const BROKE: u32 = 1 << 1;
/// Read: a transfer runs.
pub const DMA_BUSY: u32 = 1 << 2;
/// Read: a transfer waits.
pub const DMA_FULL: u32 = 1 << 3;
/// Read: single step is on.
pub const SSTEP: u32 = 1 << 5;
/// Read: a BREAK raises the SP line.
pub const INTBREAK: u32 = 1 << 6;

/// Read: signal `n`, from 0 to 7.
pub const fn sig(n: u32) -> u32 {
    1 << (7 + n)
}

/// Write: turns HALTED off.
pub const CLR_HALT: u32 = 1;
/// Write: turns HALTED on.
pub const SET_HALT: u32 = 1 << 1;
/// Write: turns BROKE off.
pub const CLR_BROKE: u32 = 1 << 2;
/// Write: lowers the SP line.
pub const CLR_INTR: u32 = 1 << 3;
/// Write: raises the SP line.
pub const SET_INTR: u32 = 1 << 4;
/// Write: turns SSTEP off.
pub const CLR_SSTEP: u32 = 1 << 5;
/// Write: turns SSTEP on.
pub const SET_SSTEP: u32 = 1 << 6;
/// Write: turns INTBREAK off.
pub const CLR_INTBREAK: u32 = 1 << 7;
/// Write: turns INTBREAK on.
pub const SET_INTBREAK: u32 = 1 << 8;

/// Write: turns signal `n` off, from 0 to 7.
pub const fn clr_sig(n: u32) -> u32 {
    1 << (9 + 2 * n)
}

/// Write: turns signal `n` on, from 0 to 7.
pub const fn set_sig(n: u32) -> u32 {
    1 << (10 + 2 * n)
}
