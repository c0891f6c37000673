//! Addresses, and bits of registers, that the sequences share.

/// The addresses of the banks in records.
pub(crate) const DMEM: u32 = 0x0400_0000;
pub(crate) const IMEM: u32 = 0x0400_1000;

/// The largest budget.
pub(crate) const ALL: u32 = 0xFFFF_FFFF;

/// The DP registers stand in this many copies, this many bytes apart.
pub(crate) const DP_COPIES: u32 = 0x8000;
pub(crate) const DP_COPY_BYTES: u32 = 0x20;

/// The bits of an RDRAM address and of an SP address that a register keeps.
pub(crate) const RAM_BITS: u32 = 0x00FF_FFF8;
pub(crate) const SP_BITS: u32 = 0x1FF8;

// DP status writes.
pub(crate) const CLEAR_XBUS: u32 = 0x01;
pub(crate) const SET_XBUS: u32 = 0x02;
pub(crate) const CLEAR_FREEZE: u32 = 0x04;
pub(crate) const SET_FREEZE: u32 = 0x08;
pub(crate) const CLEAR_FLUSH: u32 = 0x10;
pub(crate) const SET_FLUSH: u32 = 0x20;
