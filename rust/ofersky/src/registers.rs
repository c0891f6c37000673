//! The addresses of the registers. Those of the DP are mirrored every [`DP_MIRROR_BYTES`] bytes, up
//! to `0x041F_FFFC`.

/// Where the next transfer begins in DMEM or, with bit 12, in IMEM.
pub const SP_SPADDR: u32 = 0x0404_0000;
/// Where the next transfer begins in RDRAM.
pub const SP_RAMADDR: u32 = 0x0404_0004;
/// A write loads: RDRAM into DMEM or IMEM.
pub const SP_RDLEN: u32 = 0x0404_0008;
/// A write stores: DMEM or IMEM into RDRAM.
pub const SP_WRLEN: u32 = 0x0404_000C;
/// Its bits are in [`sp_status`](crate::sp_status).
pub const SP_STATUS: u32 = 0x0404_0010;
/// Reads as 1 while a transfer waits.
pub const SP_DMA_FULL: u32 = 0x0404_0014;
/// Reads as 1 while a transfer runs.
pub const SP_DMA_BUSY: u32 = 0x0404_0018;
/// A read gives its bit and sets it; a write clears it.
pub const SP_SEMAPHORE: u32 = 0x0404_001C;

/// Where the next list begins.
pub const DP_START: u32 = 0x0410_0000;
/// Where the next list ends; a write starts it, or extends the list that runs.
pub const DP_END: u32 = 0x0410_0004;
/// The next word of the list that runs. Read-only.
pub const DP_CURRENT: u32 = 0x0410_0008;
/// Its bits are in [`dp_status`](crate::dp_status).
pub const DP_STATUS: u32 = 0x0410_000C;
/// Counts every tick. Read-only.
pub const DP_CLOCK: u32 = 0x0410_0010;
/// Counts the ticks while a word is queued. Read-only.
pub const DP_CMD_BUSY: u32 = 0x0410_0014;
/// Counts the ticks while PIPE_BUSY is on. Read-only.
pub const DP_PIPE_BUSY: u32 = 0x0410_0018;
/// Nothing counts it up. Read-only.
pub const DP_TMEM_BUSY: u32 = 0x0410_001C;
/// From a DP register to its next mirror.
pub const DP_MIRROR_BYTES: u32 = 0x20;
