//! The bits of DP STATUS: as it is read, and `CLR_` and `SET_` as it is written.
//!
//! Where a write has both bits of a pair on, neither acts.

/// Read: lists are fetched from DMEM.
pub const XBUS: u32 = 1;
/// Read: nothing is fetched or consumed.
pub const FREEZE: u32 = 1 << 1;
/// Read: lists end where they begin.
pub const FLUSH: u32 = 1 << 2;
/// Read: always the same as [`PIPE_BUSY`].
pub const START_GCLK: u32 = 1 << 3;
/// Read: a word was fetched, and no SYNC_FULL was consumed since.
pub const PIPE_BUSY: u32 = 1 << 5;
/// Read: a word is queued.
pub const CMD_BUSY: u32 = 1 << 6;
/// Read: always on.
pub const READY: u32 = 1 << 7;
/// Read: a list runs.
pub const DMA_BUSY: u32 = 1 << 8;
/// Read: a list waits.
pub const END_PENDING: u32 = 1 << 9;
/// Read: START was written, and its list has not started.
pub const START_PENDING: u32 = 1 << 10;

/// Write: turns XBUS off.
pub const CLR_XBUS: u32 = 1;
/// Write: turns XBUS on.
pub const SET_XBUS: u32 = 1 << 1;
/// Write: turns FREEZE off.
pub const CLR_FREEZE: u32 = 1 << 2;
/// Write: turns FREEZE on.
pub const SET_FREEZE: u32 = 1 << 3;
/// Write: turns FLUSH off.
pub const CLR_FLUSH: u32 = 1 << 4;
/// Write: turns FLUSH on, ends the list and empties the queue, also where FLUSH is on already.
pub const SET_FLUSH: u32 = 1 << 5;
/// Write: sets the TMEM_BUSY counter to 0.
pub const CLR_TMEM_BUSY: u32 = 1 << 6;
/// Write: sets the PIPE_BUSY counter to 0.
pub const CLR_PIPE_BUSY: u32 = 1 << 7;
/// Write: sets the CMD_BUSY counter to 0.
pub const CLR_CMD_BUSY: u32 = 1 << 8;
/// Write: sets CLOCK to 0.
pub const CLR_CLOCK: u32 = 1 << 9;
