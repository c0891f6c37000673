//! The state of the machine. Its layout is the library's: fields go by position.

/// The registers of the SP engine. A flag is a byte, 0 or 1; a state with any other byte there is
/// not sound.
#[repr(C)]
#[derive(Clone, Copy, Debug, Default, PartialEq, Eq)]
pub struct SpState {
    /// SPADDR as last written; the next transfer starts from it.
    pub sp_latch: u32,
    /// RAMADDR as last written; the next transfer starts from it.
    pub ram_latch: u32,
    /// SPADDR of the running or last transfer. Bit 12 picks IMEM.
    pub sp_addr: u32,
    /// RAMADDR of the running or last transfer.
    pub ram_addr: u32,
    /// What is left of the row, less 8 bytes.
    pub len: u32,
    /// The rows left after this one.
    pub count: u32,
    /// The bytes skipped in RDRAM after a row.
    pub skip: u32,
    /// LEN at the start of the transfer.
    pub row_len: u32,
    /// The length word that waits, or waited last.
    pub waiting_word: u32,
    /// Whether a transfer runs.
    pub busy: u8,
    /// The direction of the running or last transfer: 1 stores into RDRAM.
    pub storing: u8,
    /// Whether a transfer waits.
    pub full: u8,
    /// The direction that waits, or waited last.
    pub waiting_storing: u8,
    /// HALTED of STATUS.
    pub halted: u8,
    /// BROKE of STATUS.
    pub broke: u8,
    /// SSTEP of STATUS.
    pub single_step: u8,
    /// INTBREAK of STATUS: a BREAK raises the line.
    pub interrupt_on_break: u8,
    /// No flag: SIG0 to SIG7 are bits 0 to 7.
    pub signals: u8,
    /// The SP interrupt line.
    pub line: u8,
    /// The bit of SEMAPHORE.
    pub semaphore: u8,
}

/// The registers of the DP engine. A flag is a byte, 0 or 1, as in [`SpState`].
#[repr(C)]
#[derive(Clone, Copy, Debug, Default, PartialEq, Eq)]
pub struct DpState {
    /// START as last written.
    pub start: u32,
    /// END as last written.
    pub end: u32,
    /// The address of the running list's next word.
    pub current: u32,
    /// The end of the running list.
    pub limit: u32,
    /// The CLOCK counter.
    pub clock: u32,
    /// The CMD_BUSY counter.
    pub cmd_busy_count: u32,
    /// The PIPE_BUSY counter.
    pub pipe_busy_count: u32,
    /// The TMEM_BUSY counter.
    pub tmem_busy_count: u32,
    /// START_PENDING of STATUS.
    pub start_pending: u8,
    /// END_PENDING of STATUS: a list waits.
    pub end_pending: u8,
    /// XBUS of STATUS: lists are fetched from DMEM.
    pub xbus: u8,
    /// FREEZE of STATUS.
    pub freeze: u8,
    /// FLUSH of STATUS.
    pub flush: u8,
    /// PIPE_BUSY of STATUS: a word that is fetched turns it on; a SYNC_FULL that is consumed turns
    /// it off.
    pub pipe_busy: u8,
    /// No flag: the words left of the command that is being consumed.
    pub words_left: u8,
    /// The DP interrupt line.
    pub line: u8,
    /// No flag: how many words are queued, at most [`QUEUE_WORDS`].
    pub queued: u8,
    /// No flag: the slot of the oldest queued word.
    pub head: u8,
}

/// As many words fit into the queue.
pub const QUEUE_WORDS: usize = 32;

/// Both engines, and the words that were fetched and not yet consumed.
///
/// `queue` is a ring: the oldest word is in slot `dp.head`, the next in the slot after it, and slot
/// 0 comes after the last. [`State::queued_words`] gives them in order. `dp.head` and the slots
/// without a queued word are representation: no answer depends on them, but `==` sees them.
#[repr(C)]
#[derive(Clone, Copy, Debug, Default, PartialEq, Eq)]
pub struct State {
    /// The SP engine.
    pub sp: SpState,
    /// The DP engine.
    pub dp: DpState,
    /// The slots of the queue.
    pub queue: [u64; QUEUE_WORDS],
}

impl State {
    /// The queued words, the oldest first. Of a state that is not sound they are at most
    /// [`QUEUE_WORDS`], too.
    pub fn queued_words(&self) -> impl Iterator<Item = u64> + '_ {
        let from = usize::from(self.dp.head);
        let queued = usize::from(self.dp.queued).min(QUEUE_WORDS);
        (from..from + queued).map(|slot| self.queue[slot % QUEUE_WORDS])
    }
}
