//! The kinds of event that traffic must show, and how often each came up.

use crate::coverage::summary::grouped;

macro_rules! events {
    ($($name:ident: $text:literal,)*) => {
        /// Something that the rules single out.
        #[derive(Clone, Copy, Debug, PartialEq, Eq)]
        pub enum Event { $($name,)* }

        /// All of them, with their names in the totals.
        pub const EVENTS: &[(Event, &str)] = &[$((Event::$name, $text),)*];
    };
}

events! {
    Loaded: "words loaded",
    Stored: "words stored",
    LoadedZeros: "loaded past the lent length",
    DroppedStore: "stores past the lent length",
    BankEnd: "bank ends passed",
    WordWrap: "2^24 passed by a word",
    SkipWrap: "2^24 passed by SKIP",
    RowEnd: "rows ended",
    RowSkipped: "SKIP added",
    TransferEnd: "transfers ended",
    WaitingBegan: "waiting transfers begun",
    TransferBegan: "transfers begun",
    TransferWaits: "transfers that wait",
    WaitingReplaced: "waiting transfers replaced",
    LatchWhileFull: "latches written while full",
    IdleRun: "idle runs",
    BudgetStop: "runs ended by the budget",
    IdleStop: "runs ended by idling",
    ZeroBudget: "budgets of 0",
    HugeBudget: "budgets of 0xFFFFFFFF",
    RowBegunWithin: "SP runs begun within a row",
    RowEndedWithin: "SP runs ended within a row",
    SeveralRows: "SP runs over several rows",
    Fetched: "words fetched",
    FetchedFromDmem: "words fetched out of DMEM",
    FetchedZeros: "words fetched past the lent length",
    DmemEnd: "DMEM's end passed by a list",
    QueueFilled: "queues filled",
    QueueHeldUp: "fetches held up by a full queue",
    Consumed: "words consumed",
    SyncFull: "SYNC_FULL consumed",
    SyncFullLook: "later words that look like SYNC_FULL",
    SyncFullBefore: "SYNC_FULL consumed with words still queued",
    PipeOn: "PIPE_BUSY turned on by a fetch",
    PipeOff: "PIPE_BUSY turned off by a word consumed",
    QueuedRun: "runs begun with words queued",
    LeftQueued: "runs that left words queued",
    LeftFull: "runs that left a full queue",
    MidCommandRun: "runs begun within a command",
    MidCommandLeft: "runs that left words queued within a command",
    FlushQueued: "queues flushed",
    FrozenQueued: "queues frozen",
    StartQueued: "lists begun with words queued",
    QueuedTick: "ticks with words queued",
    WordsLeftTick: "ticks with words left alone",
    PipeOffBegan: "lists begun with PIPE_BUSY off",
    PipeOffEmpty: "empty lists begun with PIPE_BUSY off",
    PipeOffMoved: "LIMIT moved above CURRENT with PIPE_BUSY off",
    PipeOffByWrite: "waiting lists begun by a STATUS write with PIPE_BUSY off",
    WaitingListByTurn: "waiting lists begun by a turn",
    WaitingListByWrite: "waiting lists begun by a STATUS write",
    ListBegan: "lists begun",
    EmptyList: "empty lists begun",
    ListUnderFlush: "lists begun under FLUSH",
    ListWaits: "lists that wait",
    EndMoved: "LIMIT moved by END",
    EndNotAbove: "END at or below CURRENT",
    StartWhileWaiting: "START written while a list waits",
    FlushRunning: "running lists flushed",
    FlushWaiting: "waiting lists flushed",
    FlushMidCommand: "commands flushed",
    FrozenRunning: "running lists frozen",
    XbusMidList: "XBUS changed in a list",
    FrozenStop: "runs while frozen",
    OutputStop: "runs that fill the output",
    MergedRun: "runs of both engines",
    MergedZeroBudget: "runs of both with a budget of 0",
    MergedFrozen: "runs of both while frozen",
    MergedOutputStop: "runs of both that fill the output",
    SpEndedFirst: "runs of both with less words moved than fetched",
    DpEndedFirst: "runs of both with less words fetched than moved",
    SpAlone: "runs of both that go on with the SP alone",
    OtherBytes: "runs of both over other bytes",
    SameBytes: "runs of both over the same bytes",
    OrderDecided: "runs of both decided by the order",
    ClockWrap: "CLOCK wrapped",
    BusyTick: "ticks with a busy counter",
    BreakLine: "BREAK with INTBREAK",
    Acknowledged: "DP lines lowered",
    SemaphoreFree: "SEMAPHORE read as 0",
    SemaphoreTaken: "SEMAPHORE read as 1",
    ReadOk: "reads as expected",
    ReadDiffers: "reads not as expected",
    CheckOk: "checks as expected",
    CheckDiffers: "checks not as expected",
    MemoryPastLength: "stores and checks past the lent length",
}

/// How often each was seen, and each first byte of a command.
#[derive(Clone, Debug)]
pub struct Events {
    counts: [u64; EVENTS.len()],
    pub first_bytes: [u64; 256],
}

impl Default for Events {
    fn default() -> Events {
        Events {
            counts: [0; EVENTS.len()],
            first_bytes: [0; 256],
        }
    }
}

impl Events {
    pub fn of(&self, event: Event) -> u64 {
        self.counts[event as usize]
    }

    pub fn count(&mut self, event: Event) {
        self.counts[event as usize] += 1;
    }

    pub fn count_if(&mut self, condition: bool, event: Event) {
        self.counts[event as usize] += u64::from(condition);
    }

    pub fn add(&mut self, other: &Events) {
        for (mine, others) in self.counts.iter_mut().zip(&other.counts) {
            *mine += others;
        }
        for (mine, others) in self.first_bytes.iter_mut().zip(&other.first_bytes) {
            *mine += others;
        }
    }

    /// Every event by name and how often it was seen.
    pub fn line(&self) -> String {
        let parts: Vec<String> = EVENTS
            .iter()
            .map(|(event, text)| format!("{text} {}", grouped(self.of(*event))))
            .collect();
        parts.join(", ")
    }
}
