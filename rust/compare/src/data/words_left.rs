//! The words that a state leaves to be moved, fetched and consumed.

use ofersky::State;

/// The words of a transfer from its start.
pub(crate) fn transfer_words(len: u32, count: u32) -> u64 {
    u64::from(count + 1) * u64::from(len / 8 + 1)
}

/// The words that the SP engine has still to move.
pub fn sp_left(state: &State) -> u64 {
    let sp = &state.sp;
    if sp.busy == 0 {
        return 0;
    }
    let running = u64::from(sp.len / 8 + 1) + u64::from(sp.count) * u64::from(sp.row_len / 8 + 1);
    let waiting = transfer_words(sp.waiting_word & 0xFF8, sp.waiting_word >> 12 & 0xFF);
    running + u64::from(sp.full) * waiting
}

/// The turns that a row stands for: the words left of it, none if the engine is idle.
pub fn row_words(state: &State) -> u32 {
    match state.sp.busy {
        0 => 0,
        _ => state.sp.len / 8 + 1,
    }
}

/// The words of the running list and of the one that waits.
pub fn dp_left(state: &State) -> u64 {
    let dp = &state.dp;
    let running = dp.limit.saturating_sub(dp.current) / 8;
    let waiting = dp.end.saturating_sub(dp.start) / 8;
    u64::from(running) + u64::from(dp.end_pending) * u64::from(waiting)
}

/// The words that are queued and those of the lists.
pub fn consumer_left(state: &State) -> u64 {
    u64::from(state.dp.queued) + dp_left(state)
}
