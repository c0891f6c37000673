//! Sound states, made field by field, near the edges of each rule.

use crate::cases::addresses::{ram_address, sp_address};
use crate::cases::values::{count, length, length_word, register_value};
use crate::data::memory::drawing_word;
use crate::data::memory::ADDRESS_BITS;
use ofersky::{DpState, SpState, State, QUEUE_WORDS};
use random::Random;

/// A sound state; RDRAM has this length.
pub fn sound(random: &mut Random, rdram: usize) -> State {
    State {
        sp: sound_sp(random, rdram),
        dp: sound_dp(random, rdram),
        // Every slot holds a word, queued or not.
        queue: [0; QUEUE_WORDS].map(|_| drawing_word(random)),
    }
}

fn sound_sp(random: &mut Random, rdram: usize) -> SpState {
    let busy = random.flag();
    let row = length(random);
    let len = match random.below(4) {
        0 => 0,
        1 => row,
        2 if busy == 0 => length(random),
        _ => random.below(row + 8) & 0xFF8,
    };
    SpState {
        sp_latch: sp_address(random),
        ram_latch: ram_address(random, rdram),
        sp_addr: sp_address(random),
        ram_addr: ram_address(random, rdram),
        len,
        count: count(random),
        skip: length(random),
        row_len: row,
        waiting_word: if random.once_in(4) {
            register_value(random)
        } else {
            length_word(random)
        },
        busy,
        storing: random.flag(),
        full: busy & random.flag(),
        waiting_storing: random.flag(),
        halted: random.flag(),
        broke: random.flag(),
        single_step: random.flag(),
        interrupt_on_break: random.flag(),
        signals: random.byte(),
        line: random.flag(),
        semaphore: random.flag(),
    }
}

/// The end of a list: near its start, below it or anywhere.
fn list_end(random: &mut Random, start: u32, rdram: usize) -> u32 {
    let near = random.below(32) * 8;
    match random.below(8) {
        0 => start,
        1 => start.saturating_sub(near),
        2 => ram_address(random, rdram),
        3 => start.saturating_add(8).min(0xFF_FFF8),
        _ => start.saturating_add(near).min(0xFF_FFF8),
    }
}

fn counter(random: &mut Random) -> u32 {
    match random.below(4) {
        0 => random.pick(&[0, 1, 0xFF_FFFF, 0xFF_FFFE]),
        1 => 0xFF_FF00 | random.next_u32() & 0xFF,
        _ => random.next_u32() & 0xFF_FFFF,
    }
}

/// How many words are queued: none, all that there is room for, or any number.
fn queued(random: &mut Random) -> u8 {
    match random.below(8) {
        0 | 1 => 0,
        2 => 32,
        3 => random.pick(&[1, 31]),
        _ => random.below(33) as u8,
    }
}

fn sound_dp(random: &mut Random, rdram: usize) -> DpState {
    let start = ram_address(random, rdram);
    let current = ram_address(random, rdram);
    let mut dp = DpState {
        start,
        end: list_end(random, start, rdram),
        current,
        limit: list_end(random, current, rdram),
        clock: counter(random),
        cmd_busy_count: counter(random),
        pipe_busy_count: counter(random),
        tmem_busy_count: counter(random),
        start_pending: random.flag(),
        end_pending: random.flag(),
        xbus: random.flag(),
        freeze: random.flag() & random.flag(),
        flush: random.flag() & random.flag(),
        pipe_busy: random.flag(),
        words_left: match random.below(4) {
            0 => random.pick(&[1, 2, 20, 21]),
            1 => random.below(22) as u8,
            _ => 0,
        },
        line: random.flag(),
        queued: queued(random),
        head: random.below(32) as u8,
    };
    make_consistent(&mut dp);
    dp
}

/// Changes what the clauses about flags do not allow together.
fn make_consistent(dp: &mut DpState) {
    if dp.flush == 1 {
        dp.limit = dp.limit.min(dp.current);
    }
    let runs = dp.current < dp.limit;
    if dp.freeze == 0 && !runs {
        dp.end_pending = 0;
    }
    dp.start_pending |= dp.end_pending;
}

/// A sound state in which both engines have some words left, but for FREEZE at times; words are
/// queued or not. Mostly the SP writes into the memory that the list is in, and often where the
/// list has yet to be fetched, or beside it.
pub fn both_busy(random: &mut Random, rdram: usize) -> State {
    let mut state = sound(random, rdram);
    let State { sp, dp, .. } = &mut state;
    let most = random.pick(&[30, 30, 30, 100]);
    let words = 1 + random.below(most);
    dp.current = ram_address(random, rdram).min(0xFF_F000);
    dp.limit = dp.current + 8 * words;
    (dp.flush, dp.freeze) = (0, u8::from(random.once_in(10)));
    (sp.busy, sp.row_len) = (1, sp.row_len & 0x78);
    sp.len = sp.len.min(sp.row_len);
    if random.once_in(3) {
        sp.count = random.below(4);
    }
    if !random.once_in(6) {
        sp.storing = 1 - dp.xbus;
    }
    if !random.once_in(3) {
        // From some words before the list to some after it.
        let place = (dp.current + 8 * random.below(words + 8)).wrapping_sub(0x20);
        sp.ram_addr = place & ADDRESS_BITS;
        sp.sp_addr = place & 0xFF8;
    }
    make_consistent(dp);
    state
}
