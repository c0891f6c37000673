//! States that break one clause of soundness or several.

use crate::cases::states::sound;
use crate::data::state_fields::{field, FLAGS};
use ofersky::State;
use random::Random;

/// The ways to break a state, one clause each. A number field is broken above its width or below
/// its multiple of 8.
pub const BREAKS: &[&str] = &[
    "sp.sp_latch",
    "sp.ram_latch",
    "sp.sp_addr",
    "sp.ram_addr",
    "sp.len",
    "sp.count",
    "sp.skip",
    "sp.row_len",
    "dp.start",
    "dp.end",
    "dp.current",
    "dp.limit",
    "dp.clock",
    "dp.cmd_busy_count",
    "dp.pipe_busy_count",
    "dp.tmem_busy_count",
    "dp.words_left",
    "dp.queued",
    "dp.head",
    "flag",
    "FULL without BUSY",
    "LEN above ROW",
    "END_PENDING alone",
    "END_PENDING with nothing running",
    "FLUSH with a list running",
];

/// Breaks one clause of a sound state.
pub fn break_clause(random: &mut Random, state: &mut State, clause: &str) {
    let (sp, dp) = (&mut state.sp, &mut state.dp);
    match clause {
        "FULL without BUSY" => (sp.full, sp.busy) = (1, 0),
        "LEN above ROW" => {
            sp.busy = 1;
            sp.row_len &= 0x7F8;
            sp.len = sp.row_len + 8 + (random.next_u32() & 0x7F8);
        }
        "END_PENDING alone" => {
            (dp.end_pending, dp.start_pending, dp.freeze) = (1, 0, 1);
        }
        "END_PENDING with nothing running" => {
            (dp.end_pending, dp.start_pending, dp.freeze) = (1, 1, 0);
            dp.limit = dp.limit.min(dp.current);
        }
        "FLUSH with a list running" => {
            dp.flush = 1;
            dp.current &= 0x7F_FFF8;
            dp.limit = dp.current + 8 + (random.next_u32() & 0x7F_FFF8);
        }
        "flag" => {
            let name = random.pick(&FLAGS);
            (field(name).set)(state, u64::from(2 + random.below(254)));
        }
        name => break_number(random, state, name),
    }
}

/// The first number that is too large for a field, and the step from one number to the next.
pub fn span_of(name: &str) -> (u32, u32) {
    match name {
        "sp.sp_latch" | "sp.sp_addr" => (0x2000, 8),
        "sp.len" | "sp.skip" | "sp.row_len" => (0x1000, 8),
        "sp.count" => (0x100, 1),
        "dp.words_left" => (22, 1),
        "dp.queued" => (33, 1),
        "dp.head" => (32, 1),
        "dp.clock" | "dp.cmd_busy_count" | "dp.pipe_busy_count" | "dp.tmem_busy_count" => {
            (1 << 24, 1)
        }
        _ => (1 << 24, 8),
    }
}

/// Puts a number into a field that does not fit it. Only the edges are picked where they say the
/// most.
fn break_number(random: &mut Random, state: &mut State, name: &str) {
    let field = field(name);
    let (span, step) = span_of(name);
    let most = match name {
        "dp.words_left" | "dp.queued" | "dp.head" => 0xFF,
        _ => u32::MAX,
    };
    let value = (field.get)(state);
    let bad = match random.below(4) {
        0 if step == 8 => value | u64::from(1 + random.below(7)),
        1 => u64::from(span),
        2 => u64::from(most),
        _ => u64::from(span + random.below(most - span)),
    };
    (field.set)(state, bad);
}

/// Breaks one clause or several of a sound state.
pub fn unsound(random: &mut Random, rdram: usize) -> State {
    let mut state = sound(random, rdram);
    let breaks = random.pick(&[1, 1, 1, 2, 3]);
    for _ in 0..breaks {
        let clause = random.pick(BREAKS);
        break_clause(random, &mut state, clause);
    }
    state
}
