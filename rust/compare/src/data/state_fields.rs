//! The fields of a state in one table, and the states of both sides converted into each other.

use crate::data::ring::{slots, words};
use model::calls;
use ofersky::{DpState, SpState, State};

/// One field of a state, as a number.
pub struct Field {
    pub name: &'static str,
    pub get: fn(&State) -> u64,
    pub set: fn(&mut State, u64),
}

/// Makes the table and the conversions from one list of names. The struct literals do not compile
/// where a name is missing. The model has a plain queue in place of the ring.
macro_rules! fields {
    (sp: $($sp:ident)*; dp: $($dp:ident)*; ring: $($ring:ident)*; slots: $($slot:literal)*;) => {
        pub const FIELDS: &[Field] = &[
            $(Field {
                name: concat!("sp.", stringify!($sp)),
                get: |s| s.sp.$sp.into(),
                set: |s, value| s.sp.$sp = value as _,
            },)*
            $(Field {
                name: concat!("dp.", stringify!($dp)),
                get: |s| s.dp.$dp.into(),
                set: |s, value| s.dp.$dp = value as _,
            },)*
            $(Field {
                name: concat!("dp.", stringify!($ring)),
                get: |s| s.dp.$ring.into(),
                set: |s, value| s.dp.$ring = value as _,
            },)*
            $(Field {
                name: concat!("queue[", $slot, "]"),
                get: |s| s.queue[$slot],
                set: |s, value| s.queue[$slot] = value,
            },)*
        ];

        pub fn to_model(s: &State) -> calls::State {
            calls::State {
                sp: calls::SpState { $($sp: s.sp.$sp),* },
                dp: calls::DpState { $($dp: s.dp.$dp,)* head: s.dp.head },
                queue: words(s),
            }
        }

        /// A state of the model that is sound. Its ring is normalized.
        pub fn from_model(s: &calls::State) -> State {
            State {
                sp: SpState { $($sp: s.sp.$sp),* },
                dp: DpState { $($dp: s.dp.$dp,)* queued: s.queue.len() as u8, head: 0 },
                queue: slots(&s.queue),
            }
        }
    };
}

fields! {
    sp: sp_latch ram_latch sp_addr ram_addr len count skip row_len waiting_word busy storing full waiting_storing
        halted broke single_step interrupt_on_break signals line semaphore;
    dp: start end current limit clock cmd_busy_count pipe_busy_count tmem_busy_count start_pending end_pending xbus
        freeze flush pipe_busy words_left line;
    ring: queued head;
    slots: 0 1 2 3 4 5 6 7 8 9 10 11 12 13 14 15 16 17 18 19 20 21 22 23 24 25 26 27 28 29 30 31;
}

/// The fields that hold 0 or 1.
pub const FLAGS: [&str; 17] = [
    "sp.busy",
    "sp.storing",
    "sp.full",
    "sp.waiting_storing",
    "sp.halted",
    "sp.broke",
    "sp.single_step",
    "sp.interrupt_on_break",
    "sp.line",
    "sp.semaphore",
    "dp.start_pending",
    "dp.end_pending",
    "dp.xbus",
    "dp.freeze",
    "dp.flush",
    "dp.pipe_busy",
    "dp.line",
];

/// The field of this name.
pub fn field(name: &str) -> &'static Field {
    FIELDS
        .iter()
        .find(|field| field.name == name)
        .unwrap_or_else(|| panic!("no field {name}"))
}
