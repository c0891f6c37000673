//! The sizes and offsets of the structs that cross to the library, by C's rules for x86-64. A
//! struct that is laid out in another way does not compile.

use crate::{Answer, DpState, Findings, Outcome, Part, Ran, Reading, Record, Replayed, SpState};
use crate::{State, QUEUE_WORDS};
use std::mem::{offset_of, size_of};

macro_rules! layout {
    ($($type:ident: $bytes:literal, $($field:ident $offset:literal)*;)*) => {
        $(
            const _: () = assert!(size_of::<$type>() == $bytes);
            $(const _: () = assert!(offset_of!($type, $field) == $offset);)*
        )*
    };
}

layout! {
    SpState: 48, sp_latch 0 ram_latch 4 sp_addr 8 ram_addr 12 len 16 count 20 skip 24 row_len 28
        waiting_word 32 busy 36 storing 37 full 38 waiting_storing 39 halted 40 broke 41
        single_step 42 interrupt_on_break 43 signals 44 line 45 semaphore 46;
    DpState: 44, start 0 end 4 current 8 limit 12 clock 16 cmd_busy_count 20 pipe_busy_count 24
        tmem_busy_count 28 start_pending 32 end_pending 33 xbus 34 freeze 35 flush 36 pipe_busy 37
        words_left 38 line 39 queued 40 head 41;
    State: 352, sp 0 dp 48 queue 96;
    Answer: 24, number 0 value 8 count 16;
    Outcome: 376, state 0 answer 352;
    Ran: 384, outcome 0 words 376;
    Part: 12, memory 0 offset 4 length 8;
    Record: 16, value 0 address 8 kind 12;
    Reading: 32, item 0 place 16 number 24;
    Findings: 24, compared 0 differed 4 first_index 8 first_place 16;
    Replayed: 416, outcome 0 written 376 place 384 findings 392;
}

const _: () = assert!(size_of::<[u64; QUEUE_WORDS]>() == 256);
