//! An earlier library, under the names that build.rs gives its calls. It is one with the queue and
//! a run of three budgets, so that its structs are ours, and it need not have rows or bursts.

use crate::buffers::Buffers;
use crate::library::Library;
use ofersky::{Outcome, Ran, State};
use std::hint::black_box;

/// Only those of the timed calls are in the library.
#[allow(dead_code)]
mod raw {
    include!(concat!(env!("OUT_DIR"), "/before.rs"));
}
use raw::*;

/// A slice as C takes it.
fn shared(bytes: &[u8]) -> (*const u8, usize) {
    (bytes.as_ptr(), bytes.len())
}

/// A mutable slice as C takes it.
fn lent(bytes: &mut [u8]) -> (*mut u8, usize) {
    (bytes.as_mut_ptr(), bytes.len())
}

pub static BEFORE: Library = Library {
    run: |state, sp, dp, consumer, rdram, dmem, imem, out| {
        let [r, d, i, o] = [rdram, dmem, imem, out].map(lent);
        // SAFETY: each pointer and length are of one slice, borrowed for the call, and a mutable
        // borrow overlaps nothing. The library of `build.rs` has the same structs.
        unsafe {
            before_run(
                state, sp, dp, consumer, r.0, r.1, d.0, d.1, i.0, i.1, o.0, o.1,
            )
        }
    },
    sp_row: run_row,
    sp_turn: |state, rdram, dmem, imem| {
        let [r, d, i] = [rdram, dmem, imem].map(lent);
        // SAFETY: each pointer and length are of one slice, borrowed for the call, and a mutable
        // borrow overlaps nothing. The library of `build.rs` has the same structs.
        unsafe { before_sp_turn(state, r.0, r.1, d.0, d.1, i.0, i.1) }
    },
    dp_turn: |state, rdram, dmem| {
        let [r, d] = [rdram, dmem].map(shared);
        // SAFETY: each pointer and length are of one slice, borrowed for the call, and nothing is
        // written. The library of `build.rs` has the same structs.
        unsafe { before_dp_turn(state, r.0, r.1, d.0, d.1) }
    },
    // SAFETY: no pointer is handed over.
    consumer_turn: |state| unsafe { before_consumer_turn(state) },
    // SAFETY: no pointer is handed over.
    read_register: |state, address| unsafe { before_read_register(state, address) },
    // SAFETY: no pointer is handed over.
    write_register: |state, address, value| unsafe { before_write_register(state, address, value) },
    write_registers: single_writes,
    replay: |state, recording, rdram, dmem, imem, out| {
        let s = shared(recording);
        let [r, d, i, o] = [rdram, dmem, imem, out].map(lent);
        // SAFETY: each pointer and length are of one slice, borrowed for the call, and a mutable
        // borrow overlaps nothing. The library of `build.rs` has the same structs.
        unsafe { before_replay(state, s.0, s.1, r.0, r.1, d.0, d.1, i.0, i.1, o.0, o.1) }
    },
};

/// A run of as many words as the row has left.
fn run_row(ran: &mut Ran, b: &mut Buffers) {
    let state = &ran.outcome.state;
    let words = u32::from(state.sp.busy) * (state.sp.len / 8 + 1);
    *ran = black_box(&BEFORE).run(*state, [words, 0, 0], b);
}

/// A call for each pair of a burst.
fn single_writes(state: State, addresses: &[u32], values: &[u32]) -> Outcome {
    let mut done = Outcome {
        state,
        ..Outcome::default()
    };
    for (address, value) in addresses.iter().zip(values) {
        done = (black_box(&BEFORE).write_register)(done.state, *address, *value);
    }
    done.answer.count = addresses.len() as u32;
    done
}
