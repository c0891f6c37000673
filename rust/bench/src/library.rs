//! The calls that are timed, of this library or of an earlier one.

use crate::buffers::Buffers;
use ofersky::{Outcome, Ran, Replayed, State};

/// A library by the addresses of its calls, which have the shape that the wrapper gives them. With
/// addresses that the compiler cannot foresee, it hands a state on with as many copies whether it
/// can look into a call or not.
#[allow(clippy::type_complexity)]
pub struct Library {
    pub run: fn(State, u32, u32, u32, &mut [u8], &mut [u8], &mut [u8], &mut [u8]) -> Ran,
    /// The row of the state in the outcome; it leaves the next outcome there, because one more copy
    /// would count.
    pub sp_row: fn(&mut Ran, &mut Buffers),
    pub sp_turn: fn(State, &mut [u8], &mut [u8], &mut [u8]) -> Outcome,
    pub dp_turn: fn(State, &[u8], &[u8]) -> Outcome,
    pub consumer_turn: fn(State) -> Outcome,
    pub read_register: fn(State, u32) -> Outcome,
    pub write_register: fn(State, u32, u32) -> Outcome,
    pub write_registers: fn(State, &[u32], &[u32]) -> Outcome,
    pub replay: fn(State, &[u8], &mut [u8], &mut [u8], &mut [u8], &mut [u8]) -> Replayed,
}

pub static OURS: Library = Library {
    run: ofersky::run,
    sp_row,
    sp_turn: ofersky::sp_turn,
    dp_turn: ofersky::dp_turn,
    consumer_turn: ofersky::consumer_turn,
    read_register: ofersky::read_register,
    write_register: ofersky::write_register,
    write_registers: ofersky::write_registers,
    replay: ofersky::replay,
};

fn sp_row(ran: &mut Ran, b: &mut Buffers) {
    let (dmem, imem) = (&mut b.dmem[..], &mut b.imem[..]);
    ran.outcome = ofersky::sp_row(ran.outcome.state, &mut b.rdram, dmem, imem);
}

/// The calls over these buffers.
impl Library {
    pub fn run(&self, state: State, [sp, dp, consumer]: [u32; 3], b: &mut Buffers) -> Ran {
        let (rdram, dmem, imem) = (&mut b.rdram, &mut b.dmem[..], &mut b.imem[..]);
        (self.run)(state, sp, dp, consumer, rdram, dmem, imem, &mut b.out)
    }

    pub fn sp_turn(&self, state: State, b: &mut Buffers) -> Outcome {
        (self.sp_turn)(state, &mut b.rdram, &mut b.dmem[..], &mut b.imem[..])
    }

    pub fn dp_turn(&self, state: State, b: &Buffers) -> Outcome {
        (self.dp_turn)(state, &b.rdram, &b.dmem[..])
    }

    pub fn replay(&self, state: State, recording: &[u8], b: &mut Buffers) -> Replayed {
        let (rdram, dmem, imem) = (&mut b.rdram, &mut b.dmem[..], &mut b.imem[..]);
        (self.replay)(state, recording, rdram, dmem, imem, &mut b.out)
    }
}
