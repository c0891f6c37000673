//! The functions of the static library. The compiler cannot check these declarations against the
//! library: the comparison with the model calls each of them.

use crate::{Answer, Outcome, Part, Ran, Reading, Record, Replayed, State};

extern "C" {
    pub fn ofersky_version() -> u32;
    pub fn ofersky_power_up() -> State;
    pub fn ofersky_is_sound(s: State) -> bool;
    pub fn ofersky_read_register(s: State, address: u32) -> Outcome;
    pub fn ofersky_write_register(s: State, address: u32, value: u32) -> Outcome;
    pub fn ofersky_write_registers(
        s: State,
        addresses: *const u32,
        addresses_length: usize,
        values: *const u32,
        values_length: usize,
    ) -> Outcome;
    pub fn ofersky_tick(s: State, n: u32) -> Outcome;
    pub fn ofersky_sp_break(s: State) -> Outcome;
    pub fn ofersky_acknowledge(s: State) -> Outcome;
    pub fn ofersky_sp_turn(
        s: State,
        rdram: *mut u8,
        rdram_bytes: usize,
        dmem: *mut u8,
        dmem_bytes: usize,
        imem: *mut u8,
        imem_bytes: usize,
    ) -> Outcome;
    pub fn ofersky_sp_row(
        s: State,
        rdram: *mut u8,
        rdram_bytes: usize,
        dmem: *mut u8,
        dmem_bytes: usize,
        imem: *mut u8,
        imem_bytes: usize,
    ) -> Outcome;
    pub fn ofersky_dp_turn(
        s: State,
        rdram: *const u8,
        rdram_bytes: usize,
        dmem: *const u8,
        dmem_bytes: usize,
    ) -> Outcome;
    pub fn ofersky_consumer_turn(s: State) -> Outcome;
    pub fn ofersky_run(
        s: State,
        sp_budget: u32,
        dp_budget: u32,
        consumer_budget: u32,
        rdram: *mut u8,
        rdram_bytes: usize,
        dmem: *mut u8,
        dmem_bytes: usize,
        imem: *mut u8,
        imem_bytes: usize,
        out: *mut u8,
        out_bytes: usize,
    ) -> Ran;
    pub fn ofersky_look_ahead(
        s: State,
        rdram: *const u8,
        rdram_bytes: usize,
        dmem: *const u8,
        dmem_bytes: usize,
    ) -> Part;
    pub fn ofersky_read_record(
        recording: *const u8,
        recording_bytes: usize,
        place: usize,
    ) -> Reading;
    pub fn ofersky_write_record(
        item: Record,
        buffer: *mut u8,
        buffer_bytes: usize,
        place: usize,
    ) -> Answer;
    pub fn ofersky_replay(
        s: State,
        recording: *const u8,
        recording_bytes: usize,
        rdram: *mut u8,
        rdram_bytes: usize,
        dmem: *mut u8,
        dmem_bytes: usize,
        imem: *mut u8,
        imem_bytes: usize,
        out: *mut u8,
        out_bytes: usize,
    ) -> Replayed;
    pub fn ofersky_verdict(r: Replayed) -> u32;
}
