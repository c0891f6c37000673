//! What is made at random: values, states, memories, calls and recordings.

pub mod addresses;
pub mod bursts;
pub mod calls;
mod drawing_lists;
pub mod invalid_recordings;
pub mod lengths;
pub mod records;
pub mod replayed;
pub mod rows;
pub mod seed;
pub mod states;
pub mod traffic;
pub mod turns;
pub mod unsound_states;
pub mod values;
