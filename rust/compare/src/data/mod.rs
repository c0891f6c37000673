//! What is compared, as data: calls with their states and memories, recordings and verdicts.

pub mod call;
pub mod findings;
pub mod memory;
pub mod recording;
pub mod registers;
pub mod ring;
pub mod state_fields;
pub mod verdicts;
pub mod words_left;
