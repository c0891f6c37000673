//! Random recordings of sensible traffic, made from a seed.
//!
//! The traffic is made of sequences, each a few records for one of the engines. Every pass goes
//! through all sequences in a shuffled order. The model is run beside it, so that reads and checks
//! can carry what will be found.

mod both;
mod commands;
mod constants;
mod counters;
mod dp;
mod generator;
mod memory;
mod queue;
mod registers;
mod sequences;
mod sp;
mod values;
mod writer;

pub use generator::{generate, Traffic};
