//! What came up in the cases: events of traffic, conditions of calls, and the totals, with the
//! least that must have been.

mod accesses;
pub mod bursts;
pub mod counting_replay;
mod counting_runs;
pub mod events;
mod expectations;
pub mod findings;
pub mod queue;
pub mod rows;
pub mod runs;
pub mod shared_bytes;
pub mod summary;
pub mod tally;
pub mod totals;
