//! A plain model of two DMA engines over memory, written from the rules
//! alone. It is meant to be read beside the rules, so it follows their order
//! and words, and it is slow where slow is more obvious.

/// The engines, their registers, the two interrupt lines and the memories.
pub mod machine;

/// Records, the writing and the replay of a recording, and the text of its
/// listing.
pub mod recording;

/// Every call on a whole state, for every input, with its refusals.
pub mod calls;
