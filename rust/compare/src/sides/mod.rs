//! The two sides: a call by the library and by the model, what can be observed of it, and where
//! they differ.

pub mod composed_calls;
pub mod differences;
pub mod library;
pub mod model;
pub mod observed;
pub mod padded_memory;
pub mod series;
