//! The library compared with the model: the same calls on both, and everything that they give and
//! leave.
//!
//! `cargo test --release -p compare -- --nocapture` prints what was compared. The cases are the
//! same on every run; COMPARE_SEED=1 or any other number makes others.
//!
//! A [`comparison`] puts one case after the other to both sides. Where they differ, it makes the
//! case smaller by [`shrink`], and [`report`] puts it in words. The modules below build on each
//! other in this order: [`data`], [`sides`], [`coverage`], [`cases`].

pub mod cases;
pub mod comparison;
pub mod coverage;
pub mod data;
pub mod report;
pub mod shrink;
pub mod sides;
