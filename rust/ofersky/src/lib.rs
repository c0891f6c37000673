//! Two DMA engines over lent memory, proved in Rattle, for Rust programs.
//!
//! Every call takes every input. Bad input goes through to the library, which refuses it by number:
//! nothing is filtered here. A state goes in by value and comes back in an [`Outcome`]. [`Refusal`]
//! names the numbers, [`message`] has a sentence for each, and [`checked`] gives answers as
//! `Result`.
//!
//! ```
//! use ofersky::{checked::Checked, registers::SP_RDLEN};
//!
//! let mut rdram = vec![0; 32768];
//! let (mut dmem, mut imem) = ([0; 4096], [0; 4096]);
//! let mut out = [0; 64];
//! // RDLEN 0x0F loads two words; the run moves them. There is no list, so no word is consumed.
//! let state = ofersky::write_register(ofersky::power_up(), SP_RDLEN, 0x0F).checked()?.state;
//! let ran = ofersky::run(state, 100, 100, 100, &mut rdram, &mut dmem, &mut imem, &mut out);
//! let ran = ran.checked()?;
//! assert_eq!((ran.outcome.answer.count, ran.words), (2, 0));
//! # Ok::<(), Box<dyn std::error::Error>>(())
//! ```
#![warn(missing_docs, clippy::undocumented_unsafe_blocks)]

mod answers;
mod calls;
pub mod checked;
pub mod dp_status;
mod layout;
/// The calls as the library exports them: a slice is a pointer and then a length.
mod raw;
mod record;
mod refusal;
pub mod registers;
pub mod sp_status;
mod state;
mod verdict;

pub use answers::{Answer, Findings, Outcome, Part, Ran, Reading, Replayed};
pub use calls::*;
pub use record::{Kind, Record, RECORD_DMEM, RECORD_IMEM};
pub use refusal::{message, Refusal};
pub use state::{DpState, SpState, State, QUEUE_WORDS};
pub use verdict::{verdict, verdict_code, Verdict, DIFFERS, NOTHING_COMPARED, PASSED, REFUSED};

/// The version of this package, as C's `OFERSKY_VERSION` has it: 10,000 times the major number, 100
/// times the minor one, and the patch number. It fits a library whose [`version`] has the same
/// major and minor number.
pub const VERSION: u32 = 800;

/// The longest RDRAM that may be lent. Its length is a multiple of 8.
pub const RDRAM_BYTES_MAX: usize = 16_777_216;
/// The length of DMEM and of IMEM.
pub const BANK_BYTES: usize = 4096;
/// The most pairs of a burst.
pub const BURST_PAIRS_MAX: usize = 64;
/// The longest recording.
pub const RECORDING_BYTES_MAX: usize = 16_383;
/// So many bytes always suffice for the listing of a replay.
pub const LISTING_BYTES: usize = 69_204;
