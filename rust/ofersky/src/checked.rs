//! Answers as `Result`, for `?`.
//!
//! Every call hands its input through and gives its whole answer. [`Checked::checked`] then sorts
//! the answer by its number: `Ok` for 0, `Err` for any other. Both sides carry the whole answer, so
//! nothing is lost: a burst that stops at a pair, or a replay that stops at a record, still has its
//! state, its count and its listing.
//!
//! ```
//! use ofersky::checked::{Checked, Refused};
//! use ofersky::registers::SP_RAMADDR;
//! use ofersky::{Outcome, Refusal};
//!
//! fn start() -> Result<Outcome, Refused<Outcome>> {
//!     let first = ofersky::write_register(ofersky::power_up(), SP_RAMADDR, 0x2000).checked()?;
//!     // The second address is not a register's.
//!     ofersky::write_registers(first.state, &[SP_RAMADDR, 0x0404_0020], &[0x3000, 0]).checked()
//! }
//!
//! let refused = start().unwrap_err();
//! assert_eq!(refused.refusal(), Some(Refusal::NoRegister));
//! assert_eq!(refused.to_string(), "refused by 5: no register at this address");
//! assert_eq!((refused.given.answer.count, refused.given.state.sp.ram_latch), (1, 0x3000));
//! ```

use crate::{message, Answer, Outcome, Ran, Reading, Refusal, Replayed};
use std::fmt;

/// An answer whose number is not 0.
#[derive(Clone, Debug, PartialEq, Eq)]
pub struct Refused<T> {
    /// The answer, as the call gave it. It is boxed because states are large.
    pub given: Box<T>,
}

impl<T: Checked> Refused<T> {
    /// The number of the answer.
    pub fn number(&self) -> u32 {
        self.given.number()
    }

    /// Its name. There is none for a number that the library does not give.
    pub fn refusal(&self) -> Option<Refusal> {
        Refusal::from_number(self.number())
    }
}

impl<T: Checked> fmt::Display for Refused<T> {
    fn fmt(&self, f: &mut fmt::Formatter<'_>) -> fmt::Result {
        let number = self.number();
        write!(f, "refused by {number}: {}", message(number))
    }
}

impl<T: Checked + fmt::Debug> std::error::Error for Refused<T> {}

/// What has a number: 0 for success, or that of a refusal.
pub trait Checked: Sized {
    /// The number.
    fn number(&self) -> u32;

    /// The whole answer, sorted by its number.
    fn checked(self) -> Result<Self, Refused<Self>> {
        match self.number() {
            0 => Ok(self),
            _ => Err(Refused {
                given: Box::new(self),
            }),
        }
    }
}

impl Checked for Answer {
    fn number(&self) -> u32 {
        self.number
    }
}

impl Checked for Outcome {
    fn number(&self) -> u32 {
        self.answer.number
    }
}

impl Checked for Ran {
    fn number(&self) -> u32 {
        self.outcome.answer.number
    }
}

impl Checked for Reading {
    fn number(&self) -> u32 {
        self.number
    }
}

impl Checked for Replayed {
    fn number(&self) -> u32 {
        self.outcome.answer.number
    }
}
