//! What a replay says of its recording.

use crate::{raw, Findings, Replayed};

/// What a replay says of its recording. Only [`Verdict::Passed`] is a pass.
#[derive(Clone, Copy, Debug, PartialEq, Eq)]
pub enum Verdict {
    /// It came to its end, and all that was compared was as expected.
    Passed {
        /// How many reads and checks were compared.
        compared: u32,
    },
    /// It came to its end, and some of what was compared was not as expected.
    Differs {
        /// How many reads and checks were compared.
        compared: u32,
        /// How many of them found something else.
        differed: u32,
        /// The index of the first of these among all records, from 0 on.
        first_index: u32,
        /// The byte of the recording where it begins.
        first_place: usize,
    },
    /// It came to its end, and nothing was compared.
    NothingCompared,
    /// It did not come to its end; what it compared before that may differ or not.
    Refused {
        /// The number that it was refused by.
        number: u32,
        /// How many reads and checks were compared before.
        compared: u32,
        /// How many of them found something else.
        differed: u32,
    },
}

/// The code of [`Verdict::Passed`]. No code of a verdict is 0 or the number of a refusal.
pub const PASSED: u32 = 100;
/// The code of [`Verdict::Differs`].
pub const DIFFERS: u32 = 101;
/// The code of [`Verdict::NothingCompared`].
pub const NOTHING_COMPARED: u32 = 102;
/// The code of [`Verdict::Refused`].
pub const REFUSED: u32 = 103;

/// The verdict of a replay, for every value of the struct.
///
/// ```
/// use ofersky::{Replayed, Verdict};
///
/// fn replay(recording: &[u8]) -> Replayed {
///     let (mut rdram, mut dmem, mut imem) = ([0; 64], [0; 4096], [0; 4096]);
///     let state = ofersky::power_up();
///     ofersky::replay(state, recording, &mut rdram, &mut dmem, &mut imem, &mut [])
/// }
///
/// // A BREAK sets two bits of SP STATUS; the read expects 3.
/// let mut recording = [6, 2, 4, 4, 0, 0x10, 0, 0, 0, 3];
/// assert_eq!(ofersky::verdict(&replay(&recording)), Verdict::Passed { compared: 1 });
/// // It expects 2; the read is record 1 and begins at byte 1.
/// recording[9] = 2;
/// let differs = Verdict::Differs { compared: 1, differed: 1, first_index: 1, first_place: 1 };
/// assert_eq!(ofersky::verdict(&replay(&recording)), differs);
/// // The read is cut, and then left out.
/// let refused = Verdict::Refused { number: 8, compared: 0, differed: 0 };
/// assert_eq!(ofersky::verdict(&replay(&recording[..9])), refused);
/// assert_eq!(ofersky::verdict(&replay(&recording[..1])), Verdict::NothingCompared);
/// ```
pub fn verdict(replayed: &Replayed) -> Verdict {
    let number = replayed.outcome.answer.number;
    let Findings {
        compared,
        differed,
        first_index,
        first_place,
    } = replayed.findings;
    match verdict_code(replayed) {
        PASSED => Verdict::Passed { compared },
        DIFFERS => Verdict::Differs {
            compared,
            differed,
            first_index,
            first_place,
        },
        NOTHING_COMPARED => Verdict::NothingCompared,
        REFUSED => Verdict::Refused {
            number,
            compared,
            differed,
        },
        code => unreachable!("{code} is no verdict"),
    }
}

/// The verdict's code: [`PASSED`], [`DIFFERS`], [`NOTHING_COMPARED`] or [`REFUSED`].
pub fn verdict_code(replayed: &Replayed) -> u32 {
    // SAFETY: no pointer is handed over, and every value of the struct gets an answer.
    unsafe { raw::ofersky_verdict(*replayed) }
}
