//! One pair of a MUS voice, read and written.
//!
//! Two bytes mean a note, a rest or a command with its value. Several pairs may mean one thing; the
//! writer uses one of them.
//!
//! ```
//! use turftangle::pair::{self, Meaning};
//!
//! let meaning = pair::read(0x80, 0x94)?;
//! assert_eq!(meaning.to_string(), "64th triplet F natural 5");
//! if let Meaning::Note(note) = meaning {
//!     assert_eq!(note.tone.map(|tone| tone.octave), Some(5));
//! }
//! assert_eq!(pair::half_step(meaning)?, 65);
//! assert_eq!(pair::write(meaning)?, [0xA0, 0x94]);
//! # Ok::<(), turftangle::Refusal>(())
//! ```

mod code;
mod meaning;
mod name;
mod words;

pub use meaning::{Accidental, Command, Duration, Letter, Meaning, Note, Shape, Tone};
pub use name::Name;

use crate::{raw, Reason, Refusal};

/// What a pair means.
///
/// # Errors
///
/// Refused with 27 and 28.
///
/// # Examples
///
/// ```
/// use turftangle::{pair, Reason};
///
/// assert_eq!(pair::read(0xF0, 0x94)?.to_string(), "quarter double-dotted tied F natural 5");
/// assert_eq!(pair::read(0x56, 0xFF)?.to_string(), "P-S -1");
/// assert_eq!(pair::read(0x6E, 0xF8).unwrap_err().reason, Reason::ValueRange);
/// # Ok::<(), turftangle::Refusal>(())
/// ```
pub fn read(first: u8, second: u8) -> Result<Meaning, Refusal> {
    let code = read_code(first, second)?;
    // A test reads all 65,536 pairs.
    Ok(Meaning::from_code(code).expect("the code of a pair spells a meaning"))
}

/// The pair that the writer uses for a meaning.
///
/// # Errors
///
/// Refused with 43 where no pair has it.
///
/// # Examples
///
/// ```
/// use turftangle::pair::{self, Command, Meaning, Name};
/// use turftangle::Reason;
///
/// let mut command = Command { name: Name::PS, value: -1 };
/// assert_eq!(pair::write(Meaning::Command(command))?, [0x56, 0xFF]);
/// command.value = -129;
/// assert_eq!(pair::write(Meaning::Command(command)).unwrap_err().reason, Reason::NoPair);
/// # Ok::<(), turftangle::Refusal>(())
/// ```
pub fn write(meaning: Meaning) -> Result<[u8; 2], Refusal> {
    write_code(code_of(meaning)?)
}

/// The code of what a pair means, by docs/INTERFACE.md.
///
/// # Errors
///
/// Refused with 27 and 28.
///
/// # Examples
///
/// ```
/// assert_eq!(turftangle::pair::read_code(0xF0, 0x94)?, 0x10421F05);
/// # Ok::<(), turftangle::Refusal>(())
/// ```
pub fn read_code(first: u8, second: u8) -> Result<u32, Refusal> {
    Refusal::split(raw::pair_read(first, second))
}

/// The pair that the writer uses for the meaning that has this code.
///
/// # Errors
///
/// Refused with 43 for every number that is not the code of some pair's meaning.
///
/// # Examples
///
/// ```
/// use turftangle::{pair, Reason};
///
/// assert_eq!(pair::write_code(0x10421F05)?, [0xF0, 0x94]);
/// assert_eq!(pair::write_code(0x10421F08).unwrap_err().reason, Reason::NoPair); // octave 8
/// # Ok::<(), turftangle::Refusal>(())
/// ```
pub fn write_code(code: u32) -> Result<[u8; 2], Refusal> {
    Refusal::split(raw::pair_write(code)).map(|pair| [(pair >> 8) as u8, pair as u8])
}

/// The half-step of a note, -1 to 96; that of A natural 4 is 57.
///
/// # Errors
///
/// Refused with 43 for a rest, a command, and a meaning that no pair has.
///
/// # Examples
///
/// ```
/// use turftangle::{pair, Reason};
///
/// assert_eq!(pair::half_step(pair::read(0xF0, 0x94)?)?, 65);
/// assert_eq!(pair::half_step(pair::read(0xF0, 0xF9)?)?, -1); // C flat, octave 0
/// assert_eq!(pair::half_step(pair::read(0xF0, 0x00)?).unwrap_err().reason, Reason::NoPair);
/// # Ok::<(), turftangle::Refusal>(())
/// ```
pub fn half_step(meaning: Meaning) -> Result<i32, Refusal> {
    half_step_of_code(code_of(meaning)?)
}

/// The half-step of the note that has this code, -1 to 96.
///
/// # Errors
///
/// Refused with 43 for a rest, a command, and every number that is not the code of some pair's
/// meaning.
///
/// # Examples
///
/// ```
/// assert_eq!(turftangle::pair::half_step_of_code(0x10421F05)?, 65);
/// assert_eq!(turftangle::pair::half_step_of_code(0x16400B17)?, 96); // B sharp, octave 7
/// # Ok::<(), turftangle::Refusal>(())
/// ```
pub fn half_step_of_code(code: u32) -> Result<i32, Refusal> {
    // The library answers the half-step plus 1, so that it is not below 0.
    Refusal::split(raw::half_step(code)).map(|value| value as i32 - 1)
}

/// The code of a meaning; a meaning that has none has no pair.
fn code_of(meaning: Meaning) -> Result<u32, Refusal> {
    meaning.code().ok_or(Refusal::nowhere(Reason::NoPair))
}
