//! Sidplayer MUS songs.
//!
//! A song has a load address, three voices of pairs and five lines of text. A voice is played out:
//! what stands between HED and TAL is repeated, and CAL plays a phrase again. What is left are its
//! events.
//!
//! ```
//! use turftangle::{mus, pair};
//!
//! let song = [
//!     0x00, 0x09, // load address
//!     0x0A, 0x00, 0x02, 0x00, 0x02, 0x00, // lengths of the voices
//!     0x06, 0x78, 0x36, 0x03, 0x20, 0x94, 0x01, 0x0F, 0x01, 0x4F, // TEM, HED, a note, TAL, HLT
//!     0x01, 0x4F, // HLT
//!     0x01, 0x4F, // HLT
//!     0x0D, 0x0D, 0x0D, 0x0D, 0x0D, 0x00, // five empty lines, and the end mark
//! ];
//! let mut told = Vec::new();
//! for event in mus::events(&song, 1)? {
//!     let at = event.offset;
//!     let meaning = pair::read(song[at], song[at + 1])?;
//!     told.push(format!("{}: {meaning}", event.jiffy));
//! }
//! let note = "64th F natural 5";
//! let notes = [0, 1, 3].map(|jiffy| format!("{jiffy}: {note}"));
//! assert_eq!(told[0], "0: TEM 120");
//! assert_eq!(told[1..4], notes);
//! assert_eq!(told[4], "5: HLT");
//! # Ok::<(), turftangle::Refusal>(())
//! ```

mod events;

pub use events::{events, Event, Events};

use crate::{raw, Refusal, Span};

/// How many numbers [`accept_into`] has to give: four for each voice.
pub const ACCEPT_CELLS: usize = 12;
/// How many numbers [`voices_into`] has to give: two for each voice.
pub const VOICES_CELLS: usize = 6;
/// How many numbers [`line_into`] has to give.
pub const LINE_CELLS: usize = 2;

/// What acceptance reports of a voice.
///
/// A later release may add fields.
#[derive(Clone, Copy, Debug, Default, PartialEq, Eq, Hash)]
#[non_exhaustive]
pub struct Voice {
    /// The file offset of its first pair.
    pub offset: usize,
    /// Its stored pairs.
    pub pairs: usize,
    /// Its events when played.
    pub events: usize,
    /// The pairs walked when it is played.
    pub walked: usize,
}

/// Where a voice lies in its file.
///
/// A later release may add fields.
#[derive(Clone, Copy, Debug, Default, PartialEq, Eq, Hash)]
#[non_exhaustive]
pub struct VoicePlace {
    /// The file offset of its first pair.
    pub offset: usize,
    /// Its stored pairs.
    pub pairs: usize,
}

/// The three voices of an accepted song.
///
/// # Errors
///
/// Refused with 21 to 33.
///
/// # Examples
///
/// ```
/// use turftangle::mus::accept;
/// # let song = include_bytes!(concat!(env!("CARGO_MANIFEST_DIR"), "/../crates/listing/stdin"));
///
/// let [first, second, third] = accept(song)?;
/// assert_eq!((first.offset, first.pairs), (8, 5));
/// assert_eq!((first.events, first.walked), (5, 9));
/// assert_eq!((second.offset, third.offset), (18, 20));
/// # Ok::<(), turftangle::Refusal>(())
/// ```
pub fn accept(file: &[u8]) -> Result<[Voice; 3], Refusal> {
    let mut cells = [0; ACCEPT_CELLS];
    accept_into(file, &mut cells)?;
    let cells = cells.map(|cell| cell as usize);
    Ok([0, 4, 8].map(|at| Voice {
        offset: cells[at],
        pairs: cells[at + 1],
        events: cells[at + 2],
        walked: cells[at + 3],
    }))
}

/// Puts as many of the twelve numbers as fit into `out`: for voice 1, then 2, then 3, what [`Voice`]
/// has, in its order; answers how many there are.
///
/// # Errors
///
/// Refused with 21 to 33.
///
/// # Examples
///
/// ```
/// use turftangle::mus::{accept_into, ACCEPT_CELLS};
/// # let song = include_bytes!(concat!(env!("CARGO_MANIFEST_DIR"), "/../crates/listing/stdin"));
///
/// let mut numbers = [0; 5];
/// assert_eq!(accept_into(song, &mut numbers)?, ACCEPT_CELLS);
/// assert_eq!(numbers, [8, 5, 5, 9, 18]);
/// # Ok::<(), turftangle::Refusal>(())
/// ```
pub fn accept_into(file: &[u8], out: &mut [u32]) -> Result<usize, Refusal> {
    Refusal::split_count(raw::mus_accept(file, out))
}

/// The load address of an accepted song.
///
/// # Errors
///
/// Refused with 21 to 33.
///
/// # Examples
///
/// ```
/// # let song = include_bytes!(concat!(env!("CARGO_MANIFEST_DIR"), "/../crates/listing/stdin"));
/// assert_eq!(turftangle::mus::load_address(song)?, 0x0900);
/// # Ok::<(), turftangle::Refusal>(())
/// ```
pub fn load_address(file: &[u8]) -> Result<u16, Refusal> {
    // An address is two bytes of the file.
    Refusal::split(raw::mus_load(file)).map(|address| address as u16)
}

/// Where a text line of an accepted song lies, without its $0D; None for a number that is not 1 to
/// 5. Its bytes are PETSCII: capital letters, digits and most signs are those of ASCII, the others
/// are not those of ISO 8859-1.
///
/// # Errors
///
/// Refused with 21 to 33.
///
/// # Examples
///
/// ```
/// use turftangle::{latin1, mus};
/// # let song = include_bytes!(concat!(env!("CARGO_MANIFEST_DIR"), "/../crates/muscheck/stdin"));
///
/// let first = mus::line(song, 1)?.expect("there are five lines");
/// assert_eq!(first.of(song).map(latin1).as_deref(), Some("TURFTANGLE REEL"));
/// assert_eq!(mus::line(song, 6)?, None);
/// # Ok::<(), turftangle::Refusal>(())
/// ```
pub fn line(file: &[u8], number: u32) -> Result<Option<Span>, Refusal> {
    let mut cells = [0; LINE_CELLS];
    let count = line_into(file, number, &mut cells)?;
    Ok((count == LINE_CELLS).then_some(Span {
        offset: cells[0] as usize,
        length: cells[1] as usize,
    }))
}

/// Puts offset and length of a text line into `out`, as many of the two as fit; answers how many
/// there are: 0 for a number that is not 1 to 5.
///
/// # Errors
///
/// Refused with 21 to 33.
///
/// # Examples
///
/// ```
/// use turftangle::mus::line_into;
/// # let song = include_bytes!(concat!(env!("CARGO_MANIFEST_DIR"), "/../crates/muscheck/stdin"));
///
/// let mut numbers = [0; 2];
/// assert_eq!(line_into(song, 2, &mut numbers)?, 2);
/// assert_eq!(numbers, [60, 5]);
/// assert_eq!(song[60..65], *b"MUSIC");
/// assert_eq!(line_into(song, 0, &mut numbers)?, 0);
/// # Ok::<(), turftangle::Refusal>(())
/// ```
pub fn line_into(file: &[u8], number: u32, out: &mut [u32]) -> Result<usize, Refusal> {
    Refusal::split_count(raw::mus_line(file, number, out))
}

/// Where the three voices lie, also in a song that is refused with 25 to 33.
///
/// # Errors
///
/// Refused with 21 to 24.
///
/// # Examples
///
/// ```
/// use turftangle::{mus, Reason};
/// # let song = include_bytes!(concat!(
/// #     env!("CARGO_MANIFEST_DIR"), "/../crates/cardcheck/data/unclosed.mus"));
///
/// assert_eq!(mus::accept(song).unwrap_err().reason, Reason::Structure);
/// let [first, second, third] = mus::voices(song)?;
/// assert_eq!((first.offset, first.pairs), (8, 25));
/// assert_eq!((second.offset, second.pairs), (58, 5));
/// assert_eq!((third.offset, third.pairs), (68, 1));
/// # Ok::<(), turftangle::Refusal>(())
/// ```
pub fn voices(file: &[u8]) -> Result<[VoicePlace; 3], Refusal> {
    let mut cells = [0; VOICES_CELLS];
    voices_into(file, &mut cells)?;
    let cells = cells.map(|cell| cell as usize);
    Ok([0, 2, 4].map(|at| VoicePlace {
        offset: cells[at],
        pairs: cells[at + 1],
    }))
}

/// Puts as many of the six numbers as fit into `out`: for voice 1, then 2, then 3, the file offset
/// of its first pair and its stored pairs; answers how many there are.
///
/// # Errors
///
/// Refused with 21 to 24.
///
/// # Examples
///
/// ```
/// use turftangle::mus::{voices_into, VOICES_CELLS};
/// # let song = include_bytes!(concat!(env!("CARGO_MANIFEST_DIR"), "/../crates/listing/stdin"));
///
/// let mut numbers = [0; VOICES_CELLS];
/// assert_eq!(voices_into(song, &mut numbers)?, 6);
/// assert_eq!(numbers, [8, 5, 18, 1, 20, 1]);
/// # Ok::<(), turftangle::Refusal>(())
/// ```
pub fn voices_into(file: &[u8], out: &mut [u32]) -> Result<usize, Refusal> {
    Refusal::split_count(raw::mus_voices(file, out))
}

/// Which voice (1 to 3) and which pair of it (counted from 0) begins at a file offset, such as the
/// place of a refusal from 27 to 31; None where none does. The place of 32 and 33 is the voice's first
/// pair, and stands for the whole voice.
///
/// # Errors
///
/// Refused with 21 to 24.
///
/// # Examples
///
/// ```
/// use turftangle::mus;
/// # let song = include_bytes!(concat!(
/// #     env!("CARGO_MANIFEST_DIR"), "/../crates/cardcheck/data/unclosed.mus"));
///
/// let refusal = mus::accept(song).unwrap_err();
/// assert_eq!(refusal.place, 56);
/// assert_eq!(mus::pair_at(song, 56)?, Some((1, 24))); // the last pair of voice 1, an HLT
/// assert_eq!(mus::pair_at(song, 57)?, None);
/// # Ok::<(), turftangle::Refusal>(())
/// ```
pub fn pair_at(file: &[u8], place: usize) -> Result<Option<(u32, usize)>, Refusal> {
    let mut places = (1..).zip(voices(file)?);
    Ok(places.find_map(|(number, voice)| {
        let distance = place.checked_sub(voice.offset)?;
        let begins = distance % 2 == 0 && distance / 2 < voice.pairs;
        begins.then_some((number, distance / 2))
    }))
}

/// Fills the two lists with file offset and jiffy of the events of a voice (1 to 3) from number
/// `first` on, in played order; answers how many cells of each are filled.
///
/// # Errors
///
/// Refused with 41, 42, then 21 to 33.
///
/// # Examples
///
/// ```
/// use turftangle::{mus, Reason};
/// # let song = include_bytes!(concat!(env!("CARGO_MANIFEST_DIR"), "/../crates/listing/stdin"));
///
/// let (mut offsets, mut jiffies) = ([0; 3], [0; 3]);
/// assert_eq!(mus::list(song, 1, 2, &mut offsets, &mut jiffies)?, 3);
/// assert_eq!(offsets, [12, 12, 16]);
/// assert_eq!(jiffies, [1, 3, 5]);
/// assert_eq!(mus::list(song, 1, 5, &mut offsets, &mut jiffies)?, 0);
/// let refusal = mus::list(song, 4, 0, &mut offsets, &mut jiffies).unwrap_err();
/// assert_eq!(refusal.reason, Reason::VoiceNumber);
/// # Ok::<(), turftangle::Refusal>(())
/// ```
pub fn list(
    file: &[u8],
    voice: u32,
    first: u64,
    offsets: &mut [u32],
    jiffies: &mut [u32],
) -> Result<usize, Refusal> {
    Refusal::split_count(raw::mus_list(file, voice, first, offsets, jiffies))
}

/// How long a voice (1 to 3) is when it is played, in 384ths of a jiffy: the exact time of HLT, its
/// last event. Divided by 384 and rounded down it is that event's jiffy. The voice is not played out.
///
/// Minutes and seconds are not given, since JIF may change how long a jiffy is. At 60 jiffies a second,
/// a second has 384 x 60 = 23,040 384ths.
///
/// # Errors
///
/// Refused with 41, then 21 to 33.
///
/// # Examples
///
/// ```
/// use turftangle::{mus, Reason};
/// # let song = include_bytes!(concat!(env!("CARGO_MANIFEST_DIR"), "/../crates/listing/stdin"));
///
/// let length = mus::length(song, 1)?;
/// assert_eq!(length, 3 * 720); // three 64ths at tempo 120
/// let last = mus::events(song, 1)?.last().map(|event| event.jiffy);
/// assert_eq!((length / 384, last), (5, Some(5)));
/// assert_eq!(mus::length(song, 4).unwrap_err().reason, Reason::VoiceNumber);
/// # Ok::<(), turftangle::Refusal>(())
/// ```
pub fn length(file: &[u8], voice: u32) -> Result<u64, Refusal> {
    let mut cells = [0];
    Refusal::split_count(raw::mus_length(file, voice, &mut cells))?;
    Ok(cells[0])
}
