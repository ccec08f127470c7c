//! SAP songs of the Atari 8-bit computers, of types B, C, D and S.
//!
//! A SAP file has lines of text, which say how it is played and by whom it is, and blocks, which are
//! loaded into the memory of an Atari. One file may hold several songs. They are counted from 0.
//!
//! ```
//! use turftangle::{latin1, sap};
//!
//! let mut file = Vec::new();
//! for line in ["SAP", "NAME \"Inside\"", "TYPE B", "INIT 0F80", "PLAYER 247F", "TIME 06:37.62"] {
//!     file.extend(line.bytes().chain(*b"\r\n"));
//! }
//! file.extend([0xFF, 0xFF, 0x00, 0x06, 0x01, 0x06, 0xAB, 0xCD]); // two bytes for $0600
//!
//! let header = sap::header(&file)?;
//! let name = header.name.and_then(|name| name.of(&file)).map(latin1);
//! assert_eq!(name.as_deref(), Some("Inside"));
//! assert_eq!(header.player, sap::Player::B { init: 0x0F80, player: 0x247F });
//! let time = sap::time(&file, header.default_song)?;
//! assert_eq!(time.map(|time| time.milliseconds), Some(397_620));
//! let mut memory = vec![0; sap::MEMORY_SIZE];
//! sap::load(&file, &mut memory)?;
//! assert_eq!(memory[0x0600..0x0602], [0xAB, 0xCD]);
//! # Ok::<(), turftangle::Refusal>(())
//! ```

pub use crate::sid::MEMORY_SIZE;

use crate::{raw, Refusal, Span};
use std::fmt;

/// How many fields [`fields_into`] has to give.
pub const FIELD_CELLS: usize = 21;
/// How many numbers [`block_into`] has to give.
pub const BLOCK_CELLS: usize = 3;
/// What the library answers for a time that is not stated.
const UNSTATED: u32 = u32::MAX;

/// How a song is played: the type, with the addresses that the type needs.
#[derive(Clone, Copy, Debug, PartialEq, Eq, Hash)]
pub enum Player {
    /// A routine that begins a song, and one that is called at each interval.
    B {
        /// The address of the routine that begins a song.
        init: u16,
        /// The address of the routine that is called at each interval.
        player: u16,
    },
    /// Music of the Chaos Music Composer, with its player.
    C {
        /// The address of the music.
        music: u16,
        /// The address of the player.
        player: u16,
    },
    /// Digitized music: the routine that begins a song also plays it.
    D {
        /// The address of the routine that plays.
        init: u16,
        /// The address of a routine that is called at each interval, where there is one.
        player: Option<u16>,
    },
    /// Music of SoftSynth.
    S {
        /// The address of the routine that begins a song.
        init: u16,
    },
}

impl Player {
    /// The letter of the type.
    ///
    /// ```
    /// assert_eq!(turftangle::sap::Player::S { init: 0x2000 }.letter(), 'S');
    /// ```
    #[must_use]
    pub fn letter(self) -> char {
        match self {
            Player::B { .. } => 'B',
            Player::C { .. } => 'C',
            Player::D { .. } => 'D',
            Player::S { .. } => 'S',
        }
    }

    /// The player of the library's cells: letter, init, music, player, and whether there is a player.
    fn of(letter: u32, addresses: [u32; 3], there: bool) -> Player {
        let [init, music, player] = addresses.map(|address| address as u16);
        match u8::try_from(letter) {
            Ok(b'B') => Player::B { init, player },
            Ok(b'C') => Player::C { music, player },
            Ok(b'D') => Player::D {
                init,
                player: there.then_some(player),
            },
            // A test holds the archive's letters to these four.
            _ => Player::S { init },
        }
    }
}

impl fmt::Display for Player {
    fn fmt(&self, f: &mut fmt::Formatter<'_>) -> fmt::Result {
        f.pad(&format!("type {}", self.letter()))
    }
}

/// What an accepted SAP file says of itself.
///
/// A later release may add fields.
#[derive(Clone, Copy, Debug, PartialEq, Eq, Hash)]
#[non_exhaustive]
pub struct Header {
    /// The type, with its addresses.
    pub player: Player,
    /// How many songs there are, 1 to 32.
    pub songs: u32,
    /// The song to begin with, counted from 0.
    pub default_song: u32,
    /// Whether it is made for two POKEY chips.
    pub stereo: bool,
    /// Whether it is made for an NTSC machine; else for PAL.
    pub ntsc: bool,
    /// Whether it uses the COVOX at $D600.
    pub covox: bool,
    /// The interval of the player in scanlines: as stated, else 78 for type S, 262 with NTSC, 312.
    pub fastplay: u32,
    /// Whether the file states the interval.
    pub fastplay_stated: bool,
    /// The author, without the quotes.
    pub author: Option<Span>,
    /// The name, without the quotes.
    pub name: Option<Span>,
    /// The date, without the quotes.
    pub date: Option<Span>,
    /// How many times are stated; [`time`] gives them.
    pub times: usize,
    /// How many blocks there are, at most 4,294,967,295; [`block`] gives them.
    pub blocks: usize,
    /// Where the text ends: the file offset of the first FF FF.
    pub data: usize,
}

/// How long a song is.
#[derive(Clone, Copy, Debug, PartialEq, Eq, Hash)]
#[non_exhaustive]
pub struct Time {
    /// Up to its end, or up to where it begins to loop.
    pub milliseconds: u32,
    /// Whether it loops from there on.
    pub looped: bool,
}

impl Time {
    /// The library's number: 2 × milliseconds, and 1 more where the song loops.
    ///
    /// ```
    /// # let tune = include_bytes!(concat!(env!("CARGO_MANIFEST_DIR"), "/tests/data/inside.sap"));
    /// let time = turftangle::sap::time(tune, 1)?;
    /// assert_eq!(time.map(|time| time.number()), Some(2 * 154_020 + 1));
    /// # Ok::<(), turftangle::Refusal>(())
    /// ```
    #[must_use]
    pub fn number(self) -> u32 {
        2 * self.milliseconds + u32::from(self.looped)
    }

    /// The time of the library's number.
    fn of(number: u32) -> Time {
        Time {
            milliseconds: number / 2,
            looped: number % 2 == 1,
        }
    }
}

/// Minutes and seconds, as a TIME line has them.
impl fmt::Display for Time {
    fn fmt(&self, f: &mut fmt::Formatter<'_>) -> fmt::Result {
        let (seconds, thousandths) = (self.milliseconds / 1_000, self.milliseconds % 1_000);
        let looped = if self.looped { " LOOP" } else { "" };
        let (minutes, seconds) = (seconds / 60, seconds % 60);
        f.pad(&format!(
            "{minutes:02}:{seconds:02}.{thousandths:03}{looped}"
        ))
    }
}

/// A block: a part of the file, and where it is loaded to.
#[derive(Clone, Copy, Debug, PartialEq, Eq, Hash)]
#[non_exhaustive]
pub struct Block {
    /// The address of its first byte.
    pub start: u16,
    /// The address of its last byte.
    pub end: u16,
    /// The file offset of its first byte; 4,294,967,295 where it stands past that.
    pub offset: usize,
}

impl Block {
    /// The part of the file that is loaded.
    ///
    /// ```
    /// # let tune = include_bytes!(concat!(env!("CARGO_MANIFEST_DIR"), "/tests/data/inside.sap"));
    /// let block = turftangle::sap::block(tune, 1)?;
    /// let data = block.and_then(|block| block.span().of(tune));
    /// assert_eq!(data, Some(&[0x01, 0x42, 0xA3][..]));
    /// # Ok::<(), turftangle::Refusal>(())
    /// ```
    #[must_use]
    pub fn span(self) -> Span {
        Span {
            offset: self.offset,
            length: usize::from(self.end.saturating_sub(self.start)) + 1,
        }
    }
}

/// Whether the SAP file is accepted.
///
/// # Errors
///
/// Refused with 51 to 54.
///
/// # Examples
///
/// ```
/// use turftangle::{sap, Reason};
/// # let tune = include_bytes!(concat!(env!("CARGO_MANIFEST_DIR"), "/tests/data/inside.sap"));
///
/// assert!(sap::read(tune).is_ok());
/// let cut = &tune[..tune.len() - 1];
/// assert_eq!(sap::read(cut).unwrap_err().reason, Reason::SapBlock);
/// ```
pub fn read(file: &[u8]) -> Result<(), Refusal> {
    Refusal::split(raw::sap_read(file)).map(|_| ())
}

/// Puts as many of the fields as fit into `out`, in the order of docs/INTERFACE.md; answers how
/// many there are.
///
/// # Errors
///
/// Refused with 51 to 54.
///
/// # Examples
///
/// ```
/// use turftangle::sap::{fields_into, FIELD_CELLS};
/// # let tune = include_bytes!(concat!(env!("CARGO_MANIFEST_DIR"), "/tests/data/inside.sap"));
///
/// let mut fields = [0; 3];
/// assert_eq!(fields_into(tune, &mut fields)?, FIELD_CELLS);
/// assert_eq!(fields, [b'B'.into(), 3, 0]); // type B, three songs, the first is 0
/// # Ok::<(), turftangle::Refusal>(())
/// ```
pub fn fields_into(file: &[u8], out: &mut [u32]) -> Result<usize, Refusal> {
    Refusal::split_count(raw::sap_fields(file, out))
}

/// The header of an accepted SAP file.
///
/// # Errors
///
/// Refused with 51 to 54.
///
/// # Examples
///
/// ```
/// use turftangle::sap::{header, Player};
/// # let tune = include_bytes!(concat!(env!("CARGO_MANIFEST_DIR"), "/tests/data/inside.sap"));
///
/// let header = header(tune)?;
/// assert_eq!(header.player, Player::B { init: 0x0F80, player: 0x247F });
/// assert_eq!((header.songs, header.times, header.blocks), (3, 3, 2));
/// assert_eq!((header.fastplay, header.fastplay_stated), (312, false));
/// assert_eq!(header.author.and_then(|text| text.of(tune)), Some(&b"Jakub Husak"[..]));
/// # Ok::<(), turftangle::Refusal>(())
/// ```
pub fn header(file: &[u8]) -> Result<Header, Refusal> {
    let mut cells = [0; FIELD_CELLS];
    fields_into(file, &mut cells)?;
    // No text stands at the front of a file.
    let text = |at: usize| {
        (cells[at] > 0).then_some(Span {
            offset: cells[at] as usize,
            length: cells[at + 1] as usize,
        })
    };
    Ok(Header {
        player: Player::of(cells[0], [cells[8], cells[9], cells[10]], cells[11] == 1),
        songs: cells[1],
        default_song: cells[2],
        stereo: cells[3] == 1,
        ntsc: cells[4] == 1,
        covox: cells[5] == 1,
        fastplay: cells[6],
        fastplay_stated: cells[7] == 1,
        author: text(12),
        name: text(14),
        date: text(16),
        times: cells[18] as usize,
        blocks: cells[19] as usize,
        data: cells[20] as usize,
    })
}

/// Puts the blocks into their places in memory, which has [`MEMORY_SIZE`] bytes, one after the other:
/// a later byte replaces an earlier one. Every other byte keeps what it held.
///
/// # Errors
///
/// Refused with 40, then 51 to 54.
///
/// # Examples
///
/// ```
/// use turftangle::{sap, Reason};
/// # let tune = include_bytes!(concat!(env!("CARGO_MANIFEST_DIR"), "/tests/data/inside.sap"));
///
/// let mut memory = vec![0xFF; sap::MEMORY_SIZE];
/// sap::load(tune, &mut memory)?;
/// assert_eq!(memory[0x05FF..0x0603], [0xFF, 0xAB, 0xCD, 0xFF]);
/// assert_eq!(memory[0x2024..0x2029], [0xFF, 0x01, 0x42, 0xA3, 0xFF]);
/// assert_eq!(sap::load(tune, &mut [0; 4]).unwrap_err().reason, Reason::MemorySize);
/// # Ok::<(), turftangle::Refusal>(())
/// ```
pub fn load(file: &[u8], memory: &mut [u8]) -> Result<(), Refusal> {
    Refusal::split(raw::sap_load(file, memory)).map(|_| ())
}

/// How long a song is; songs are counted from 0. None where the file does not say.
///
/// # Errors
///
/// Refused with 51 to 54, then 44.
///
/// # Examples
///
/// ```
/// use turftangle::{sap, Reason};
/// # let tune = include_bytes!(concat!(env!("CARGO_MANIFEST_DIR"), "/tests/data/inside.sap"));
///
/// let time = sap::time(tune, 1)?.expect("it is stated");
/// assert_eq!((time.milliseconds, time.looped), (154_020, true));
/// assert_eq!(time.to_string(), "02:34.020 LOOP");
/// assert_eq!(sap::time(tune, 3).unwrap_err().reason, Reason::NoSuchSong);
/// # Ok::<(), turftangle::Refusal>(())
/// ```
pub fn time(file: &[u8], song: u32) -> Result<Option<Time>, Refusal> {
    let number = Refusal::split(raw::sap_time(file, song))?;
    Ok((number != UNSTATED).then(|| Time::of(number)))
}

/// A block of the file; blocks are counted from 0. None where there is no block of this number.
///
/// # Errors
///
/// Refused with 51 to 54.
///
/// # Examples
///
/// ```
/// use turftangle::sap;
/// # let tune = include_bytes!(concat!(env!("CARGO_MANIFEST_DIR"), "/tests/data/inside.sap"));
///
/// let block = sap::block(tune, 0)?.expect("it is there");
/// assert_eq!((block.start, block.end), (0x0600, 0x0601));
/// assert_eq!(tune[block.offset], 0xAB);
/// assert_eq!(sap::block(tune, 2)?, None);
/// # Ok::<(), turftangle::Refusal>(())
/// ```
pub fn block(file: &[u8], number: u32) -> Result<Option<Block>, Refusal> {
    let mut cells = [0; BLOCK_CELLS];
    let count = block_into(file, number, &mut cells)?;
    let [start, end, offset] = cells;
    Ok((count > 0).then_some(Block {
        start: start as u16,
        end: end as u16,
        offset: offset as usize,
    }))
}

/// Puts as many as fit of a block's start, end and file offset into `out`; answers how many there
/// are, 0 where there is no block of this number.
///
/// # Errors
///
/// Refused with 51 to 54.
///
/// # Examples
///
/// ```
/// use turftangle::sap::{block_into, BLOCK_CELLS};
/// # let tune = include_bytes!(concat!(env!("CARGO_MANIFEST_DIR"), "/tests/data/inside.sap"));
///
/// let mut numbers = [0; 2];
/// assert_eq!(block_into(tune, 1, &mut numbers)?, BLOCK_CELLS);
/// assert_eq!(numbers, [0x2025, 0x2027]);
/// assert_eq!(block_into(tune, 2, &mut numbers)?, 0);
/// # Ok::<(), turftangle::Refusal>(())
/// ```
pub fn block_into(file: &[u8], number: u32, out: &mut [u32]) -> Result<usize, Refusal> {
    Refusal::split_count(raw::sap_block(file, number, out))
}
