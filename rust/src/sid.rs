//! PSID and RSID tunes.
//!
//! A tune has a header, which says how it is played and by whom it is, and a payload, which is
//! loaded into the memory of a C64.

use crate::{raw, Refusal, Span};
use std::fmt;

/// How many fields [`fields_into`] has to give.
pub const FIELD_CELLS: usize = 21;
/// How many bytes of memory a load takes.
pub const MEMORY_SIZE: usize = 65_536;

/// Which of the two formats a tune has.
#[derive(Clone, Copy, Debug, PartialEq, Eq, Hash)]
#[repr(u8)]
pub enum Format {
    /// A tune for a player.
    Psid = 0,
    /// A tune that needs a real machine.
    Rsid = 1,
}

impl Format {
    /// The library's number, 0 or 1.
    ///
    /// ```
    /// assert_eq!(turftangle::sid::Format::Rsid.number(), 1);
    /// ```
    #[must_use]
    pub fn number(self) -> u32 {
        self as u32
    }
}

impl fmt::Display for Format {
    fn fmt(&self, f: &mut fmt::Formatter<'_>) -> fmt::Result {
        f.pad(match self {
            Format::Psid => "PSID",
            Format::Rsid => "RSID",
        })
    }
}

/// The video standard that a tune is made for, flag bits 2 and 3.
#[derive(Clone, Copy, Debug, PartialEq, Eq, Hash)]
#[repr(u8)]
pub enum Clock {
    /// The tune does not say.
    Unknown = 0,
    /// PAL.
    Pal = 1,
    /// NTSC.
    Ntsc = 2,
    /// PAL and NTSC.
    Both = 3,
}

impl Clock {
    /// The two flag bits as a number, 0 to 3.
    ///
    /// ```
    /// assert_eq!(turftangle::sid::Clock::Ntsc.number(), 2);
    /// ```
    #[must_use]
    pub fn number(self) -> u32 {
        self as u32
    }

    /// The clock of a field's two bits.
    fn of(bits: u32) -> Clock {
        match bits & 3 {
            0 => Clock::Unknown,
            1 => Clock::Pal,
            2 => Clock::Ntsc,
            _ => Clock::Both,
        }
    }
}

impl fmt::Display for Clock {
    fn fmt(&self, f: &mut fmt::Formatter<'_>) -> fmt::Result {
        f.pad(match self {
            Clock::Unknown => "unknown",
            Clock::Pal => "PAL",
            Clock::Ntsc => "NTSC",
            Clock::Both => "PAL and NTSC",
        })
    }
}

/// The sound chip that a tune is made for, flag bits 4 and 5.
#[derive(Clone, Copy, Debug, PartialEq, Eq, Hash)]
#[repr(u8)]
pub enum Model {
    /// The tune does not say.
    Unknown = 0,
    /// MOS6581.
    Mos6581 = 1,
    /// MOS8580.
    Mos8580 = 2,
    /// MOS6581 and MOS8580.
    Both = 3,
}

impl Model {
    /// The two flag bits as a number, 0 to 3.
    ///
    /// ```
    /// assert_eq!(turftangle::sid::Model::Mos6581.number(), 1);
    /// ```
    #[must_use]
    pub fn number(self) -> u32 {
        self as u32
    }

    /// The model of a field's two bits.
    fn of(bits: u32) -> Model {
        match bits & 3 {
            0 => Model::Unknown,
            1 => Model::Mos6581,
            2 => Model::Mos8580,
            _ => Model::Both,
        }
    }
}

impl fmt::Display for Model {
    fn fmt(&self, f: &mut fmt::Formatter<'_>) -> fmt::Result {
        f.pad(match self {
            Model::Unknown => "unknown",
            Model::Mos6581 => "MOS6581",
            Model::Mos8580 => "MOS8580",
            Model::Both => "MOS6581 and MOS8580",
        })
    }
}

/// What drives a song's player.
#[derive(Clone, Copy, Debug, PartialEq, Eq, Hash)]
#[repr(u8)]
pub enum Speed {
    /// The vertical blank interrupt, 50 Hz with PAL and 60 Hz with NTSC.
    VerticalBlank = 0,
    /// The timer interrupt of CIA 1, 60 Hz where the tune does not set it.
    Cia = 1,
}

impl Speed {
    /// The song's bit of the speed field, 0 or 1.
    ///
    /// ```
    /// assert_eq!(turftangle::sid::Speed::Cia.bit(), 1);
    /// ```
    #[must_use]
    pub fn bit(self) -> u32 {
        self as u32
    }
}

impl fmt::Display for Speed {
    fn fmt(&self, f: &mut fmt::Formatter<'_>) -> fmt::Result {
        f.pad(match self {
            Speed::VerticalBlank => "vertical blank",
            Speed::Cia => "CIA timer",
        })
    }
}

/// What an accepted tune says of itself.
///
/// A later release may add fields.
#[derive(Clone, Copy, Debug, PartialEq, Eq, Hash)]
#[non_exhaustive]
pub struct Header {
    /// PSID or RSID.
    pub format: Format,
    /// The version of the format.
    pub version: u32,
    /// The effective load address.
    pub load: u16,
    /// The effective init address.
    pub init: u16,
    /// The play address.
    pub play: u16,
    /// How many songs there are.
    pub songs: u32,
    /// The start song; 1 where the file has 0.
    pub start: u32,
    /// The speed field; [`speed`] says what it means for a song.
    pub speed_field: u32,
    /// Flag bit 1: BASIC in an RSID, PlaySID-specific in a PSID.
    pub basic: bool,
    /// The video standard.
    pub clock: Clock,
    /// The sound chip.
    pub model: Model,
    /// The first of the free pages; 0 for a clean tune, whose free pages are those beside its
    /// payload; $FF where no page is free.
    pub start_page: u32,
    /// How many free pages there are from there on; 0 where the start page is 0 or $FF.
    pub page_length: u32,
    /// The title.
    pub title: Span,
    /// The author.
    pub author: Span,
    /// When and by whom it was released.
    pub released: Span,
    /// What is loaded, without the two address bytes that may stand before it.
    pub payload: Span,
}

/// Whether the tune is accepted.
///
/// # Errors
///
/// Refused with 1 to 13.
///
/// # Examples
///
/// ```
/// use turftangle::{sid, Reason};
/// # let tune = include_bytes!(concat!(env!("CARGO_MANIFEST_DIR"), "/../crates/sidinfo/stdin"));
///
/// assert!(sid::read(tune).is_ok());
/// assert_eq!(sid::read(&tune[..100]).unwrap_err().reason, Reason::TooShort);
/// ```
pub fn read(file: &[u8]) -> Result<(), Refusal> {
    Refusal::split(raw::sid_read(file)).map(|_| ())
}

/// Puts as many of the fields as fit into `out`, in the order of docs/INTERFACE.md; answers how
/// many there are.
///
/// # Errors
///
/// Refused with 1 to 13.
///
/// # Examples
///
/// ```
/// use turftangle::sid::{fields_into, FIELD_CELLS};
/// # let tune = include_bytes!(concat!(env!("CARGO_MANIFEST_DIR"), "/../crates/sidinfo/stdin"));
///
/// let mut fields = [0; 3];
/// assert_eq!(fields_into(tune, &mut fields)?, FIELD_CELLS);
/// assert_eq!(fields, [0, 2, 0x1000]); // PSID, version 2, load address
/// # Ok::<(), turftangle::Refusal>(())
/// ```
pub fn fields_into(file: &[u8], out: &mut [u32]) -> Result<usize, Refusal> {
    Refusal::split_count(raw::sid_fields(file, out))
}

/// The header of an accepted tune.
///
/// # Errors
///
/// Refused with 1 to 13.
///
/// # Examples
///
/// ```
/// use turftangle::{latin1, sid};
/// # let tune = include_bytes!(concat!(env!("CARGO_MANIFEST_DIR"), "/../crates/sidinfo/stdin"));
///
/// let header = sid::header(tune)?;
/// assert_eq!(header.format, sid::Format::Psid);
/// assert_eq!(header.songs, 3);
/// assert_eq!(header.title.of(tune), Some(&b"Scale"[..]));
/// assert_eq!(header.author.of(tune).map(latin1).as_deref(), Some("Turftangle"));
/// assert_eq!(format!("{}, {}", header.clock, header.model), "PAL, MOS8580");
/// # Ok::<(), turftangle::Refusal>(())
/// ```
pub fn header(file: &[u8]) -> Result<Header, Refusal> {
    let mut cells = [0; FIELD_CELLS];
    fields_into(file, &mut cells)?;
    let span = |at: usize| Span {
        offset: cells[at] as usize,
        length: cells[at + 1] as usize,
    };
    Ok(Header {
        format: if cells[0] == 0 {
            Format::Psid
        } else {
            Format::Rsid
        },
        version: cells[1],
        load: cells[2] as u16,
        init: cells[3] as u16,
        play: cells[4] as u16,
        songs: cells[5],
        start: cells[6],
        speed_field: cells[7],
        basic: cells[8] == 1,
        clock: Clock::of(cells[9]),
        model: Model::of(cells[10]),
        start_page: cells[11],
        page_length: cells[12],
        title: span(13),
        author: span(15),
        released: span(17),
        payload: span(19),
    })
}

/// Puts the payload into its place in memory, which has [`MEMORY_SIZE`] bytes; every other byte keeps
/// what it held.
///
/// # Errors
///
/// Refused with 40, then 1 to 13.
///
/// # Examples
///
/// ```
/// use turftangle::{sid, Reason};
/// # let tune = include_bytes!(concat!(env!("CARGO_MANIFEST_DIR"), "/../crates/sidinfo/stdin"));
///
/// let mut memory = vec![0xFF; sid::MEMORY_SIZE];
/// sid::load(tune, &mut memory)?;
/// assert_eq!(memory[0x0FFF..0x1005], [0xFF, 1, 2, 3, 4, 0xFF]);
/// assert_eq!(sid::load(tune, &mut [0; 4]).unwrap_err().reason, Reason::MemorySize);
/// # Ok::<(), turftangle::Refusal>(())
/// ```
pub fn load(file: &[u8], memory: &mut [u8]) -> Result<(), Refusal> {
    Refusal::split(raw::sid_load(file, memory)).map(|_| ())
}

/// What drives a song; songs run from 1.
///
/// # Errors
///
/// Refused with 1 to 13, then 44.
///
/// # Examples
///
/// ```
/// use turftangle::{sid, sid::Speed, Reason};
/// # let tune = include_bytes!(concat!(env!("CARGO_MANIFEST_DIR"), "/../crates/sidinfo/stdin"));
///
/// let mut tune = tune.to_vec();
/// tune[0x15] = 0b010; // the last byte of the speed field
/// assert_eq!(sid::speed(&tune, 1)?, Speed::VerticalBlank);
/// assert_eq!(sid::speed(&tune, 2)?, Speed::Cia);
/// assert_eq!(sid::speed(&tune, 4).unwrap_err().reason, Reason::NoSuchSong);
/// # Ok::<(), turftangle::Refusal>(())
/// ```
pub fn speed(file: &[u8], song: u32) -> Result<Speed, Refusal> {
    let bit = Refusal::split(raw::sid_speed(file, song))?;
    Ok(if bit == 0 {
        Speed::VerticalBlank
    } else {
        Speed::Cia
    })
}
