//! Why the library refuses a file or a call.

use crate::raw;
use std::fmt;

/// Why a file or a call is refused. Each case has the library's number and its phrase.
///
/// A later release may add reasons.
#[derive(Clone, Copy, Debug, PartialEq, Eq, PartialOrd, Ord, Hash)]
#[non_exhaustive]
#[repr(u8)]
pub enum Reason {
    /// 1: too short for a PSID or RSID header
    TooShort = 1,
    /// 2: it begins neither with PSID nor with RSID
    Magic = 2,
    /// 3: its version is not one that we read (PSID 1 and 2, RSID 2)
    Version = 3,
    /// 4: its data offset is not that of its version
    DataOffset = 4,
    /// 5: an RSID whose load, play or speed field is not 0
    RsidReserved = 5,
    /// 6: no song, more than 256 songs, or a start song past the last
    Songs = 6,
    /// 7: reserved flag bits or the reserved word are set
    ReservedBits = 7,
    /// 8: it is marked as a MUS song that needs a player: use the MUS file itself
    MusPayload = 8,
    /// 9: there is no byte to load after the header
    NoPayload = 9,
    /// 10: the payload runs past the end of memory, $FFFF
    PastMemory = 10,
    /// 11: an RSID that loads below $07E8
    RsidLoad = 11,
    /// 12: an RSID whose init address is not allowed
    RsidInit = 12,
    /// 13: the free pages that it states cannot be free
    FreePages = 13,
    /// 21: under 8 bytes, too short for a MUS song
    MusShort = 21,
    /// 22: too long for a MUS song: over 65,536 bytes, or past the end of memory, $FFFF
    MusPastMemory = 22,
    /// 23: a voice's length is 0 or odd
    VoiceLength = 23,
    /// 24: the voices run past the end of the file: is it cut off?
    VoicesPastFile = 24,
    /// 25: its text is not five lines of at most 32 letters and an end mark
    TextLines = 25,
    /// 26: bytes follow the end of the text
    BytesAfterText = 26,
    /// 27: no command has these two bytes
    UnassignedPair = 27,
    /// 28: a command's value is out of its range
    ValueRange = 28,
    /// 29: HLT must be the last pair of a voice and stand nowhere else
    HltMisplaced = 29,
    /// 30: repeats (HED, TAL) or phrases (DEF, END, CAL) do not fit together
    Structure = 30,
    /// 31: a repeat of 0 passes (HED 0)
    HedZero = 31,
    /// 32: repeats and calls are nested more than 16 deep
    TooDeep = 32,
    /// 33: the voice is too long when played: over 1,048,576 pairs
    TooLong = 33,
    /// 40: the memory to load into has not 65,536 bytes
    MemorySize = 40,
    /// 41: the voice is not 1, 2 or 3
    VoiceNumber = 41,
    /// 42: the two lists have unequal lengths
    ListLengths = 42,
    /// 43: no pair of bytes has this meaning
    NoPair = 43,
    /// 44: the file has no song of this number
    NoSuchSong = 44,
    /// 51: its first line is not SAP
    SapFirstLine = 51,
    /// 52: a line of its header is bad or stands twice, or no FF FF follows it
    SapLine = 52,
    /// 53: its tags do not fit its type or its number of songs
    SapTags = 53,
    /// 54: a block is bad, cut off or missing
    SapBlock = 54,
}

impl Reason {
    /// Every reason, in the order of their numbers.
    pub const ALL: &'static [Reason] = &[
        Reason::TooShort,
        Reason::Magic,
        Reason::Version,
        Reason::DataOffset,
        Reason::RsidReserved,
        Reason::Songs,
        Reason::ReservedBits,
        Reason::MusPayload,
        Reason::NoPayload,
        Reason::PastMemory,
        Reason::RsidLoad,
        Reason::RsidInit,
        Reason::FreePages,
        Reason::MusShort,
        Reason::MusPastMemory,
        Reason::VoiceLength,
        Reason::VoicesPastFile,
        Reason::TextLines,
        Reason::BytesAfterText,
        Reason::UnassignedPair,
        Reason::ValueRange,
        Reason::HltMisplaced,
        Reason::Structure,
        Reason::HedZero,
        Reason::TooDeep,
        Reason::TooLong,
        Reason::MemorySize,
        Reason::VoiceNumber,
        Reason::ListLengths,
        Reason::NoPair,
        Reason::NoSuchSong,
        Reason::SapFirstLine,
        Reason::SapLine,
        Reason::SapTags,
        Reason::SapBlock,
    ];

    /// The library's number for it.
    ///
    /// ```
    /// assert_eq!(turftangle::Reason::NoSuchSong.number(), 44);
    /// ```
    #[must_use]
    pub fn number(self) -> u32 {
        self as u32
    }

    /// The reason that has this number; None where there is none.
    ///
    /// ```
    /// use turftangle::Reason;
    ///
    /// assert_eq!(Reason::from_number(30), Some(Reason::Structure));
    /// assert_eq!(Reason::from_number(34), None);
    /// ```
    #[must_use]
    pub fn from_number(number: u32) -> Option<Reason> {
        let at = Reason::ALL.binary_search_by_key(&number, |reason| reason.number());
        at.ok().map(|at| Reason::ALL[at])
    }

    /// The library's own phrase for it.
    ///
    /// ```
    /// let phrase = turftangle::Reason::HedZero.phrase();
    /// assert!(phrase.contains("HED 0"), "{phrase}");
    /// ```
    #[must_use]
    pub fn phrase(self) -> String {
        let length = reason_into(self.number(), &mut []);
        let mut bytes = vec![0; length];
        reason_into(self.number(), &mut bytes);
        // The phrases are ASCII.
        crate::latin1(&bytes)
    }
}

impl fmt::Display for Reason {
    fn fmt(&self, f: &mut fmt::Formatter<'_>) -> fmt::Result {
        f.pad(&self.phrase())
    }
}

/// No phrase has more bytes than this.
pub const PHRASE_MOST: usize = 80;

/// Puts as much as fits of the phrase for a refusal's number into the first cells of `out`; answers
/// how long the whole phrase is, 0 for a number without a phrase.
///
/// ```
/// use turftangle::{reason_into, Reason, PHRASE_MOST};
///
/// let mut bytes = [b'.'; PHRASE_MOST];
/// let length = reason_into(43, &mut bytes);
/// assert_eq!(bytes[..length], *Reason::NoPair.phrase().as_bytes());
/// assert_eq!(bytes[length], b'.');
/// assert_eq!(reason_into(43, &mut [0; 2]), length);
/// assert_eq!(reason_into(0, &mut bytes), 0);
/// ```
pub fn reason_into(number: u32, out: &mut [u8]) -> usize {
    raw::reason(number, out) as usize
}

/// Why the library refuses, and where.
///
/// It is an error that tells a person what is wrong, also from a `main` that answers it:
///
/// ```
/// use turftangle::{pair, Reason};
///
/// let refusal = pair::read(0x01, 0x53).unwrap_err();
/// assert_eq!((refusal.reason, refusal.place), (Reason::UnassignedPair, 0));
/// assert_eq!(refusal.to_string(), format!("refused 27: {}", Reason::UnassignedPair));
/// assert_eq!(format!("{refusal:?}"), refusal.to_string());
/// ```
#[derive(Clone, Copy, PartialEq, Eq, Hash)]
pub struct Refusal {
    /// Why.
    pub reason: Reason,
    /// For 27 to 33 in a MUS file the file offset of the pair, for 32 and 33 of the voice's first
    /// pair; else 0.
    pub place: usize,
}

impl Refusal {
    /// A refusal of no place.
    pub(crate) fn nowhere(reason: Reason) -> Refusal {
        Refusal { reason, place: 0 }
    }

    /// Takes an answer of the library apart: number and place, or a value where the number is 0.
    pub(crate) fn split(answer: u64) -> Result<u32, Refusal> {
        let (number, low) = ((answer >> 32) as u32, answer as u32);
        if number == 0 {
            return Ok(low);
        }
        // A test holds every number that the archive answers to Reason::ALL.
        let reason = Reason::from_number(number).expect("the library refuses with its own numbers");
        let place = low as usize;
        Err(Refusal { reason, place })
    }

    /// The same where the value is how many numbers there are.
    pub(crate) fn split_count(answer: u64) -> Result<usize, Refusal> {
        Refusal::split(answer).map(|count| count as usize)
    }

    /// The library's number for the reason.
    ///
    /// ```
    /// assert_eq!(turftangle::mus::load_address(b"short").unwrap_err().number(), 21);
    /// ```
    #[must_use]
    pub fn number(self) -> u32 {
        self.reason.number()
    }
}

/// The number, the place where it is not 0, and the library's phrase.
impl fmt::Display for Refusal {
    fn fmt(&self, f: &mut fmt::Formatter<'_>) -> fmt::Result {
        write!(f, "refused {}", self.number())?;
        if self.place > 0 {
            write!(f, " at place {}", self.place)?;
        }
        write!(f, ": {}", self.reason)
    }
}

/// The same sentence as `Display`: a `main` that answers an error shows it in this way.
impl fmt::Debug for Refusal {
    fn fmt(&self, f: &mut fmt::Formatter<'_>) -> fmt::Result {
        fmt::Display::fmt(self, f)
    }
}

impl std::error::Error for Refusal {}
