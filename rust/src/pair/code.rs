//! The code of a meaning: eight hex digits, `1DDSTLAO` for a note, `2CCSVVVV` or `3CCSVVVV` for a
//! command (docs/INTERFACE.md).

use super::{Accidental, Command, Duration, Letter, Meaning, Name, Note, Shape, Tone};

/// The digit that stands `place` digits from the right.
fn digit(code: u32, place: u32) -> u32 {
    code >> (4 * place) & 15
}

impl Meaning {
    /// The meaning that a code spells; None where it spells none. Whether some pair has it is for
    /// the writer to say.
    ///
    /// ```
    /// use turftangle::pair::Meaning;
    ///
    /// let meaning = Meaning::from_code(0x2561_0001).expect("P-S -1");
    /// assert_eq!(meaning.to_string(), "P-S -1");
    /// assert_eq!(Meaning::from_code(0x2561_0000), None); // a 0 below 0
    /// ```
    #[must_use]
    pub fn from_code(code: u32) -> Option<Meaning> {
        match digit(code, 7) {
            1 => note(code).map(Meaning::Note),
            2 | 3 => command(code).map(Meaning::Command),
            _ => None,
        }
    }

    /// The code; None for an octave or a value that has no place in one.
    ///
    /// ```
    /// use turftangle::pair::{Command, Meaning, Name};
    ///
    /// let command = |value| Meaning::Command(Command { name: Name::PS, value });
    /// assert_eq!(command(-1).code(), Some(0x2561_0001));
    /// assert_eq!(command(65_536).code(), None);
    /// ```
    #[must_use]
    pub fn code(&self) -> Option<u32> {
        match self {
            Meaning::Note(note) => note_code(note),
            Meaning::Command(command) => {
                let size = u16::try_from(command.value.unsigned_abs()).ok()?;
                let sign = u32::from(command.value < 0);
                Some((command.name as u32) << 20 | sign << 16 | u32::from(size))
            }
        }
    }
}

fn note_code(note: &Note) -> Option<u32> {
    let tone = match &note.tone {
        None => 0,
        Some(tone) if tone.octave > 15 => return None,
        Some(tone) => {
            (tone.letter as u32) << 8 | (tone.accidental as u32) << 4 | u32::from(tone.octave)
        }
    };
    let length = (note.duration as u32) << 20 | (note.shape as u32) << 16;
    Some(1 << 28 | length | u32::from(note.tied) << 12 | tone)
}

fn command(code: u32) -> Option<Command> {
    let name = Name::from_number(code >> 20)?;
    let size = (code & 0xFFFF) as i32;
    let value = match digit(code, 4) {
        0 => size,
        1 if size > 0 => -size,
        _ => return None,
    };
    Some(Command { name, value })
}

fn note(code: u32) -> Option<Note> {
    Some(Note {
        duration: duration(code >> 20 & 0xFF)?,
        shape: shape(digit(code, 4))?,
        tied: match digit(code, 3) {
            0 => false,
            1 => true,
            _ => return None,
        },
        tone: match code & 0xFFF {
            0 => None,
            _ => Some(tone(code)?),
        },
    })
}

fn duration(digits: u32) -> Option<Duration> {
    Some(match digits {
        0x01 => Duration::Whole,
        0x02 => Duration::Half,
        0x04 => Duration::Quarter,
        0x08 => Duration::Eighth,
        0x16 => Duration::Sixteenth,
        0x32 => Duration::ThirtySecond,
        0x64 => Duration::SixtyFourth,
        0xD1 => Duration::UtilityDuration,
        0xD2 => Duration::UtilityVoice,
        0xAB => Duration::AbsolutePitch,
        _ => return None,
    })
}

fn shape(digit: u32) -> Option<Shape> {
    Some(match digit {
        0 => Shape::Plain,
        1 => Shape::Dotted,
        2 => Shape::DoubleDotted,
        3 => Shape::Triplet,
        _ => return None,
    })
}

fn tone(code: u32) -> Option<Tone> {
    let letter = match digit(code, 2) {
        0xA => Letter::A,
        0xB => Letter::B,
        0xC => Letter::C,
        0xD => Letter::D,
        0xE => Letter::E,
        0xF => Letter::F,
        0x6 => Letter::G,
        _ => return None,
    };
    let accidental = match digit(code, 1) {
        0x0 => Accidental::Natural,
        0x1 => Accidental::Sharp,
        0x2 => Accidental::DoubleSharp,
        0xF => Accidental::Flat,
        0xE => Accidental::DoubleFlat,
        _ => return None,
    };
    Some(Tone {
        letter,
        accidental,
        octave: digit(code, 0) as u8,
    })
}
