//! The words for a meaning: those of the program `pairs`, without `note`, `plain`, `-` and the
//! half-step.

use super::{Accidental, Command, Duration, Letter, Meaning, Name, Note, Shape, Tone};
use std::fmt::{Display, Formatter, Result};

/// The words of the note or of the command.
impl Display for Meaning {
    fn fmt(&self, f: &mut Formatter<'_>) -> Result {
        match self {
            Meaning::Note(note) => note.fmt(f),
            Meaning::Command(command) => command.fmt(f),
        }
    }
}

/// The duration, the shape where it is not plain, `tied` where it is, and the tone or `rest`.
impl Display for Note {
    fn fmt(&self, f: &mut Formatter<'_>) -> Result {
        write!(f, "{}", self.duration)?;
        if self.shape != Shape::Plain {
            write!(f, " {}", self.shape)?;
        }
        if self.tied {
            write!(f, " tied")?;
        }
        match self.tone {
            Some(tone) => write!(f, " {tone}"),
            None => write!(f, " rest"),
        }
    }
}

/// Letter, accidental and octave.
impl Display for Tone {
    fn fmt(&self, f: &mut Formatter<'_>) -> Result {
        write!(f, "{} {} {}", self.letter, self.accidental, self.octave)
    }
}

/// The abbreviation and the value in words, where it has one: NO, YES, UP, DN or a number.
impl Display for Command {
    fn fmt(&self, f: &mut Formatter<'_>) -> Result {
        use Name::*;
        write!(f, "{}", self.name)?;
        match (self.name, self.value) {
            (Tal | End | Hlt, 0) => Ok(()),
            (Flt | Rng | Snc | FX | PV | ThreeOff, 0) => write!(f, " NO"),
            (Flt | Rng | Snc | FX | PV | ThreeOff, 1) => write!(f, " YES"),
            (Bmp, 0) => write!(f, " UP"),
            (Bmp, 1) => write!(f, " DN"),
            (_, value) => write!(f, " {value}"),
        }
    }
}

impl Display for Duration {
    fn fmt(&self, f: &mut Formatter<'_>) -> Result {
        f.pad(match self {
            Duration::Whole => "whole",
            Duration::Half => "half",
            Duration::Quarter => "quarter",
            Duration::Eighth => "eighth",
            Duration::Sixteenth => "sixteenth",
            Duration::ThirtySecond => "thirty-second",
            Duration::SixtyFourth => "64th",
            Duration::UtilityDuration => "utility-duration",
            Duration::UtilityVoice => "utility-voice",
            Duration::AbsolutePitch => "absolute",
        })
    }
}

impl Display for Shape {
    fn fmt(&self, f: &mut Formatter<'_>) -> Result {
        f.pad(match self {
            Shape::Plain => "plain",
            Shape::Dotted => "dotted",
            Shape::DoubleDotted => "double-dotted",
            Shape::Triplet => "triplet",
        })
    }
}

impl Display for Letter {
    fn fmt(&self, f: &mut Formatter<'_>) -> Result {
        f.pad(match self {
            Letter::A => "A",
            Letter::B => "B",
            Letter::C => "C",
            Letter::D => "D",
            Letter::E => "E",
            Letter::F => "F",
            Letter::G => "G",
        })
    }
}

impl Display for Accidental {
    fn fmt(&self, f: &mut Formatter<'_>) -> Result {
        f.pad(match self {
            Accidental::Natural => "natural",
            Accidental::Sharp => "sharp",
            Accidental::DoubleSharp => "double-sharp",
            Accidental::Flat => "flat",
            Accidental::DoubleFlat => "double-flat",
        })
    }
}
