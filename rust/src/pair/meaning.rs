//! What a pair of a MUS voice means.

use super::Name;

/// What a pair means. A value made by hand may be a meaning that no pair has: writing it is
/// refused.
#[derive(Clone, Copy, Debug, PartialEq, Eq, Hash)]
pub enum Meaning {
    /// A note or a rest.
    Note(Note),
    /// A command.
    Command(Command),
}

/// A note or a rest.
#[derive(Clone, Copy, Debug, PartialEq, Eq, Hash)]
pub struct Note {
    /// How long it is.
    pub duration: Duration,
    /// How the duration is changed.
    pub shape: Shape,
    /// Whether it is tied.
    pub tied: bool,
    /// None for a rest.
    pub tone: Option<Tone>,
}

/// How long a note is; the number is the code's two digits.
#[derive(Clone, Copy, Debug, PartialEq, Eq, Hash)]
#[repr(u8)]
pub enum Duration {
    /// A whole note.
    Whole = 0x01,
    /// A half.
    Half = 0x02,
    /// A quarter.
    Quarter = 0x04,
    /// An eighth.
    Eighth = 0x08,
    /// A sixteenth.
    Sixteenth = 0x16,
    /// A thirty-second.
    ThirtySecond = 0x32,
    /// A 64th.
    SixtyFourth = 0x64,
    /// As long as the last UTL says.
    UtilityDuration = 0xD1,
    /// As long as the last UTV says.
    UtilityVoice = 0xD2,
    /// Absolute pitch: a tone that takes no time.
    AbsolutePitch = 0xAB,
}

/// How a note's duration is changed; the number is the code's digit.
#[derive(Clone, Copy, Debug, PartialEq, Eq, Hash)]
#[repr(u8)]
pub enum Shape {
    /// The duration itself.
    Plain = 0,
    /// Three halves of it.
    Dotted = 1,
    /// Seven quarters of it.
    DoubleDotted = 2,
    /// Two thirds of it.
    Triplet = 3,
}

/// A tone: C sharp is not D flat.
#[derive(Clone, Copy, Debug, PartialEq, Eq, Hash)]
pub struct Tone {
    /// The letter.
    pub letter: Letter,
    /// What is added to the letter.
    pub accidental: Accidental,
    /// 0 to 7.
    pub octave: u8,
}

/// A tone's letter; the number is the code's digit.
#[derive(Clone, Copy, Debug, PartialEq, Eq, Hash)]
#[repr(u8)]
pub enum Letter {
    /// A.
    A = 0xA,
    /// B, the letter below the next octave's C.
    B = 0xB,
    /// C, the first letter of an octave.
    C = 0xC,
    /// D.
    D = 0xD,
    /// E.
    E = 0xE,
    /// F.
    F = 0xF,
    /// G.
    G = 0x6,
}

/// What is added to a letter; the number is the code's digit, the half-steps as a signed digit.
#[derive(Clone, Copy, Debug, PartialEq, Eq, Hash)]
#[repr(u8)]
pub enum Accidental {
    /// Nothing.
    Natural = 0,
    /// A half-step up.
    Sharp = 1,
    /// Two half-steps up.
    DoubleSharp = 2,
    /// A half-step down.
    Flat = 0xF,
    /// Two half-steps down.
    DoubleFlat = 0xE,
}

/// A command and its value.
#[derive(Clone, Copy, Debug, PartialEq, Eq, Hash)]
pub struct Command {
    /// Which command.
    pub name: Name,
    /// NO is 0 and YES 1, BMP's UP is 0 and DN 1. A command without a value has 0.
    pub value: i32,
}
