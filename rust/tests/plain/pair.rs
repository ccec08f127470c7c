//! One pair of a MUS voice: what it means, the number for that meaning, and the pair for a meaning.

#[derive(Clone, Copy, Debug, PartialEq, Eq)]
pub enum Meaning {
    Note(Note),
    Command(Command, i32),
}

#[derive(Clone, Copy, Debug, PartialEq, Eq)]
pub struct Note {
    pub duration: Duration,
    pub shape: Shape,
    pub tied: bool,
    /// None for a rest.
    pub pitch: Option<Pitch>,
}

#[derive(Clone, Copy, Debug, PartialEq, Eq)]
pub enum Duration {
    Whole,
    Half,
    Quarter,
    Eighth,
    Sixteenth,
    ThirtySecond,
    SixtyFourth,
    Utility,
    UtilityVoice,
    AbsolutePitch,
}

#[derive(Clone, Copy, Debug, PartialEq, Eq)]
pub enum Shape {
    Plain,
    Dotted,
    DoubleDotted,
    Triplet,
}

#[derive(Clone, Copy, Debug, PartialEq, Eq)]
pub struct Pitch {
    pub letter: Letter,
    /// What it adds, in half-steps: -2 to 2.
    pub accidental: i8,
    pub octave: u8,
}

#[derive(Clone, Copy, Debug, PartialEq, Eq)]
pub enum Letter {
    C = 1,
    D,
    E,
    F,
    G,
    A,
    B,
}

/// The fifty commands of document 004, in its order. Each number is the front of the command's
/// code: 3 and the least second byte where the first is 01, else 2 and the least first byte.
#[derive(Clone, Copy, Debug, PartialEq, Eq)]
#[repr(u16)]
pub enum Command {
    Dcy = 0x300,
    Rup = 0x301,
    Cal = 0x302,
    Bmp = 0x303,
    Flt = 0x313,
    Rng = 0x323,
    Snc = 0x333,
    FX = 0x343,
    Def = 0x306,
    Atk = 0x304,
    Sus = 0x384,
    Lfo = 0x363,
    PV = 0x373,
    Rdn = 0x305,
    Wav = 0x307,
    FM = 0x317,
    Rls = 0x308,
    Res = 0x30A,
    ThreeOff = 0x35B,
    Vol = 0x30E,
    Tal = 0x30F,
    End = 0x32F,
    Hlt = 0x34F,
    Src = 0x31F,
    Dst = 0x38F,
    PW = 0x202,
    Tem = 0x206,
    Utl = 0x216,
    Pnt = 0x226,
    Hed = 0x236,
    Flg = 0x246,
    PS = 0x256,
    FS = 0x266,
    Sca = 0x26E,
    Vdp = 0x276,
    Vrt = 0x286,
    Aut = 0x296,
    Tps = 0x2A6,
    Aux = 0x2B6,
    Pvd = 0x2C6,
    Pvr = 0x2D6,
    Max = 0x2E6,
    Utv = 0x2F6,
    FC = 0x20E,
    Rtp = 0x22E,
    Hld = 0x24E,
    Ms = 0x21E,
    Jif = 0x23E,
    Dtn = 0x20A,
    Por = 0x203,
}

use Command::*;

const UNASSIGNED: u32 = 27;
const OUT_OF_RANGE: u32 = 28;
const NO_PAIR: u32 = 43;

/// What a pair means, or 27 or 28.
pub fn read(first: u8, second: u8) -> Result<Meaning, u32> {
    if first & 3 == 0 {
        return Ok(Meaning::Note(read_note(first, second)));
    }
    let (command, value) = match first {
        0x01 => read_second(second)?,
        _ => read_first(first, second)?,
    };
    Ok(Meaning::Command(command, value))
}

fn read_note(first: u8, second: u8) -> Note {
    let (bit_7, bit_5) = (first & 0x80 != 0, first & 0x20 != 0);
    let triplet = if bit_7 { Shape::Triplet } else { Shape::Plain };
    let shape = match (bit_7, bit_5) {
        (false, false) => Shape::Plain,
        (false, true) => Shape::Dotted,
        (true, false) => Shape::Triplet,
        (true, true) => Shape::DoubleDotted,
    };
    let (duration, shape) = match first >> 2 & 7 {
        _ if first == 0 => (Duration::AbsolutePitch, Shape::Plain),
        0 => (Duration::SixtyFourth, triplet),
        1 if bit_5 => (Duration::UtilityVoice, Shape::Plain),
        1 => (Duration::Utility, triplet),
        2 => (Duration::Whole, shape),
        3 => (Duration::Half, shape),
        4 => (Duration::Quarter, shape),
        5 => (Duration::Eighth, shape),
        6 => (Duration::Sixteenth, shape),
        _ => (Duration::ThirtySecond, shape),
    };
    Note {
        duration,
        shape,
        tied: first & 0x40 != 0,
        pitch: read_pitch(second),
    }
}

fn read_pitch(second: u8) -> Option<Pitch> {
    let letter = match second & 7 {
        0 => return None,
        1 => Letter::C,
        2 => Letter::D,
        3 => Letter::E,
        4 => Letter::F,
        5 => Letter::G,
        6 => Letter::A,
        _ => Letter::B,
    };
    let accidental = match second >> 6 {
        3 => -1,
        2 => 0,
        1 => 1,
        _ => doubled(letter),
    };
    Some(Pitch {
        letter,
        accidental,
        octave: 7 - (second >> 3 & 7),
    })
}

/// The half-step of a pitch: -1 to 96 for those that some pair has.
pub fn half_step(pitch: Pitch) -> i32 {
    let letter = match pitch.letter {
        Letter::C => 0,
        Letter::D => 2,
        Letter::E => 4,
        Letter::F => 5,
        Letter::G => 7,
        Letter::A => 9,
        Letter::B => 11,
    };
    12 * i32::from(pitch.octave) + letter + i32::from(pitch.accidental)
}

/// The double accidental that a letter can have: sharp for C D F G, flat for E A B.
fn doubled(letter: Letter) -> i8 {
    match letter {
        Letter::C | Letter::D | Letter::F | Letter::G => 2,
        Letter::E | Letter::A | Letter::B => -2,
    }
}

/// The commands whose first byte is 01.
fn read_second(second: u8) -> Result<(Command, i32), u32> {
    let high = i32::from(second >> 4);
    let five = i32::from(second >> 3);
    Ok(match second & 0x0F {
        0x0 => (Dcy, high),
        0x1 | 0x9 => (Rup, five),
        0x2 => (Cal, high),
        // 004's pattern 1nnn holds, so 8 to F are 16 to 23; its remark says 9-F
        0x3 if high >= 8 => (Def, high + 8),
        0xB if high >= 8 => (Cal, high + 8),
        0x3 if switch(high) == ThreeOff => return Err(UNASSIGNED),
        0x3 => (switch(high), 0),
        0xB => (switch(high), 1),
        0x4 | 0xC if second & 0x80 == 0 => (Atk, five),
        0x4 | 0xC => (Sus, five - 16),
        0x5 | 0xD => (Rdn, five),
        0x6 => (Def, high),
        0x7 if high & 1 == 0 => (Wav, high >> 1),
        0x7 => (FM, high >> 1),
        0x8 => (Rls, high),
        0xA => (Res, high),
        0xE => (Vol, high),
        _ => return read_last_row(second),
    })
}

/// The commands with two values, by the high nibble of the n3 and nB rows, which is below 8.
fn switch(high: i32) -> Command {
    match high {
        0 => Bmp,
        1 => Flt,
        2 => Rng,
        3 => Snc,
        4 => FX,
        5 => ThreeOff,
        6 => Lfo,
        _ => PV,
    }
}

/// The nF row.
fn read_last_row(second: u8) -> Result<(Command, i32), u32> {
    Ok(match second {
        0x0F => (Tal, 0),
        0x2F => (End, 0),
        0x4F => (Hlt, 0),
        0x1F => (Src, 0),
        0x3F => (Src, 1),
        0x5F => (Src, 2),
        0x8F => (Dst, 0),
        0xAF => (Dst, 1),
        0xDF => (Dst, 2),
        0xEF => (Dst, 3),
        _ => return Err(UNASSIGNED),
    })
}

/// The commands whose first byte is not 01.
fn read_first(first: u8, second: u8) -> Result<(Command, i32), u32> {
    let byte = i32::from(second);
    let signed = i32::from(second as i8);
    // What stands above the second byte: the bits of the first from `bit` on.
    let joined = |bit: u8| i32::from(first >> bit) << 8 | byte;
    Ok(match first {
        _ if first & 3 == 3 => (Por, joined(2)),
        _ if first & 0x0F == 0x2 => (PW, joined(4)),
        _ if first & 0x1F == 0x0A => (Dtn, joined(5)),
        _ if first & 0x1F == 0x1A => (Dtn, joined(5) - 2048),
        0x06 => (Tem, if byte == 0 { 256 } else { byte }),
        0x16 => (Utl, byte),
        0x26 => (Pnt, byte),
        0x36 => (Hed, byte),
        0x46 => (Flg, byte),
        0x56 => (PS, signed),
        0x66 => (FS, signed),
        0x6E => (Sca, within(signed, -7, 7)?),
        0x76 => (Vdp, within(byte, 0, 127)?),
        0x86 => (Vrt, byte),
        0x96 => (Aut, signed),
        0xA6 => (Tps, read_tps(second)?),
        0xB6 => (Aux, byte),
        0xC6 => (Pvd, within(byte, 0, 127)?),
        0xD6 => (Pvr, within(byte, 0, 127)?),
        0xE6 => (Max, byte),
        0xF6 => (Utv, byte),
        0x0E => (FC, byte),
        0x2E => (Rtp, read_rtp(second)?),
        0x4E => (Hld, byte),
        0x1E | 0x5E | 0x9E | 0xDE => (Ms, joined(6)),
        0x3E | 0x7E | 0xBE | 0xFE => (Jif, read_jif(joined(6))?),
        _ => return Err(UNASSIGNED),
    })
}

fn within(value: i32, least: i32, greatest: i32) -> Result<i32, u32> {
    if value < least || value > greatest {
        return Err(OUT_OF_RANGE);
    }
    Ok(value)
}

fn read_tps(second: u8) -> Result<i32, u32> {
    let half_steps = within(i32::from(second >> 4), 0, 11)?;
    let octaves = i32::from(second >> 1 & 7);
    if second & 1 == 0 {
        Ok(12 * (7 - octaves) + half_steps)
    } else {
        Ok(-12 * octaves - (11 - half_steps))
    }
}

fn read_rtp(second: u8) -> Result<i32, u32> {
    let half_steps = within(i32::from(second >> 3), 0, 22)? - 11;
    within(12 * (3 - i32::from(second & 7)) + half_steps, -47, 47)
}

fn read_jif(raw: i32) -> Result<i32, u32> {
    match raw {
        0..=757 => Ok(raw),
        758..=823 => Err(OUT_OF_RANGE),
        _ => Ok(raw - 1024),
    }
}

/// The pair that the writer uses for a meaning, or 43.
pub fn write(meaning: Meaning) -> Result<[u8; 2], u32> {
    match meaning {
        Meaning::Note(note) => write_note(note),
        Meaning::Command(command, value) => write_command(command, value),
    }
}

fn write_note(note: Note) -> Result<[u8; 2], u32> {
    let shape = match note.shape {
        Shape::Plain => 0x00,
        Shape::Dotted => 0x20,
        Shape::Triplet => 0x80,
        Shape::DoubleDotted => 0xA0,
    };
    // The low bits, and whether this duration can have the shape.
    let (low, fits) = match note.duration {
        Duration::Whole => (0x08, true),
        Duration::Half => (0x0C, true),
        Duration::Quarter => (0x10, true),
        Duration::Eighth => (0x14, true),
        Duration::Sixteenth => (0x18, true),
        Duration::ThirtySecond => (0x1C, true),
        // a 64th is written with bit 5 set
        Duration::SixtyFourth => (0x20, shape & 0x20 == 0),
        Duration::Utility => (0x04, shape & 0x20 == 0),
        Duration::UtilityVoice => (0x24, shape == 0),
        Duration::AbsolutePitch => (0x00, shape == 0 && !note.tied),
    };
    if !fits {
        return Err(NO_PAIR);
    }
    let tie = if note.tied { 0x40 } else { 0 };
    Ok([low | shape | tie, write_pitch(note.pitch)?])
}

fn write_pitch(pitch: Option<Pitch>) -> Result<u8, u32> {
    let Some(pitch) = pitch else {
        return Ok(0);
    };
    let bits = match pitch.accidental {
        -1 => 0xC0,
        0 => 0x80,
        1 => 0x40,
        a if a == doubled(pitch.letter) => 0x00,
        _ => return Err(NO_PAIR),
    };
    if pitch.octave > 7 {
        return Err(NO_PAIR);
    }
    Ok(bits | (7 - pitch.octave) << 3 | pitch.letter as u8)
}

/// The two bytes of a value that stands above and in the second byte, from `bit` of the first on.
fn split(low: u8, bit: u8, value: i32) -> [u8; 2] {
    [low | ((value >> 8) << bit) as u8, value as u8]
}

fn write_command(command: Command, value: i32) -> Result<[u8; 2], u32> {
    let (least, greatest) = range(command);
    if value < least || value > greatest {
        return Err(NO_PAIR);
    }
    let byte = value as u8;
    Ok(match command {
        Tps => [0xA6, write_tps(value)],
        Rtp => [0x2E, write_rtp(value)],
        PW => split(0x02, 4, value),
        Por => split(0x03, 2, value),
        Ms => split(0x1E, 6, value),
        Jif => split(0x3E, 6, value & 0x3FF),
        Dtn if value < 0 => split(0x1A, 5, value + 2048),
        Dtn => split(0x0A, 5, value),
        _ if command as u16 >= 0x300 => [0x01, write_second(command, byte)],
        _ => [command as u8, byte],
    })
}

/// The second byte after 01.
fn write_second(command: Command, value: u8) -> u8 {
    let low = command as u8;
    match command {
        Cal if value >= 16 => (value - 8) << 4 | 0x0B,
        Def if value >= 16 => (value - 8) << 4 | 0x03,
        Bmp | Flt | Rng | Snc | FX | Lfo | PV => low | value << 3,
        ThreeOff | Tal | End | Hlt => low,
        Rup | Rdn | Atk | Sus => low | value << 3,
        Wav | FM | Src => low | value << 5,
        Dst => [0x8F, 0xAF, 0xDF, 0xEF][value as usize],
        _ => low | value << 4,
    }
}

fn write_tps(value: i32) -> u8 {
    let (octaves, half_steps) = (value.abs() / 12, value.abs() % 12);
    if value < 0 {
        ((11 - half_steps) << 4 | octaves << 1 | 1) as u8
    } else {
        (half_steps << 4 | (7 - octaves) << 1) as u8
    }
}

/// Octaves and remainder of one sign: Rust's division rounds towards 0.
fn write_rtp(value: i32) -> u8 {
    ((value % 12 + 11) << 3 | (3 - value / 12)) as u8
}

/// The least and the greatest value of a command.
fn range(command: Command) -> (i32, i32) {
    match command {
        Dcy | Atk | Sus | Rls | Res | Vol => (0, 15),
        Rup | Rdn => (0, 31),
        Cal | Def => (0, 23),
        Bmp | Flt | Rng | Snc | FX | Lfo | PV => (0, 1),
        Wav | FM => (0, 7),
        ThreeOff => (1, 1),
        Tal | End | Hlt => (0, 0),
        Src => (0, 2),
        Dst => (0, 3),
        PW => (0, 4095),
        Tem => (1, 256),
        Utl | Pnt | Hed | Flg | Vrt | Aux | Max | Utv | FC | Hld => (0, 255),
        PS | FS | Aut => (-128, 127),
        Sca => (-7, 7),
        Vdp | Pvd | Pvr => (0, 127),
        Tps => (-95, 95),
        Rtp => (-47, 47),
        Ms => (0, 1023),
        Jif => (-200, 757),
        Dtn => (-2048, 2047),
        Por => (0, 16383),
    }
}
