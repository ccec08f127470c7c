//! The number that stands for a meaning, by docs/INTERFACE.md.

use super::pair::{self, Command, Duration, Letter, Meaning, Note, Pitch, Shape};
use super::Refusal;
use Command::*;

/// The code of what a pair means.
pub fn read(first: u8, second: u8) -> Result<u32, Refusal> {
    pair::read(first, second).map(encode).map_err(Refusal::new)
}

/// The pair that the writer uses for a code, as one number.
pub fn write(code: u32) -> Result<u32, Refusal> {
    let meaning = decode(code).ok_or(Refusal::new(43))?;
    let [first, second] = pair::write(meaning).map_err(Refusal::new)?;
    Ok(u32::from(first) << 8 | u32::from(second))
}

/// One more than the half-step of a code's note; 43 where no pair has the code, and where it is that
/// of a command or a rest.
pub fn half_step(code: u32) -> Result<u32, Refusal> {
    write(code)?;
    match decode(code) {
        Some(Meaning::Note(Note {
            pitch: Some(pitch), ..
        })) => Ok((pair::half_step(pitch) + 1) as u32),
        _ => Err(Refusal::new(43)),
    }
}

pub fn encode(meaning: Meaning) -> u32 {
    match meaning {
        Meaning::Note(note) => encode_note(note),
        Meaning::Command(command, value) => {
            let sign = u32::from(value < 0);
            (command as u32) << 20 | sign << 16 | value.unsigned_abs()
        }
    }
}

fn encode_note(note: Note) -> u32 {
    let duration = match note.duration {
        Duration::Whole => 0x01,
        Duration::Half => 0x02,
        Duration::Quarter => 0x04,
        Duration::Eighth => 0x08,
        Duration::Sixteenth => 0x16,
        Duration::ThirtySecond => 0x32,
        Duration::SixtyFourth => 0x64,
        Duration::Utility => 0xD1,
        Duration::UtilityVoice => 0xD2,
        Duration::AbsolutePitch => 0xAB,
    };
    let shape = match note.shape {
        Shape::Plain => 0,
        Shape::Dotted => 1,
        Shape::DoubleDotted => 2,
        Shape::Triplet => 3,
    };
    let tone = note.pitch.map_or(0, encode_pitch);
    1 << 28 | duration << 20 | shape << 16 | u32::from(note.tied) << 12 | tone
}

fn encode_pitch(pitch: Pitch) -> u32 {
    let letter = match pitch.letter {
        Letter::A => 0xA,
        Letter::B => 0xB,
        Letter::C => 0xC,
        Letter::D => 0xD,
        Letter::E => 0xE,
        Letter::F => 0xF,
        Letter::G => 0x6,
    };
    letter << 8 | (pitch.accidental as u32 & 15) << 4 | u32::from(pitch.octave)
}

/// The meaning that a code spells; it may still be one that no pair has.
pub fn decode(code: u32) -> Option<Meaning> {
    match code >> 28 {
        1 => decode_note(code).map(Meaning::Note),
        2 | 3 => decode_command(code),
        _ => None,
    }
}

fn decode_command(code: u32) -> Option<Meaning> {
    let least = (code >> 20) as u8;
    let command = match code >> 28 {
        2 => by_first(least)?,
        _ => by_second(least)?,
    };
    let size = (code & 0xFFFF) as i32;
    match code >> 16 & 15 {
        0 => Some(Meaning::Command(command, size)),
        1 if size > 0 => Some(Meaning::Command(command, -size)),
        _ => None,
    }
}

fn decode_note(code: u32) -> Option<Note> {
    let duration = match code >> 20 & 0xFF {
        0x01 => Duration::Whole,
        0x02 => Duration::Half,
        0x04 => Duration::Quarter,
        0x08 => Duration::Eighth,
        0x16 => Duration::Sixteenth,
        0x32 => Duration::ThirtySecond,
        0x64 => Duration::SixtyFourth,
        0xD1 => Duration::Utility,
        0xD2 => Duration::UtilityVoice,
        0xAB => Duration::AbsolutePitch,
        _ => return None,
    };
    let shape = match code >> 16 & 15 {
        0 => Shape::Plain,
        1 => Shape::Dotted,
        2 => Shape::DoubleDotted,
        3 => Shape::Triplet,
        _ => return None,
    };
    let tied = match code >> 12 & 15 {
        0 => false,
        1 => true,
        _ => return None,
    };
    let pitch = match code & 0xFFF {
        0 => None,
        tone => Some(decode_pitch(tone)?),
    };
    Some(Note {
        duration,
        shape,
        tied,
        pitch,
    })
}

fn decode_pitch(tone: u32) -> Option<Pitch> {
    let letter = match tone >> 8 {
        0xA => Letter::A,
        0xB => Letter::B,
        0xC => Letter::C,
        0xD => Letter::D,
        0xE => Letter::E,
        0xF => Letter::F,
        0x6 => Letter::G,
        _ => return None,
    };
    let accidental = match tone >> 4 & 15 {
        0 => 0,
        1 => 1,
        2 => 2,
        0xF => -1,
        0xE => -2,
        _ => return None,
    };
    Some(Pitch {
        letter,
        accidental,
        octave: (tone & 15) as u8,
    })
}

/// The commands after 01, by their least second byte.
fn by_second(least: u8) -> Option<Command> {
    Some(match least {
        0x00 => Dcy,
        0x01 => Rup,
        0x02 => Cal,
        0x03 => Bmp,
        0x13 => Flt,
        0x23 => Rng,
        0x33 => Snc,
        0x43 => FX,
        0x06 => Def,
        0x04 => Atk,
        0x84 => Sus,
        0x63 => Lfo,
        0x73 => PV,
        0x05 => Rdn,
        0x07 => Wav,
        0x17 => FM,
        0x08 => Rls,
        0x0A => Res,
        0x5B => ThreeOff,
        0x0E => Vol,
        0x0F => Tal,
        0x2F => End,
        0x4F => Hlt,
        0x1F => Src,
        0x8F => Dst,
        _ => return None,
    })
}

/// The others, by their least first byte.
fn by_first(least: u8) -> Option<Command> {
    Some(match least {
        0x02 => PW,
        0x06 => Tem,
        0x16 => Utl,
        0x26 => Pnt,
        0x36 => Hed,
        0x46 => Flg,
        0x56 => PS,
        0x66 => FS,
        0x6E => Sca,
        0x76 => Vdp,
        0x86 => Vrt,
        0x96 => Aut,
        0xA6 => Tps,
        0xB6 => Aux,
        0xC6 => Pvd,
        0xD6 => Pvr,
        0xE6 => Max,
        0xF6 => Utv,
        0x0E => FC,
        0x2E => Rtp,
        0x4E => Hld,
        0x1E => Ms,
        0x3E => Jif,
        0x0A => Dtn,
        0x03 => Por,
        _ => return None,
    })
}
