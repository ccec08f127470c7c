//! How often phrase 16 came in the songs that were asked about, counted from their stored pairs.

use crate::plain;
use std::fmt;

const DEF_16: [u8; 2] = [0x01, 0x83];
const CAL_16: [u8; 2] = [0x01, 0x8B];

/// Each count is of songs. A song counts as often as its acceptance is asked for.
#[derive(Clone, Copy, Debug, Default)]
pub struct Sixteen {
    /// Accepted, with DEF 16 in some voice.
    pub accepted: u64,
    /// Those of them where CAL 16 comes after it in its voice.
    pub called: u64,
    /// Refused, with DEF 16 or CAL 16 in some voice.
    pub refused: u64,
    /// Those of them that are refused with 30 at DEF 16, and at CAL 16.
    pub misdefined: u64,
    pub miscalled: u64,
}

impl Sixteen {
    /// Counts a song; `answer` is the refusal's number and place, or None where it is accepted.
    pub fn count(&mut self, file: &[u8], answer: Option<(u32, u32)>) {
        let voices = voices(file);
        let defined = voices.iter().any(|voice| first(voice, DEF_16).is_some());
        let called = voices.iter().any(|voice| first(voice, CAL_16).is_some());
        let Some((number, place)) = answer else {
            self.accepted += u64::from(defined);
            self.called += u64::from(voices.iter().any(|voice| call_after_define(voice)));
            return;
        };
        self.refused += u64::from(defined || called);
        if number == 30 {
            let pair = &file[place as usize..place as usize + 2];
            self.misdefined += u64::from(pair == DEF_16);
            self.miscalled += u64::from(pair == CAL_16);
        }
    }

    /// Fails where one of these never came.
    pub fn came(&self) {
        let counts = [
            self.accepted,
            self.called,
            self.refused,
            self.misdefined,
            self.miscalled,
        ];
        assert!(!counts.contains(&0), "{self}");
    }
}

/// The bytes of each voice; none where the file has no voices.
pub fn voices(file: &[u8]) -> Vec<&[u8]> {
    let mut places = [0; 6];
    if plain::mus::voices_into(file, &mut places).is_err() {
        return Vec::new();
    }
    let voices = places.map(|number| number as usize);
    let voices = voices.chunks_exact(2).map(|two| (two[0], 2 * two[1]));
    voices.map(|(at, length)| &file[at..at + length]).collect()
}

/// Where in a voice the pair first stands.
fn first(voice: &[u8], pair: [u8; 2]) -> Option<usize> {
    let number = voice.chunks_exact(2).position(|two| two == pair)?;
    Some(2 * number)
}

fn call_after_define(voice: &[u8]) -> bool {
    let at = first(voice, DEF_16).unwrap_or(voice.len());
    first(&voice[at..], CAL_16).is_some()
}

impl fmt::Display for Sixteen {
    fn fmt(&self, f: &mut fmt::Formatter<'_>) -> fmt::Result {
        let Sixteen {
            accepted,
            called,
            refused,
            misdefined,
            miscalled,
        } = self;
        write!(
            f,
            "phrase 16: in songs accepted {accepted}, called in {called}; "
        )?;
        write!(f, "in songs refused {refused}, ")?;
        write!(f, "with 30 at DEF 16 {misdefined}, at CAL 16 {miscalled}")
    }
}
