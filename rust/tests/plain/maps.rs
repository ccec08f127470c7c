//! How long a MUS voice is, without playing it. A body is a map: its length is a fixed number and
//! multiples of the tempo, UTL and UTV that it starts with, and it leaves each of the three as it was or
//! at a fixed value. Bodies are joined, repeated and called as maps, in one pass over the stored pairs.

use super::mus::{role, voice_pairs, Opener, Role};
use super::Refusal;

/// The three values that rule lengths, as places in a list.
const TEMPO: usize = 0;
const UTL: usize = 1;
const UTV: usize = 2;

/// What they are when a voice starts.
const START: [u16; 3] = [120, 0, 0];

/// How many 384ths for each unit of the three values.
type Times = [u64; 3];

/// The notes, by first byte, from 00 in steps of 4.
const NOTES: [Times; 64] = {
    let mut notes = [[0; 3]; 64];
    let mut at = 0;
    while at < 64 {
        notes[at] = note(4 * at as u8);
        at += 1;
    }
    notes
};

/// The note of one first byte.
const fn note(first: u8) -> Times {
    let (bit_7, bit_5) = (first & 0x80 != 0, first & 0x20 != 0);
    match first >> 2 & 7 {
        _ if first == 0 => [0, 0, 0],
        0 if bit_7 => [4, 0, 0],
        0 => [6, 0, 0],
        1 if bit_5 => [0, 0, 384],
        1 if bit_7 => [0, 256, 0],
        1 => [0, 384, 0],
        code => {
            let whole = match (bit_7, bit_5) {
                (false, false) => 384,
                (false, true) => 576,
                (true, false) => 256,
                (true, true) => 672,
            };
            [whole >> (code - 2), 0, 0]
        }
    }
}

/// What a body does.
#[derive(Clone, Copy, Default)]
struct Map {
    /// How many 384ths it takes whatever it starts with.
    fixed: u64,
    /// How many more, by the values that it starts with.
    times: Times,
    /// What it sets each value to; None where it leaves the value as it was.
    sets: [Option<u16>; 3],
}

impl Map {
    /// Goes on by so many 384ths for each unit of the values as they are now.
    fn add(&mut self, times: Times) {
        for at in [TEMPO, UTL, UTV] {
            match self.sets[at] {
                Some(value) => self.fixed += times[at] * u64::from(value),
                None => self.times[at] += times[at],
            }
        }
    }

    /// Goes on by another body.
    fn join(&mut self, next: &Map) {
        self.fixed += next.fixed;
        self.add(next.times);
        for (value, set) in self.sets.iter_mut().zip(next.sets) {
            *value = set.or(*value);
        }
    }

    /// Goes on by `passes` of another body, at least one. All but the first start with the values that
    /// a pass leaves, so that they are alike.
    fn repeat(&mut self, body: &Map, passes: u8) {
        self.join(body);
        let again = u64::from(passes) - 1;
        self.fixed += again * body.fixed;
        self.add(body.times.map(|times| again * times));
    }
}

/// An accepted voice read as far as some command: the body that is being read, those around it, and
/// the phrases that are closed.
struct Reader {
    body: Map,
    open: Vec<(Opener, Map)>,
    phrases: [Map; 24],
}

impl Reader {
    fn command(&mut self, first: u8, second: u8) {
        let value = u16::from(second);
        match first {
            0x06 => self.body.sets[TEMPO] = Some(if value == 0 { 256 } else { value }),
            0x16 => self.body.sets[UTL] = Some(value),
            0xF6 => self.body.sets[UTV] = Some(value),
            _ => self.structure(role(first, second)),
        }
    }

    fn structure(&mut self, role: Role) {
        match role {
            Role::Event | Role::Halt => {}
            Role::Head(n) => self.enter(Opener::Head(n)),
            Role::Define(k) => self.enter(Opener::Define(k)),
            Role::Call(k) => self.body.join(&self.phrases[k]),
            Role::Tail | Role::End => self.close(),
        }
    }

    fn enter(&mut self, opener: Opener) {
        self.open.push((opener, std::mem::take(&mut self.body)));
    }

    /// Ends the body; in an accepted voice some pair has opened it.
    fn close(&mut self) {
        let (opener, outer) = self.open.pop().expect("an accepted voice");
        let body = std::mem::replace(&mut self.body, outer);
        match opener {
            Opener::Head(n) => self.body.repeat(&body, n),
            Opener::Define(k) => {
                self.phrases[k] = body;
                self.body.join(&body);
            }
        }
    }
}

/// The exact time of HLT in 384ths of a jiffy: one look at each stored pair, after acceptance.
pub fn length(file: &[u8], voice: u32) -> Result<u64, Refusal> {
    let mut reader = Reader {
        // the voice is a body that sets all three first
        body: Map {
            sets: START.map(Some),
            ..Map::default()
        },
        open: Vec::new(),
        phrases: [Map::default(); 24],
    };
    // of the notes since the last command that may set a value or make a body
    let mut times = [0; 3];
    for pair in voice_pairs(file, voice)?.chunks_exact(2) {
        let (first, second) = (pair[0], pair[1]);
        if first & 3 == 0 {
            let note = NOTES[usize::from(first >> 2)];
            times = [TEMPO, UTL, UTV].map(|at| times[at] + note[at]);
        } else if let 0x01 | 0x06 | 0x16 | 0x36 | 0xF6 = first {
            reader.body.add(times);
            times = [0; 3];
            reader.command(first, second);
        }
    }
    // HLT is such a command and the last pair; and all values are known from the start on
    Ok(reader.body.fixed)
}
