//! Sidplayer MUS files in PRG form: acceptance, the places of its parts, the listing of a voice's
//! events, and a voice's length by playing it.

use super::{pair, put, Refusal};

#[derive(Clone, Copy)]
pub struct Voice {
    /// The file offset of its first pair.
    pub offset: usize,
    /// In bytes.
    pub length: usize,
    pub events: u64,
    pub walked: u64,
}

const MOST_WALKED: u64 = 1_048_576;
const MOST_DEEP: usize = 16;

/// What a pair is to the structure of its voice.
pub enum Role {
    Event,
    Halt,
    Head(u8),
    Tail,
    Define(usize),
    End,
    Call(usize),
}

pub fn role(first: u8, second: u8) -> Role {
    if first == 0x36 {
        return Role::Head(second);
    }
    if first != 0x01 {
        return Role::Event;
    }
    let number = usize::from(second >> 4);
    match second & 0x0F {
        0x2 => Role::Call(number),
        0xB if number >= 8 => Role::Call(number + 8),
        0x6 => Role::Define(number),
        0x3 if number >= 8 => Role::Define(number + 8),
        0xF if number == 0 => Role::Tail,
        0xF if number == 2 => Role::End,
        0xF if number == 4 => Role::Halt,
        _ => Role::Event,
    }
}

/// The three voices of an accepted file, or the first of 21 to 33 that applies.
pub fn accept(file: &[u8]) -> Result<[Voice; 3], Refusal> {
    let mut voices = container(file)?;
    for voice in &mut voices {
        let pairs = &file[voice.offset..voice.offset + voice.length];
        check_pairs(pairs, voice.offset)?;
        let whole = measure(pairs, voice.offset)?;
        if whole.depth > MOST_DEEP {
            return Err(Refusal::at(32, voice.offset));
        }
        if whole.walked > MOST_WALKED {
            return Err(Refusal::at(33, voice.offset));
        }
        voice.events = whole.events;
        voice.walked = whole.walked;
    }
    Ok(voices)
}

/// Refusals 21 to 24, and where the voices lie.
fn places(file: &[u8]) -> Result<[Voice; 3], Refusal> {
    if file.len() < 8 {
        return Err(Refusal::new(21));
    }
    if file.len() > 65_536 || word(file, 0) + file.len() - 2 > 65_536 {
        return Err(Refusal::new(22));
    }
    let mut offset = 8;
    let voices = [2, 4, 6].map(|at| {
        let voice = Voice {
            offset,
            length: word(file, at),
            events: 0,
            walked: 0,
        };
        offset += voice.length;
        voice
    });
    if voices.iter().any(|v| v.length == 0 || v.length % 2 == 1) {
        return Err(Refusal::new(23));
    }
    if offset > file.len() {
        return Err(Refusal::new(24));
    }
    Ok(voices)
}

/// Two bytes, low byte first.
fn word(file: &[u8], at: usize) -> usize {
    usize::from(u16::from_le_bytes([file[at], file[at + 1]]))
}

/// Where the text begins: after the third voice.
fn text_start(voices: &[Voice; 3]) -> usize {
    voices[2].offset + voices[2].length
}

/// Refusals 21 to 26, and where the voices lie.
fn container(file: &[u8]) -> Result<[Voice; 3], Refusal> {
    let voices = places(file)?;
    let start = text_start(&voices);
    match text_end(&file[start..]) {
        None => Err(Refusal::new(25)),
        Some(end) if start + end < file.len() => Err(Refusal::new(26)),
        Some(_) => Ok(voices),
    }
}

/// Where the text ends: after five closed lines and a zero.
fn text_end(text: &[u8]) -> Option<usize> {
    let mut end = 0;
    for _ in 0..5 {
        let length = text[end..].iter().position(|&b| b == 0x0D || b == 0)?;
        if length > 32 || text[end + length] == 0 {
            return None;
        }
        end += length + 1;
    }
    (text.get(end) == Some(&0)).then_some(end + 1)
}

/// Whether 21 to 24 let the file pass.
pub fn has_voices(file: &[u8]) -> bool {
    places(file).is_ok()
}

/// The load address of an accepted file.
pub fn load(file: &[u8]) -> Result<u32, Refusal> {
    accept(file)?;
    Ok(word(file, 0) as u32)
}

/// Offset of one of the five text lines and its length without the $0D, as many of the two numbers
/// as fit. There are none for another line.
pub fn line_into(file: &[u8], line: u32, out: &mut [u32]) -> Result<u32, Refusal> {
    let voices = accept(file)?;
    if !(1..=5).contains(&line) {
        return Ok(0);
    }
    let mut offset = text_start(&voices);
    let mut lines = file[offset..].split(|&b| b == 0x0D);
    for before in lines.by_ref().take(line as usize - 1) {
        offset += before.len() + 1;
    }
    let length = lines.next().map_or(0, <[u8]>::len);
    put(&[offset as u32, length as u32], out);
    Ok(2)
}

/// Offset and number of pairs of each voice, as many numbers as fit; 21 to 24 alone refuse.
pub fn voices_into(file: &[u8], out: &mut [u32]) -> Result<u32, Refusal> {
    let voices = places(file)?;
    let numbers = voices.map(|voice| [voice.offset as u32, voice.length as u32 / 2]);
    put(&numbers.concat(), out);
    Ok(6)
}

/// Refusals 27 to 29, pair by pair.
fn check_pairs(pairs: &[u8], offset: usize) -> Result<(), Refusal> {
    let last = pairs.len() - 2;
    for (at, pair) in (0..).step_by(2).zip(pairs.chunks_exact(2)) {
        let (first, second) = (pair[0], pair[1]);
        if first & 3 != 0 {
            pair::read(first, second).map_err(|number| Refusal::at(number, offset + at))?;
        }
        let halt = (first, second) == (0x01, 0x4F);
        if halt != (at == last) {
            return Err(Refusal::at(29, offset + at));
        }
    }
    Ok(())
}

/// What a body comes to when it is played once.
#[derive(Clone, Copy, Default)]
struct Body {
    events: u64,
    walked: u64,
    depth: usize,
}

impl Body {
    /// With `times` copies of another body in it, `own` pairs walked around them all and `each`
    /// around each, `deeper` levels down. Counts stop at the greatest number, far past the limit.
    fn with(self, body: Body, times: u64, own: u64, each: u64, deeper: usize) -> Body {
        let events = body.events.saturating_mul(times);
        let walked = body.walked.saturating_add(each).saturating_mul(times);
        Body {
            events: self.events.saturating_add(events),
            walked: self.walked.saturating_add(walked).saturating_add(own),
            depth: self.depth.max(body.depth + deeper),
        }
    }
}

/// What opened a body; the body around it is kept beside it.
pub(super) enum Opener {
    Head(u8),
    Define(usize),
}

/// A voice read as far as some pair: the body that is being read, those around it, and the phrases.
#[derive(Default)]
struct Structure {
    body: Body,
    open: Vec<(Opener, Body)>,
    in_phrase: bool,
    phrases: [Option<Body>; 24],
}

impl Structure {
    /// Takes in one pair; None where it is misplaced.
    fn take(&mut self, role: Role) -> Option<()> {
        match role {
            Role::Halt if !self.open.is_empty() => return None,
            Role::Event | Role::Halt => {
                self.body.events = self.body.events.saturating_add(1);
                self.body.walked = self.body.walked.saturating_add(1);
            }
            Role::Head(n) => self.enter(Opener::Head(n)),
            Role::Define(k) if self.in_phrase || self.phrases[k].is_some() => return None,
            Role::Define(k) => {
                self.in_phrase = true;
                self.enter(Opener::Define(k));
            }
            Role::Tail => match self.open.pop()? {
                (Opener::Head(n), outer) => self.body = outer.with(self.body, n.into(), 1, 1, 1),
                _ => return None,
            },
            Role::End => match self.open.pop()? {
                (Opener::Define(k), outer) => {
                    self.in_phrase = false;
                    self.phrases[k] = Some(self.body);
                    self.body = outer.with(self.body, 1, 2, 0, 0);
                }
                _ => return None,
            },
            Role::Call(k) => self.body = self.body.with(self.phrases[k]?, 1, 2, 0, 1),
        }
        Some(())
    }

    fn enter(&mut self, opener: Opener) {
        self.open.push((opener, std::mem::take(&mut self.body)));
    }
}

/// Refusals 30 and 31, pair by pair, and what the whole voice comes to.
fn measure(pairs: &[u8], offset: usize) -> Result<Body, Refusal> {
    let mut structure = Structure::default();
    for (at, pair) in (offset..).step_by(2).zip(pairs.chunks_exact(2)) {
        let role = role(pair[0], pair[1]);
        if let Role::Head(0) = role {
            return Err(Refusal::at(31, at));
        }
        structure.take(role).ok_or(Refusal::at(30, at))?;
    }
    Ok(structure.body)
}

/// Offset, stored pairs, events and pairs walked of each voice, as many numbers as fit.
pub fn accept_into(file: &[u8], out: &mut [u32]) -> Result<u32, Refusal> {
    let voices = accept(file)?;
    let mut cells = [0u32; 12];
    for (four, voice) in cells.chunks_exact_mut(4).zip(&voices) {
        four[0] = voice.offset as u32;
        four[1] = voice.length as u32 / 2;
        four[2] = voice.events as u32;
        four[3] = voice.walked as u32;
    }
    put(&cells, out);
    Ok(12)
}

/// Time and what rules it, in 384ths of a jiffy.
struct Clock {
    time: u64,
    tempo: u64,
    utility_duration: u64,
    utility_voice: u64,
}

impl Clock {
    fn new() -> Clock {
        Clock {
            time: 0,
            tempo: 120,
            utility_duration: 0,
            utility_voice: 0,
        }
    }

    /// Goes on by one event.
    fn pass(&mut self, first: u8, second: u8) {
        if first & 3 == 0 {
            self.time += self.length(first);
            return;
        }
        let value = u64::from(second);
        match first {
            0x06 => self.tempo = if value == 0 { 256 } else { value },
            0x16 => self.utility_duration = value,
            0xF6 => self.utility_voice = value,
            _ => {}
        }
    }

    /// How long a note of this first byte lasts.
    fn length(&self, first: u8) -> u64 {
        let (bit_7, bit_5) = (first & 0x80 != 0, first & 0x20 != 0);
        let code = first >> 2 & 7;
        let plain = match code {
            0 if first == 0 => 0,
            0 => 6 * self.tempo,
            1 if bit_5 => return 384 * self.utility_voice,
            1 => 384 * self.utility_duration,
            _ => (384 * self.tempo) >> (code - 2),
        };
        match (bit_7, bit_5 && code != 0) {
            (false, false) => plain,
            (false, true) => plain * 3 / 2,
            (true, false) => plain * 2 / 3,
            (true, true) => plain * 7 / 4,
        }
    }
}

/// Where a repeat or a call goes on when its body is over.
enum Frame {
    Repeat { start: usize, left: u8 },
    Call { back: usize },
}

/// Plays an accepted voice: hands the place in the voice and the time of each event, in played
/// order, to `visit`, as long as that says to go on.
fn play(pairs: &[u8], mut visit: impl FnMut(usize, u64) -> bool) {
    let mut frames = Vec::with_capacity(MOST_DEEP);
    let mut phrases = [0; 24];
    let mut clock = Clock::new();
    let mut at = 0;
    while at < pairs.len() {
        let (here, first, second) = (at, pairs[at], pairs[at + 1]);
        at += 2;
        match role(first, second) {
            Role::Event | Role::Halt => {
                if !visit(here, clock.time) {
                    return;
                }
                clock.pass(first, second);
            }
            Role::Head(n) => frames.push(Frame::Repeat { start: at, left: n }),
            Role::Tail => match frames.last_mut() {
                Some(Frame::Repeat { start, left }) if *left > 1 => {
                    *left -= 1;
                    at = *start;
                }
                _ => drop(frames.pop()),
            },
            Role::Define(k) => phrases[k] = at,
            Role::Call(k) => {
                frames.push(Frame::Call { back: at });
                at = phrases[k];
            }
            // where the phrase plays in its own place there is no call to go back to
            Role::End => {
                if let Some(&Frame::Call { back }) = frames.last() {
                    frames.pop();
                    at = back;
                }
            }
        }
    }
}

/// Fills the two lists with offset and jiffy of the events from number `first` on.
pub fn list(
    file: &[u8],
    voice: u32,
    first: u64,
    offsets: &mut [u32],
    jiffies: &mut [u32],
) -> Result<usize, Refusal> {
    if !(1..=3).contains(&voice) {
        return Err(Refusal::new(41));
    }
    if offsets.len() != jiffies.len() {
        return Err(Refusal::new(42));
    }
    let voice = accept(file)?[voice as usize - 1];
    if first >= voice.events || offsets.is_empty() {
        return Ok(0);
    }
    let pairs = &file[voice.offset..voice.offset + voice.length];
    let (mut number, mut count) = (0, 0);
    play(pairs, |at, time| {
        if number >= first {
            offsets[count] = (voice.offset + at) as u32;
            jiffies[count] = (time / 384) as u32;
            count += 1;
        }
        number += 1;
        count < offsets.len()
    });
    Ok(count)
}

/// The pairs of a voice (1 to 3) of an accepted file.
pub(super) fn voice_pairs(file: &[u8], voice: u32) -> Result<&[u8], Refusal> {
    if !(1..=3).contains(&voice) {
        return Err(Refusal::new(41));
    }
    let voice = accept(file)?[voice as usize - 1];
    Ok(&file[voice.offset..voice.offset + voice.length])
}

/// The exact time of HLT in 384ths of a jiffy, by playing the voice: HLT is its last event.
pub fn length(file: &[u8], voice: u32) -> Result<u64, Refusal> {
    let pairs = voice_pairs(file, voice)?;
    let mut last = 0;
    play(pairs, |_, time| {
        last = time;
        true
    });
    Ok(last)
}
