//! MUS songs whose structure is right. Some are too deep or too long when played.

use super::rng::Rng;

pub const TAL: [u8; 2] = [0x01, 0x0F];
pub const END: [u8; 2] = [0x01, 0x2F];
pub const HLT: [u8; 2] = [0x01, 0x4F];
/// The most pairs that a voice may walk.
const LIMIT: usize = 1_048_576;
/// How many phrases a voice can have: their numbers are 0 to 23.
const PHRASES: usize = 24;

pub fn head(n: usize) -> [u8; 2] {
    [0x36, n as u8]
}

/// 0 to 15 stand in the n6 row, 16 to 23 as 8 to F in the n3 row.
pub fn define(k: usize) -> [u8; 2] {
    [
        0x01,
        if k < 16 { k << 4 | 6 } else { (k - 8) << 4 | 3 } as u8,
    ]
}

/// 0 to 15 stand in the n2 row, 16 to 23 as 8 to F in the nB row.
pub fn call(k: usize) -> [u8; 2] {
    [
        0x01,
        if k < 16 {
            k << 4 | 2
        } else {
            (k - 8) << 4 | 11
        } as u8,
    ]
}

/// A phrase number.
pub fn phrase(rng: &mut Rng) -> usize {
    rng.below(PHRASES)
}

/// Puts a file together.
pub fn song(load: usize, voices: [&[u8]; 3], text: &[u8], file: &mut Vec<u8>) {
    file.clear();
    file.extend_from_slice(&(load as u16).to_le_bytes());
    for voice in voices {
        file.extend_from_slice(&(voice.len() as u16).to_le_bytes());
    }
    for voice in voices {
        file.extend_from_slice(voice);
    }
    file.extend_from_slice(text);
}

/// Makes a song with voices of up to about `most` pairs.
pub fn valid(rng: &mut Rng, most: usize, file: &mut Vec<u8>) {
    let voices = [0; 3].map(|_| voice(rng, most));
    let text = text(rng);
    let length = 6 + voices.iter().map(Vec::len).sum::<usize>() + text.len();
    let last = 65_536_usize.saturating_sub(length).min(65_535);
    let load = match rng.below(4) {
        0 => last,
        1 => 0,
        _ => rng.below(last + 1),
    };
    song(load, [&voices[0], &voices[1], &voices[2]], &text, file);
}

/// Five lines of 0 to 32 bytes, each closed, and a zero.
pub fn text(rng: &mut Rng) -> Vec<u8> {
    let mut text = Vec::new();
    for _ in 0..5 {
        let length = rng.pick(&[0, 0, 0, 1, 5, 31, 32]);
        for _ in 0..length {
            text.push(rng.byte() | 0x20);
        }
        text.push(0x0D);
    }
    text.push(0);
    text
}

pub fn voice(rng: &mut Rng, most: usize) -> Vec<u8> {
    let mut maker = Maker::new(rng);
    let size = maker.rng.below(most);
    match maker.rng.below(16) {
        0 => {}
        1 => maker.nested(),
        2 => maker.chain(),
        3 => maker.phrase_deep_in_repeats(),
        4 | 5 => (0..size).for_each(|_| maker.event()),
        _ => maker.body(size, 6, false),
    }
    maker.put(HLT);
    maker.pairs
}

/// A voice that walks exactly `extra` pairs more than the limit, or fewer where it is negative.
pub fn voice_at_limit(rng: &mut Rng, extra: isize) -> Vec<u8> {
    let mut maker = Maker::new(rng);
    // HLT is one of them
    maker.walking((LIMIT - 1).wrapping_add(extra as usize));
    maker.put(HLT);
    maker.pairs
}

/// A voice of this many pairs without repeats and phrases.
pub fn flat(rng: &mut Rng, pairs: usize) -> Vec<u8> {
    let mut maker = Maker::new(rng);
    (1..pairs).for_each(|_| maker.event());
    maker.put(HLT);
    maker.pairs
}

struct Maker<'a> {
    rng: &'a mut Rng,
    pairs: Vec<u8>,
    /// Whether many of the events are about times.
    timed: bool,
    /// Phrase numbers that are not used yet, and those that are defined and closed.
    fresh: Vec<usize>,
    closed: Vec<usize>,
}

impl<'a> Maker<'a> {
    fn new(rng: &'a mut Rng) -> Maker<'a> {
        Maker {
            timed: rng.one_in(3),
            rng,
            pairs: Vec::new(),
            fresh: (0..PHRASES).collect(),
            closed: Vec::new(),
        }
    }

    fn put(&mut self, pair: [u8; 2]) {
        self.pairs.extend_from_slice(&pair);
    }

    fn event(&mut self) {
        let pair = if self.timed {
            timed_event(self.rng)
        } else {
            event(self.rng)
        };
        self.put(pair);
    }

    fn events(&mut self, count: usize) {
        (0..count).for_each(|_| self.event());
    }

    fn times(&mut self) -> usize {
        let most = self.rng.pick(&[1, 2, 2, 3, 3, 3, 4, 8, 40, 255]);
        self.rng.between(1, most)
    }

    /// Opens a phrase with a number of its own; the caller closes it.
    fn open_phrase(&mut self) -> usize {
        let at = self.rng.below(self.fresh.len());
        let k = self.fresh.swap_remove(at);
        self.put(define(k));
        k
    }

    fn close_phrase(&mut self, k: usize) {
        self.put(END);
        self.closed.push(k);
    }

    /// A body of about `size` pairs, with bodies in it.
    fn body(&mut self, size: usize, deeper: usize, in_phrase: bool) {
        let end = self.pairs.len() + 2 * size;
        while self.pairs.len() < end {
            let room = (end - self.pairs.len()) / 2;
            let inner = self.rng.below(room.min(60));
            match self.rng.below(12) {
                0 | 1 if deeper > 0 => {
                    let n = self.times();
                    self.put(head(n));
                    self.body(inner, deeper - 1, in_phrase);
                    self.put(TAL);
                }
                2 if !in_phrase && !self.fresh.is_empty() => {
                    let k = self.open_phrase();
                    self.body(inner, deeper, true);
                    self.close_phrase(k);
                }
                3 | 4 if !self.closed.is_empty() => {
                    let k = self.rng.pick(&self.closed);
                    self.put(call(k));
                }
                _ => self.event(),
            }
        }
    }

    /// Repeats in repeats, around the greatest depth.
    fn nested(&mut self) {
        let depth = self.rng.between(12, 18);
        let most = self.rng.pick(&[1, 2, 2, 3]);
        for _ in 0..depth {
            let n = self.rng.between(1, most);
            self.put(head(n));
            let count = self.rng.below(2);
            self.events(count);
        }
        let count = self.rng.below(3);
        self.events(count);
        (0..depth).for_each(|_| self.put(TAL));
    }

    /// Phrases, each of which calls the one before, once or more.
    fn chain(&mut self) {
        let length = self.rng.between(2, PHRASES);
        let most = self.rng.pick(&[1, 1, 2, 3]);
        for _ in 0..length {
            let before = self.closed.last().copied();
            let k = self.open_phrase();
            let count = self.rng.below(3);
            self.events(count);
            if let Some(before) = before {
                let calls = self.rng.between(1, most);
                (0..calls).for_each(|_| self.put(call(before)));
            }
            self.close_phrase(k);
        }
        let k = self.rng.pick(&self.closed);
        self.put(call(k));
    }

    /// A phrase with repeats in it, called from inside repeats: depth from both sides.
    fn phrase_deep_in_repeats(&mut self) {
        let inner = self.rng.below(10);
        let outer = self.rng.between(13, 18).saturating_sub(inner + 1);
        let around = self.rng.below(3);
        (0..around).for_each(|_| self.put(head(1)));
        let k = self.open_phrase();
        (0..inner).for_each(|_| self.put(head(1)));
        self.event();
        (0..inner).for_each(|_| self.put(TAL));
        self.event();
        self.close_phrase(k);
        (0..around).for_each(|_| self.put(TAL));
        (0..outer).for_each(|_| self.put(head(1)));
        self.put(call(k));
        (0..outer).for_each(|_| self.put(TAL));
    }

    /// Repeats and events that walk exactly this many pairs.
    fn walking(&mut self, mut left: usize) {
        while left > 200 {
            // HED n over HED m over k events: 1 + n x (1 + m x (k + 1) + 1)
            let k = self.rng.between(4, 60);
            let m = self.rng.between(1, 255).min(left / (2 * (k + 1))).max(1);
            let inside = 1 + m * (k + 1);
            let n = ((left - 1) / (inside + 1)).clamp(1, 255);
            self.put(head(n));
            self.put(head(m));
            self.events(k);
            self.put(TAL);
            self.put(TAL);
            left -= 1 + n * (inside + 1);
        }
        self.events(left);
    }
}

/// A pair that is an event and has a meaning.
pub fn event(rng: &mut Rng) -> [u8; 2] {
    let byte = rng.byte();
    match rng.below(10) {
        0 => [rng.pick(&[0x06, 0x16, 0xF6]), byte],
        1 => other_command(rng),
        2 => [0x01, command_byte(byte)],
        _ => [rng.byte() & 0xFC, byte],
    }
}

/// TEM, UTL or UTV, or a note, which UTL or UTV rules as often as tempo does. So most bodies set what
/// their own notes, or those of the next pass, or of a phrase, go by.
fn timed_event(rng: &mut Rng) -> [u8; 2] {
    let byte = rng.byte();
    match rng.below(10) {
        0..=2 => [
            rng.pick(&[0x06, 0x16, 0xF6]),
            rng.pick(&[0, 1, 2, 120, 255, byte]),
        ],
        3..=5 => [rng.byte() & 0xE0 | 0x04, byte],
        _ => [rng.byte() & 0xFC, byte],
    }
}

/// The second byte after 01 of a command that makes no body: the n0, n1, n4, n5, n7, n8 to nA, nC
/// to nE columns are whole.
fn command_byte(byte: u8) -> u8 {
    match byte & 0x0F {
        0x2 | 0x3 | 0x6 | 0xB | 0xF => {
            [0x03, 0x13, 0x5B, 0x7B, 0x1F, 0x8F, 0xEF, 0x0B][byte as usize >> 5]
        }
        _ => byte,
    }
}

/// A command whose first byte is not 01, with a value in its range.
fn other_command(rng: &mut Rng) -> [u8; 2] {
    let byte = rng.byte();
    match rng.below(8) {
        0 => [rng.byte() | 3, byte],
        1 => [rng.byte() & 0xF0 | rng.pick(&[0x02, 0x0A]), byte],
        2 => [rng.pick(&[0x76, 0xC6, 0xD6]), byte & 0x7F],
        3 => [0x6E, rng.below(15).wrapping_sub(7) as u8],
        4 => [0xA6, byte % 0xC0],
        5 => [rng.pick(&[0x1E, 0x5E, 0x9E, 0xDE, 0x3E, 0x7E]), byte],
        6 => [0x2E, (byte % 23) << 3 | rng.pick(&[0, 1, 2, 3, 4, 5])],
        _ => [
            rng.pick(&[0x26, 0x46, 0x56, 0x66, 0x86, 0x96, 0xB6, 0xE6, 0x0E, 0x4E]),
            byte,
        ],
    }
}
