//! How often a value of the clock was carried from one playing of a body to another: the voices that tell
//! a right length from one that takes a body to last equally long each time.

use super::sixteen::voices;
use crate::plain::mus::{role, Role};
use std::fmt;

/// The values, in the order in which they are counted.
const NAMES: [&str; 3] = ["tempo", "UTL", "UTV"];

/// Accepted voices, by value.
#[derive(Default)]
pub struct Carried {
    /// A repeat of two passes or more has a note by the value, and sets the value later in its body.
    repeated: [u64; 3],
    /// Such a repeat stands in another repeat of two passes or more.
    nested: [u64; 3],
    /// A phrase with a note by the value that it starts with is called after the value is set anew.
    called: [u64; 3],
    /// A note comes after a body that sets the value.
    after: [u64; 3],
}

impl Carried {
    /// Takes in a voice of an accepted song.
    pub fn count(&mut self, file: &[u8], voice: u32) {
        let mut scan = Scan::default();
        for pair in voices(file)[voice as usize - 1].chunks_exact(2) {
            scan.pair(pair[0], pair[1]);
        }
        for (counts, seen) in [
            (&mut self.repeated, scan.repeated),
            (&mut self.nested, scan.nested),
            (&mut self.called, scan.called),
            (&mut self.after, scan.after),
        ] {
            for (count, seen) in counts.iter_mut().zip(seen) {
                *count += u64::from(seen);
            }
        }
    }

    /// Fails where one of these never came.
    pub fn came(&self) {
        let counts = [self.repeated, self.nested, self.called, self.after];
        assert!(!counts.concat().contains(&0), "{self}");
    }
}

impl fmt::Display for Carried {
    fn fmt(&self, f: &mut fmt::Formatter<'_>) -> fmt::Result {
        let told = NAMES.into_iter().enumerate().map(|(at, name)| {
            let (repeated, nested) = (self.repeated[at], self.nested[at]);
            let (called, after) = (self.called[at], self.after[at]);
            format!(
                "{name} in repeats {repeated}, nested {nested}, to calls {called}, past bodies {after}"
            )
        });
        write!(f, "carried: {}", told.collect::<Vec<_>>().join("; "))
    }
}

/// A body as far as it is read: the values that notes of it use as it starts with them, and those that
/// it sets.
#[derive(Clone, Copy, Default)]
struct Body {
    uses: [bool; 3],
    sets: [bool; 3],
}

impl Body {
    /// Goes on by another body.
    fn join(&mut self, next: Body) {
        for at in 0..3 {
            self.uses[at] |= next.uses[at] && !self.sets[at];
            self.sets[at] |= next.sets[at];
        }
    }
}

/// What opened a body.
#[derive(Clone, Copy)]
enum Opener {
    Head(u8),
    Define(usize),
}

/// A voice in stored order.
#[derive(Default)]
struct Scan {
    body: Body,
    open: Vec<(Opener, Body)>,
    /// The phrases, and how often each value was set before their END.
    phrases: [(Body, [u64; 3]); 24],
    /// How often each value is set, and how deep the last time.
    times: [u64; 3],
    deep: [usize; 3],
    repeated: [bool; 3],
    nested: [bool; 3],
    called: [bool; 3],
    after: [bool; 3],
}

impl Scan {
    fn pair(&mut self, first: u8, second: u8) {
        match first {
            0x00 => {}
            0x06 => self.set(0),
            0x16 => self.set(1),
            0xF6 => self.set(2),
            _ if first & 3 != 0 => self.structure(role(first, second)),
            _ if first & 0x1C != 0x04 => self.note(0),
            _ if first & 0x20 == 0 => self.note(1),
            _ => self.note(2),
        }
    }

    fn set(&mut self, at: usize) {
        self.body.sets[at] = true;
        self.times[at] += 1;
        self.deep[at] = self.open.len();
    }

    fn note(&mut self, at: usize) {
        self.body.uses[at] |= !self.body.sets[at];
        self.after[at] |= self.deep[at] > self.open.len();
    }

    fn structure(&mut self, role: Role) {
        match role {
            Role::Event | Role::Halt => {}
            Role::Head(n) => self.enter(Opener::Head(n)),
            Role::Define(k) => self.enter(Opener::Define(k)),
            Role::Tail | Role::End => self.close(),
            Role::Call(k) => {
                let (phrase, times) = self.phrases[k];
                for (at, before) in times.into_iter().enumerate() {
                    self.called[at] |= phrase.uses[at] && self.times[at] > before;
                }
                self.body.join(phrase);
            }
        }
    }

    fn enter(&mut self, opener: Opener) {
        self.open.push((opener, std::mem::take(&mut self.body)));
    }

    fn close(&mut self) {
        let (opener, outer) = self.open.pop().expect("an accepted voice");
        let body = std::mem::replace(&mut self.body, outer);
        self.body.join(body);
        match opener {
            Opener::Define(k) => self.phrases[k] = (body, self.times),
            Opener::Head(1) => {}
            Opener::Head(_) => {
                let around = |(opener, _): &(Opener, Body)| matches!(opener, Opener::Head(2..));
                let nested = self.open.iter().any(around);
                for at in 0..3 {
                    let carried = body.uses[at] && body.sets[at];
                    self.repeated[at] |= carried;
                    self.nested[at] |= carried && nested;
                }
            }
        }
    }
}
