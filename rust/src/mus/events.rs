//! The events of a voice, one by one.

use super::{accept, list};
use crate::Refusal;
use std::fmt;
use std::iter::FusedIterator;

/// An event of a voice.
///
/// A later release may add fields.
#[derive(Clone, Copy, Debug, PartialEq, Eq, Hash)]
#[non_exhaustive]
pub struct Event {
    /// Its number in the played-out voice, counted from 0.
    pub number: u64,
    /// The file offset of its pair.
    pub offset: usize,
    /// When it begins, in whole jiffies from the start of the voice.
    pub jiffy: u32,
}

/// The events of a voice (1 to 3) of an accepted song, in played order.
///
/// # Errors
///
/// Refused with 41, then 21 to 33.
///
/// # Examples
///
/// ```
/// use turftangle::{mus, Reason};
/// # let song = include_bytes!(concat!(env!("CARGO_MANIFEST_DIR"), "/../crates/listing/stdin"));
///
/// let events = mus::events(song, 1)?;
/// assert_eq!(events.len(), 5);
/// let times: Vec<(usize, u32)> = events.map(|event| (event.offset, event.jiffy)).collect();
/// assert_eq!(times, [(8, 0), (12, 0), (12, 1), (12, 3), (16, 5)]);
/// assert_eq!(mus::events(song, 0).unwrap_err().reason, Reason::VoiceNumber);
/// # Ok::<(), turftangle::Refusal>(())
/// ```
pub fn events(file: &[u8], voice: u32) -> Result<Events<'_>, Refusal> {
    // Lists of no cells: this tests voice and file, in the library's order.
    list(file, voice, 0, &mut [], &mut [])?;
    let counts = accept(file)?[voice as usize - 1];
    Ok(Events {
        file,
        voice,
        next: 0,
        end: counts.events as u64,
        first: 0,
        cells: FIRST_WINDOW,
        offsets: Vec::new(),
        jiffies: Vec::new(),
    })
}

/// How many events the first window has.
const FIRST_WINDOW: usize = 256;

/// The events of a voice; [`events`] makes it.
///
/// It asks the library for windows of events. Each call of the library walks the voice from its
/// start, so each window is twice as long as the one before: then a whole voice takes a few times
/// as long as one list of it, however long it is.
#[derive(Clone)]
pub struct Events<'a> {
    file: &'a [u8],
    voice: u32,
    /// The number of the next event.
    next: u64,
    /// How many events the voice has.
    end: u64,
    /// The number of the window's first event.
    first: u64,
    /// How many cells the next window has, where so many events are left.
    cells: usize,
    /// The window.
    offsets: Vec<u32>,
    jiffies: Vec<u32>,
}

impl Events<'_> {
    /// How many events are left.
    fn left(&self) -> usize {
        (self.end - self.next) as usize
    }

    /// Asks for the window that begins with the next event.
    fn ask(&mut self) {
        let cells = self.cells.min(self.left());
        self.offsets.resize(cells, 0);
        self.jiffies.resize(cells, 0);
        self.first = self.next;
        self.cells *= 2;
        let (offsets, jiffies) = (&mut self.offsets, &mut self.jiffies);
        // The voice and the file were tested at the start, and a lent file stays as it is.
        list(self.file, self.voice, self.first, offsets, jiffies).expect("an accepted song");
    }
}

impl Iterator for Events<'_> {
    type Item = Event;

    fn next(&mut self) -> Option<Event> {
        if self.next == self.end {
            return None;
        }
        if self.next - self.first >= self.offsets.len() as u64 {
            self.ask();
        }
        let at = (self.next - self.first) as usize;
        let event = Event {
            number: self.next,
            offset: self.offsets[at] as usize,
            jiffy: self.jiffies[at],
        };
        self.next += 1;
        Some(event)
    }

    fn size_hint(&self) -> (usize, Option<usize>) {
        (self.left(), Some(self.left()))
    }

    /// Passes over events without asking for them.
    fn nth(&mut self, n: usize) -> Option<Event> {
        self.next += n.min(self.left()) as u64;
        self.next()
    }

    fn count(self) -> usize {
        self.left()
    }
}

impl ExactSizeIterator for Events<'_> {}

impl FusedIterator for Events<'_> {}

impl fmt::Debug for Events<'_> {
    fn fmt(&self, f: &mut fmt::Formatter<'_>) -> fmt::Result {
        let mut shown = f.debug_struct("Events");
        shown.field("voice", &self.voice);
        shown.field("next", &self.next);
        shown.field("end", &self.end).finish_non_exhaustive()
    }
}

#[cfg(test)]
mod tests {
    use super::*;

    /// A million events, by HED 255 over 4,096 eighths: 12 windows, since 256 x (2^11 - 1) are too few
    /// and 256 x (2^12 - 1) are enough. Windows of one length would be 4,081.
    #[test]
    fn windows_double() {
        let mut song = vec![0, 0, 0x06, 0x20, 2, 0, 2, 0, 0x36, 255];
        (0..4_096).for_each(|_| song.extend([0x14, 0x99]));
        song.extend([0x01, 0x0F, 0x01, 0x4F, 0x01, 0x4F, 0x01, 0x4F]);
        song.extend([0x0D, 0x0D, 0x0D, 0x0D, 0x0D, 0x00]);
        let mut events = events(&song, 1).expect("accepted");
        assert_eq!(events.len(), 255 * 4_096 + 1);
        let (mut windows, mut longest) = (Vec::new(), 0);
        while events.next().is_some() {
            if windows.last() != Some(&events.first) {
                windows.push(events.first);
            }
            longest = longest.max(events.offsets.len());
        }
        let starts: Vec<u64> = (0..12).map(|k| 256 * ((1 << k) - 1)).collect();
        assert_eq!(windows, starts);
        assert!(longest <= 256 << 11);
    }
}
