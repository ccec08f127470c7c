//! SAP files of types B, C, D and S.

use super::sid::Span;
use super::{put, Refusal};

/// What each type of player needs.
#[derive(Clone, Copy)]
pub enum Player {
    B { init: u16, player: u16 },
    C { music: u16, player: u16 },
    D { init: u16, player: Option<u16> },
    S { init: u16 },
}

pub struct Header {
    pub player: Player,
    pub songs: u32,
    pub default_song: u32,
    pub stereo: bool,
    pub ntsc: bool,
    pub covox: bool,
    /// As it is stated.
    pub fastplay_tag: Option<u32>,
    pub author: Option<Span>,
    pub name: Option<Span>,
    pub date: Option<Span>,
    /// How many TIME lines there are.
    pub times: u32,
    pub blocks: usize,
    /// Where the first FF FF stands.
    pub data: usize,
}

impl Header {
    /// In scanlines, as it holds.
    pub fn fastplay(&self) -> u32 {
        let default = match self.player {
            Player::S { .. } => 78,
            _ if self.ntsc => 262,
            _ => 312,
        };
        self.fastplay_tag.unwrap_or(default)
    }
}

const MEMORY: usize = 65_536;
/// The first line.
const FIRST: &[u8] = b"SAP\r\n";
/// What ends the text and is skipped between blocks.
const MARK: &[u8] = &[0xFF, 0xFF];

/// Whether the file's first line is that of a SAP file.
pub fn begins(file: &[u8]) -> bool {
    file.starts_with(FIRST)
}

/// The header of an accepted file, or the first of 51 to 54 that applies.
pub fn read(file: &[u8]) -> Result<Header, Refusal> {
    if !begins(file) {
        return Err(Refusal::new(51));
    }
    let (tags, data) = tags(file).ok_or(Refusal::new(52))?;
    let mut header = tags.fit(data).ok_or(Refusal::new(53))?;
    for block in Blocks::of(file, data) {
        block?;
        header.blocks += 1;
    }
    Ok(header)
}

/// The lines after the first, each with its place and without its CR LF. They end before the mark;
/// None stands for a line that is not closed, or for the mark that is missing.
struct Lines<'a> {
    file: &'a [u8],
    at: usize,
}

impl<'a> Iterator for Lines<'a> {
    type Item = Option<(usize, &'a [u8])>;

    fn next(&mut self) -> Option<Self::Item> {
        let (at, rest) = (self.at, &self.file[self.at..]);
        if rest.starts_with(MARK) {
            return None;
        }
        // a CR alone stands in no good line
        let length = rest.iter().position(|&b| b == b'\r');
        let closed = length.filter(|&length| rest.get(length + 1) == Some(&b'\n'));
        Some(closed.map(|length| {
            self.at = at + length + 2;
            (at, &rest[..length])
        }))
    }
}

fn lines(file: &[u8]) -> Lines<'_> {
    let at = FIRST.len();
    Lines { file, at }
}

/// What the lines say.
#[derive(Default)]
struct Tags {
    author: Option<Span>,
    name: Option<Span>,
    date: Option<Span>,
    songs: Option<u32>,
    default_song: Option<u32>,
    stereo: Option<()>,
    ntsc: Option<()>,
    kind: Option<u8>,
    fastplay: Option<u32>,
    init: Option<u16>,
    music: Option<u16>,
    player: Option<u16>,
    covox: Option<()>,
    times: u32,
}

/// The tags and the place of the mark; None for 52.
fn tags(file: &[u8]) -> Option<(Tags, usize)> {
    let mut tags = Tags::default();
    let mut lines = lines(file);
    for line in lines.by_ref() {
        let (at, line) = line?;
        tags.take(at, line)?;
    }
    Some((tags, lines.at))
}

/// Puts a tag's value into its place; None where there is no value, or one stands there.
fn once<T>(place: &mut Option<T>, value: Option<T>) -> Option<()> {
    match place.replace(value?) {
        None => Some(()),
        Some(_) => None,
    }
}

impl Tags {
    /// Takes in the line that stands at this place; None where it is bad.
    fn take(&mut self, at: usize, line: &[u8]) -> Option<()> {
        let Some(space) = line.iter().position(|&b| b == b' ') else {
            return match line {
                b"STEREO" => once(&mut self.stereo, Some(())),
                b"NTSC" => once(&mut self.ntsc, Some(())),
                _ => None,
            };
        };
        let (tag, argument, at) = (&line[..space], &line[space + 1..], at + space + 1);
        match tag {
            b"AUTHOR" => once(&mut self.author, text(at, argument)),
            b"NAME" => once(&mut self.name, text(at, argument)),
            b"DATE" => once(&mut self.date, text(at, argument)),
            b"SONGS" => once(&mut self.songs, within(1, 32, argument)),
            b"DEFSONG" => once(&mut self.default_song, decimal(argument)),
            b"TYPE" => once(&mut self.kind, kind(argument)),
            b"FASTPLAY" => once(&mut self.fastplay, within(1, 32_767, argument)),
            b"INIT" => once(&mut self.init, address(argument)),
            b"MUSIC" => once(&mut self.music, address(argument)),
            b"PLAYER" => once(&mut self.player, address(argument)),
            b"COVOX" => once(&mut self.covox, (argument == b"D600").then_some(())),
            b"TIME" => {
                duration(argument)?;
                self.times = self.times.saturating_add(1);
                Some(())
            }
            _ => None,
        }
    }

    /// The header without its blocks; None for 53.
    fn fit(self, data: usize) -> Option<Header> {
        let player = match (self.kind?, self.init, self.music, self.player) {
            (b'B', Some(init), None, Some(player)) => Player::B { init, player },
            (b'C', None, Some(music), Some(player)) => Player::C { music, player },
            (b'D', Some(init), None, player) => Player::D { init, player },
            (b'S', Some(init), None, _) => Player::S { init },
            _ => return None,
        };
        let songs = self.songs.unwrap_or(1);
        let default_song = self.default_song.unwrap_or(0);
        if default_song >= songs || self.times > songs {
            return None;
        }
        Some(Header {
            player,
            songs,
            default_song,
            stereo: self.stereo.is_some(),
            ntsc: self.ntsc.is_some(),
            covox: self.covox.is_some(),
            fastplay_tag: self.fastplay,
            author: self.author,
            name: self.name,
            date: self.date,
            times: self.times,
            blocks: 0,
            data,
        })
    }
}

/// Where the text between the two quotes of an argument lies.
fn text(at: usize, argument: &[u8]) -> Option<Span> {
    let inner = argument.strip_prefix(b"\"")?.strip_suffix(b"\"")?;
    let allowed = |&b: &u8| matches!(b, b' '..=b'_' | b'a'..=b'z' | b'|') && b != b'"';
    let good = inner.len() <= 120 && inner.iter().all(allowed);
    good.then_some(Span {
        offset: at + 1,
        length: inner.len(),
    })
}

/// Digits as a number, which stops at the greatest.
fn digits(digits: &[u8]) -> Option<u32> {
    digits.iter().try_fold(0, |number: u32, b| {
        let digit = b.is_ascii_digit().then_some(u32::from(b & 0x0F))?;
        Some(number.saturating_mul(10).saturating_add(digit))
    })
}

/// A decimal without leading zeros.
fn decimal(argument: &[u8]) -> Option<u32> {
    match argument {
        [] | [b'0', _, ..] => None,
        _ => digits(argument),
    }
}

fn within(least: u32, greatest: u32, argument: &[u8]) -> Option<u32> {
    decimal(argument).filter(|number| (least..=greatest).contains(number))
}

/// Four hexadecimal digits, with capital letters.
fn address(argument: &[u8]) -> Option<u16> {
    let four: [u8; 4] = argument.try_into().ok()?;
    four.iter().try_fold(0, |number, b| {
        let digit = match b {
            b'0'..=b'9' => b - b'0',
            b'A'..=b'F' => b - b'A' + 10,
            _ => return None,
        };
        Some(number << 4 | u16::from(digit))
    })
}

/// The letter of a type; R is one, which no header fits.
fn kind(argument: &[u8]) -> Option<u8> {
    match argument {
        [letter @ (b'B' | b'C' | b'D' | b'S' | b'R')] => Some(*letter),
        _ => None,
    }
}

/// A song's duration, as a TIME line states it.
#[derive(Clone, Copy)]
struct Duration {
    milliseconds: u32,
    looped: bool,
}

fn duration(argument: &[u8]) -> Option<Duration> {
    let (clock, looped) = match argument.strip_suffix(b" LOOP") {
        Some(clock) => (clock, true),
        None => (argument, false),
    };
    let (minutes, rest) = match clock {
        [minutes, b':', rest @ ..] => (&[*minutes][..], rest),
        [_, _, b':', rest @ ..] => (&clock[..2], rest),
        _ => return None,
    };
    let (seconds, fraction) = (rest.get(..2)?, &rest[2..]);
    let thousandths = match fraction {
        [] => 0,
        [b'.', tenths] => 100 * digits(&[*tenths])?,
        [b'.', _, _] => 10 * digits(&fraction[1..])?,
        [b'.', _, _, _] => digits(&fraction[1..])?,
        _ => return None,
    };
    let seconds = 60 * digits(minutes)? + digits(seconds)?;
    let milliseconds = 1_000 * seconds + thousandths;
    Some(Duration {
        milliseconds,
        looped,
    })
}

#[derive(Clone, Copy)]
pub struct Block {
    pub start: u16,
    pub end: u16,
    /// Where its first data byte stands.
    pub offset: usize,
}

impl Block {
    fn length(self) -> usize {
        usize::from(self.end - self.start) + 1
    }

    fn data(self, file: &[u8]) -> Option<&[u8]> {
        file.get(self.offset..)?.get(..self.length())
    }
}

/// The blocks up to the file's end, or up to one that 54 refuses.
struct Blocks<'a> {
    file: &'a [u8],
    at: usize,
}

impl Blocks<'_> {
    /// Those from the mark on; so there is at least one, or 54.
    fn of(file: &[u8], at: usize) -> Blocks<'_> {
        Blocks { file, at }
    }

    /// The block that stands next, after any marks; None where it is bad, cut off or missing.
    fn block(&self) -> Option<Block> {
        let mut at = self.at;
        while self.file[at..].starts_with(MARK) {
            at += 2;
        }
        let head: [u8; 4] = self.file[at..].get(..4)?.try_into().ok()?;
        let block = Block {
            start: u16::from_le_bytes([head[0], head[1]]),
            end: u16::from_le_bytes([head[2], head[3]]),
            offset: at + 4,
        };
        // RUN and INIT of an Atari executable
        let vectors = block.start <= 0x02E3 && 0x02E0 <= block.end;
        if block.start > block.end || vectors {
            return None;
        }
        block.data(self.file).map(|_| block)
    }
}

impl Iterator for Blocks<'_> {
    type Item = Result<Block, Refusal>;

    fn next(&mut self) -> Option<Self::Item> {
        if self.at == self.file.len() {
            return None;
        }
        let block = self.block();
        self.at = block.map_or(self.file.len(), |block| block.offset + block.length());
        Some(block.ok_or(Refusal::new(54)))
    }
}

/// A count or offset as a cell has it.
fn cell(number: usize) -> u32 {
    u32::try_from(number).unwrap_or(u32::MAX)
}

/// The 21 fields in the order of docs/INTERFACE.md, as many as fit.
pub fn fields_into(file: &[u8], out: &mut [u32]) -> Result<u32, Refusal> {
    let h = read(file)?;
    let (letter, init, music, player) = match h.player {
        Player::B { init, player } => (b'B', init, 0, Some(player)),
        Player::C { music, player } => (b'C', 0, music, Some(player)),
        Player::D { init, player } => (b'D', init, 0, player),
        Player::S { init } => (b'S', init, 0, None),
    };
    let mut cells = [0; 21];
    cells[..12].copy_from_slice(&[
        letter.into(),
        h.songs,
        h.default_song,
        h.stereo.into(),
        h.ntsc.into(),
        h.covox.into(),
        h.fastplay(),
        h.fastplay_tag.is_some().into(),
        init.into(),
        music.into(),
        player.unwrap_or(0).into(),
        player.is_some().into(),
    ]);
    for (two, text) in cells[12..18]
        .chunks_exact_mut(2)
        .zip([h.author, h.name, h.date])
    {
        if let Some(Span { offset, length }) = text {
            two.copy_from_slice(&[cell(offset), cell(length)]);
        }
    }
    cells[18..].copy_from_slice(&[h.times, cell(h.blocks), cell(h.data)]);
    put(&cells, out);
    Ok(21)
}

/// Puts the blocks into their places in memory, one after the other.
pub fn load(file: &[u8], memory: &mut [u8]) -> Result<(), Refusal> {
    if memory.len() != MEMORY {
        return Err(Refusal::new(40));
    }
    let header = read(file)?;
    for block in Blocks::of(file, header.data) {
        let block = block?;
        if let Some(data) = block.data(file) {
            memory[block.start.into()..=block.end.into()].copy_from_slice(data);
        }
    }
    Ok(())
}

/// Twice the milliseconds of a song, counted from 0, and 1 more where it loops; the greatest number
/// where no TIME line states them.
pub fn time(file: &[u8], song: u32) -> Result<u32, Refusal> {
    let header = read(file)?;
    if song >= header.songs {
        return Err(Refusal::new(44));
    }
    let stated = lines(file).flatten();
    let mut stated = stated.filter_map(|(_, line)| duration(line.strip_prefix(b"TIME ")?));
    let duration = stated.nth(song as usize);
    Ok(duration.map_or(u32::MAX, |d| 2 * d.milliseconds + u32::from(d.looped)))
}

/// Start, end and offset of a block, counted from 0, as many of the three as fit. There are none of
/// a block that is not there.
pub fn block_into(file: &[u8], number: u32, out: &mut [u32]) -> Result<u32, Refusal> {
    let header = read(file)?;
    match Blocks::of(file, header.data).nth(number as usize) {
        None => Ok(0),
        Some(block) => {
            let Block { start, end, offset } = block?;
            put(&[start.into(), end.into(), cell(offset)], out);
            Ok(3)
        }
    }
}
