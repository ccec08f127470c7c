//! SAP files that document 02 (i) accepts.

use super::rng::Rng;

/// The tags that need an argument. TIME may come more than once.
pub const TAGS: [&str; 12] = [
    "AUTHOR", "NAME", "DATE", "SONGS", "DEFSONG", "TYPE", "FASTPLAY", "INIT", "MUSIC", "PLAYER",
    "COVOX", "TIME",
];
/// The tags that take none.
pub const BARE: [&str; 2] = ["STEREO", "NTSC"];
/// What ends the text and is skipped between blocks.
pub const MARK: [u8; 2] = [0xFF, 0xFF];

/// A file in two parts: the lines after the first, without their ends, and the data from the first
/// FF FF on.
pub struct Parts {
    pub lines: Vec<Vec<u8>>,
    pub data: Vec<u8>,
}

impl Parts {
    /// Those of a file; None where its lines do not end before an FF FF.
    pub fn of(file: &[u8]) -> Option<Parts> {
        let mut rest = file.strip_prefix(b"SAP\r\n")?;
        let mut lines = Vec::new();
        while !rest.starts_with(&MARK) {
            let length = rest.windows(2).position(|two| two == b"\r\n")?;
            lines.push(rest[..length].to_vec());
            rest = &rest[length + 2..];
        }
        let data = rest.to_vec();
        Some(Parts { lines, data })
    }

    /// Puts the file together.
    pub fn write(&self, file: &mut Vec<u8>) {
        file.clear();
        file.extend_from_slice(b"SAP\r\n");
        for line in &self.lines {
            file.extend_from_slice(line);
            file.extend_from_slice(b"\r\n");
        }
        file.extend_from_slice(&self.data);
    }

    /// Where the lines of a tag stand.
    pub fn tagged(&self, tag: &str) -> Vec<usize> {
        let is = |line: &[u8]| line.split(|&b| b == b' ').next() == Some(tag.as_bytes());
        let places = self.lines.iter().enumerate();
        let places = places.filter(|(_, line)| is(line));
        places.map(|(at, _)| at).collect()
    }

    /// How many songs the SONGS line states, 1 where there is no such line or where it is far off.
    pub fn songs(&self) -> usize {
        let line = self.tagged("SONGS").first().map(|&at| &self.lines[at][6..]);
        let number = line.and_then(|digits| std::str::from_utf8(digits).ok()?.parse().ok());
        number.filter(|&number| number < 64).unwrap_or(1)
    }

    /// The blocks' places in the data, as far as they lie there.
    pub fn blocks(&self) -> Vec<usize> {
        let (mut at, mut places) = (0, Vec::new());
        while let Some(&[a, b, c, d]) = self.data.get(at..at + 4) {
            if [a, b] == MARK {
                at += 2;
                continue;
            }
            let [start, end] = [[a, b], [c, d]].map(u16::from_le_bytes);
            places.push(at);
            at += 5 + usize::from(end.saturating_sub(start));
        }
        places
    }
}

/// Makes an accepted file with blocks of up to `most` bytes.
pub fn valid(rng: &mut Rng, most: usize, file: &mut Vec<u8>) {
    let mut lines = lines(rng);
    // in the order of the paper, or in any
    if rng.one_in(2) {
        for at in 1..lines.len() {
            lines.swap(at, rng.below(at + 1));
        }
    }
    let data = data(rng, most);
    Parts { lines, data }.write(file);
}

fn lines(rng: &mut Rng) -> Vec<Vec<u8>> {
    let letter = rng.pick(b"BCDS");
    let songs = match rng.below(4) {
        0 | 1 => None,
        2 => Some(rng.pick(&[1, 2, 3, 9, 10, 31, 32])),
        _ => Some(rng.between(1, 32)),
    };
    let count = songs.unwrap_or(1);
    let mut lines = Vec::new();
    for tag in ["AUTHOR", "NAME", "DATE"] {
        if !rng.one_in(4) {
            lines.push(good_line(rng, tag));
        }
    }
    lines.extend(songs.map(|songs| line("SONGS", &songs.to_string())));
    if rng.one_in(3) {
        let song = rng.pick(&[0, count / 2, count - 1]);
        lines.push(line("DEFSONG", &song.to_string()));
    }
    for tag in BARE {
        if rng.one_in(4) {
            lines.push(tag.into());
        }
    }
    lines.push([b"TYPE ", &[letter][..]].concat());
    for tag in ["FASTPLAY", "COVOX"] {
        if rng.one_in(4) {
            lines.push(good_line(rng, tag));
        }
    }
    let needed: &[&str] = match letter {
        b'B' => &["INIT", "PLAYER"],
        b'C' => &["MUSIC", "PLAYER"],
        _ if rng.one_in(2) => &["INIT", "PLAYER"],
        _ => &["INIT"],
    };
    for tag in needed {
        lines.push(good_line(rng, tag));
    }
    for _ in 0..rng.pick(&[0, 1, count / 2, count - 1, count]) {
        lines.push(good_line(rng, "TIME"));
    }
    lines
}

pub fn line(tag: &str, argument: &str) -> Vec<u8> {
    format!("{tag} {argument}").into_bytes()
}

/// A line that is good by itself.
pub fn good_line(rng: &mut Rng, tag: &str) -> Vec<u8> {
    let argument = match tag {
        "AUTHOR" | "NAME" | "DATE" => {
            let length = match rng.below(3) {
                0 => rng.pick(&[0, 0, 1, 119, 120]),
                _ => rng.below(121),
            };
            return [tag.as_bytes(), b" ", &text(rng, length)].concat();
        }
        "SONGS" => rng.between(1, 32).to_string(),
        "DEFSONG" => rng.below(32).to_string(),
        "TYPE" => rng.pick(&["B", "C", "D", "S"]).to_string(),
        "FASTPLAY" => match rng.below(2) {
            0 => rng.pick(&[1, 78, 156, 262, 312, 32_767]).to_string(),
            _ => rng.between(1, 32_767).to_string(),
        },
        "INIT" | "MUSIC" | "PLAYER" => format!("{:04X}", rng.next() as u16),
        "COVOX" => "D600".to_string(),
        "TIME" => time(rng),
        _ => return tag.into(),
    };
    line(tag, &argument)
}

/// A text of this many allowed characters, in its quotes.
pub fn text(rng: &mut Rng, length: usize) -> Vec<u8> {
    let mut text = vec![b'"'];
    for _ in 0..length {
        let byte = match rng.below(8) {
            0 => rng.pick(b" !#[]_^az|\\'@"),
            1..=3 => rng.between(usize::from(b'a'), usize::from(b'z')) as u8,
            _ => rng.between(usize::from(b' '), usize::from(b'_')) as u8,
        };
        text.push(if byte == b'"' { b'|' } else { byte });
    }
    text.push(b'"');
    text
}

/// The argument of a TIME line.
fn time(rng: &mut Rng) -> String {
    let minutes = rng.below(100);
    let mut time = match rng.below(3) {
        0 => format!("{}", minutes % 10),
        _ => format!("{minutes:02}"),
    };
    let seconds = rng.pick(&[0, 1, 59, 60, 99, 7, 34, 40]);
    time += &format!(":{seconds:02}");
    let digits = rng.below(4);
    if digits > 0 {
        let thousandths = format!("{:03}", rng.below(1_000));
        time += &format!(".{}", &thousandths[..digits]);
    }
    if rng.one_in(2) {
        time += " LOOP";
    }
    time
}

/// The mark and some blocks, with marks between them.
fn data(rng: &mut Rng, most: usize) -> Vec<u8> {
    let mut data = MARK.to_vec();
    let mut before = (0x2000, 0x2000);
    for _ in 0..rng.pick(&[1, 1, 2, 2, 2, 3, 4, 8]) {
        if rng.one_in(4) {
            (0..rng.between(1, 3)).for_each(|_| data.extend(MARK));
        }
        before = place(rng, most, before);
        block(rng, before.0, before.1, &mut data);
    }
    data
}

/// Addresses beside 02E0 to 02E3, often over those of the block before, or on an edge.
fn place(rng: &mut Rng, most: usize, before: (usize, usize)) -> (usize, usize) {
    let length = rng.between(1, most);
    let start = match rng.below(8) {
        0 | 1 => before.0 + rng.below(before.1 - before.0 + 1),
        2 => (before.0 + 1).saturating_sub(rng.between(1, length)),
        3 => rng.pick(&[0, 0x02DF, 0x02E4, 0xFFFE]),
        4 => 65_536 - length,
        5 => 0x02E0_usize.saturating_sub(length),
        _ => rng.below(65_535),
    };
    let start = match start {
        0x02E0..=0x02E3 => 0x02E4,
        _ => start.min(0xFFFE),
    };
    let last = if start < 0x02E0 { 0x02DF } else { 0xFFFF };
    (start, (start + length - 1).min(last))
}

/// A block with all its data.
pub fn block(rng: &mut Rng, start: usize, end: usize, data: &mut Vec<u8>) {
    data.extend((start as u16).to_le_bytes());
    data.extend((end as u16).to_le_bytes());
    let last = data.len() + end - start + 1;
    let fill = if rng.one_in(6) { u64::MAX } else { 0 };
    while data.len() < last {
        data.extend((rng.next() | fill).to_le_bytes());
    }
    data.truncate(last);
}
