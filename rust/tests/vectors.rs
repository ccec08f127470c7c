//! The hand-made files of crates/sidvectors, musvectors and listvectors and the pairs of
//! crates/pairs, worked out from document 01 as corrected (tools/ says why each must give what): both readers
//! must give the lines that stand there.

mod plain;

use std::fs;
use std::path::PathBuf;
use turftangle::pair::{self, Accidental, Command, Duration, Meaning, Name, Note, Shape, Tone};
use turftangle::{mus, sid, Refusal};

fn path(rest: &str) -> PathBuf {
    PathBuf::from(env!("CARGO_MANIFEST_DIR"))
        .join("../crates")
        .join(rest)
}

/// What a program must print.
fn stored(name: &str) -> Vec<u8> {
    fs::read(path(name)).expect("the stored run is there")
}

/// The same, line by line; lines after a text with a line feed in it are cut.
fn lines(name: &str) -> Vec<String> {
    let text = String::from_utf8_lossy(&stored(name)).into_owned();
    text.lines().map(str::to_string).collect()
}

fn pair_of<T>(answer: Result<T, Refusal>) -> Result<T, (u32, u32)> {
    answer.map_err(|refusal| (refusal.number(), refusal.place as u32))
}

fn plain_pair_of<T>(answer: Result<T, plain::Refusal>) -> Result<T, (u32, u32)> {
    answer.map_err(|refusal| (refusal.number, refusal.place))
}

/// The line of an accepted or refused PSID or RSID file, from its 21 cells.
fn sid_line<T>(name: &str, answer: Result<T, (u32, u32)>, cells: &[u32; 21]) -> String {
    if let Err((number, place)) = answer {
        return format!("{name} refused {number} {place}");
    }
    let words = [
        "version", "load", "init", "play", "songs", "start", "speed", "basic", "clock", "model",
    ];
    let kind = if cells[0] == 0 { "PSID" } else { "RSID" };
    let mut line = format!("{name} accepted {kind}");
    for (word, cell) in words.iter().zip(&cells[1..]) {
        line += &format!(" {word} {cell}");
    }
    let pairs = ["pages", "title", "author", "released", "payload"];
    for (word, two) in pairs.iter().zip(cells[11..].chunks_exact(2)) {
        line += &format!(" {word} {} {}", two[0], two[1]);
    }
    line
}

#[test]
fn sid_files() {
    let lines = lines("sidvectors/stdout");
    let mut seen = 0;
    for entry in fs::read_dir(path("sidvectors/data")).expect("the files are there") {
        let entry = entry.expect("a file");
        let name = entry.file_name().into_string().expect("a plain name");
        let file = fs::read(entry.path()).expect("a file");
        let mut cells = [0; 21];
        let library = pair_of(sid::fields_into(&file, &mut cells));
        let library = sid_line(&name, library, &cells);
        let plain = plain_pair_of(plain::sid::fields_into(&file, &mut cells));
        assert_eq!(library, sid_line(&name, plain, &cells));
        assert!(lines.contains(&library), "{library}");
        seen += 1;
    }
    assert!(seen > 100);
}

/// The songs that `sidvectors` asks for: these, the last, the next and the greatest.
#[test]
fn sid_songs() {
    let mut seen = 0;
    for line in lines("sidvectors/stdout") {
        let words: Vec<&str> = line.split(' ').collect();
        if words.get(1) != Some(&"song") {
            continue;
        }
        let file = fs::read(path("sidvectors/data").join(words[0])).expect("a file");
        let songs = plain::sid::read(&file).map_or(7, |header| header.songs.into());
        let asked = [0, 1, 2, 3, 31, 32, 33, songs, songs + 1, u32::MAX];
        for (song, answer) in asked.iter().zip(words[3..].chunks(2)) {
            let library = sid::speed(&file, *song).map_or_else(|r| r.number(), |s| s.bit());
            let plain = plain::sid::speed(&file, *song).unwrap_or_else(|r| r.number);
            assert_eq!(library, plain, "{line}");
            assert_eq!(library.to_string(), answer[0], "{line}");
            seen += 1;
        }
    }
    assert!(seen > 50);
}

/// The text lines that `musvectors` asks for: these and two far ones.
const ASKED: [u32; 9] = [0, 1, 2, 3, 4, 5, 6, 65_537, u32::MAX];

/// What a reader says of an accepted song.
#[derive(Debug, PartialEq)]
struct Song {
    load: u32,
    voices: [u32; 12],
    places: [u32; 6],
    /// For each line asked for how many numbers there are, and these.
    lines: [(u32, [u32; 2]); 9],
}

fn by_library(file: &[u8]) -> Result<Song, Refusal> {
    let (mut voices, mut places, mut lines) = ([0; 12], [0; 6], [(0, [0; 2]); 9]);
    let load = mus::load_address(file)?.into();
    mus::accept_into(file, &mut voices)?;
    mus::voices_into(file, &mut places)?;
    for (line, (count, numbers)) in ASKED.into_iter().zip(&mut lines) {
        *count = mus::line_into(file, line, numbers)? as u32;
    }
    Ok(Song {
        load,
        voices,
        places,
        lines,
    })
}

fn by_plain(file: &[u8]) -> Result<Song, plain::Refusal> {
    let (mut voices, mut places, mut lines) = ([0; 12], [0; 6], [(0, [0; 2]); 9]);
    let load = plain::mus::load(file)?;
    plain::mus::accept_into(file, &mut voices)?;
    plain::mus::voices_into(file, &mut places)?;
    for (line, (count, numbers)) in ASKED.into_iter().zip(&mut lines) {
        *count = plain::mus::line_into(file, line, numbers)?;
    }
    Ok(Song {
        load,
        voices,
        places,
        lines,
    })
}

/// The line of `musvectors` about a song, with the bytes of its texts.
fn song_line(name: &str, file: &[u8], answer: &Result<Song, (u32, u32)>) -> Vec<u8> {
    let song = match answer {
        Ok(song) => song,
        Err((number, place)) => {
            let nothing = "[]".repeat(ASKED.len());
            return format!("{name} refused {number} {place} text {nothing}\n").into_bytes();
        }
    };
    let mut line = format!("{name} accepted load {}", song.load);
    for (number, four) in (1..).zip(song.voices.chunks_exact(4)) {
        let [offset, pairs, events, walked] = [four[0], four[1], four[2], four[3]];
        line += &format!(" v{number} {offset} {} {events} {walked}", 2 * pairs);
    }
    line += " lines";
    for (_, [offset, length]) in song.lines.iter().filter(|(count, _)| *count == 2) {
        line += &format!(" {offset} {length}");
    }
    let mut line = (line + " text ").into_bytes();
    for (_, [offset, length]) in &song.lines {
        let text = *offset as usize..(offset + length) as usize;
        line.push(b'[');
        line.extend_from_slice(&file[text]);
        line.push(b']');
    }
    line.push(b'\n');
    line
}

#[test]
fn mus_files() {
    let stored = [b"\n", &stored("musvectors/stdout")[..]].concat();
    let mut seen = 0;
    for entry in fs::read_dir(path("musvectors/data")).expect("the files are there") {
        let entry = entry.expect("a file");
        let name = entry.file_name().into_string().expect("a plain name");
        let file = fs::read(entry.path()).expect("a file");
        let library = pair_of(by_library(&file));
        assert_eq!(library, plain_pair_of(by_plain(&file)), "{name}");
        let line = [b"\n", &song_line(&name, &file, &library)[..]].concat();
        let stands = stored.windows(line.len()).any(|part| part == line);
        assert!(stands, "{}", String::from_utf8_lossy(&line));
        if let Ok(Song { voices, places, .. }) = library {
            let offsets_and_pairs = voices.chunks_exact(4).flat_map(|four| &four[..2]);
            assert!(offsets_and_pairs.eq(&places), "{name}");
        }
        seen += 1;
    }
    assert!(seen > 250);
}

/// The numbers that the program listvectors puts into every cell; it prints two cells more.
fn cells(from: u32, length: usize) -> Vec<u32> {
    (0..length as u32 + 2).map(|i| from + i).collect()
}

fn joined(cells: &[u32]) -> String {
    cells.iter().map(|cell| format!(" {cell}")).collect()
}

/// The rest of a line of listvectors: the answer and all cells.
fn list_line(file: &[u8], ask: &[u64], library: bool) -> String {
    let (one, two) = (ask[2] as usize, ask[3] as usize);
    let (mut offsets, mut jiffies) = (cells(4_000_000_000, one), cells(3_000_000_000, two));
    let (voice, first) = (ask[0] as u32, ask[1]);
    let answer = if library {
        let answer = mus::list(file, voice, first, &mut offsets[..one], &mut jiffies[..two]);
        pair_of(answer)
    } else {
        let answer = plain::mus::list(file, voice, first, &mut offsets[..one], &mut jiffies[..two]);
        plain_pair_of(answer)
    };
    let answer = match answer {
        Ok(count) => format!("count {count}"),
        Err((number, place)) => format!("refused {number} {place}"),
    };
    let (offsets, jiffies) = (joined(&offsets), joined(&jiffies));
    format!("{answer} offsets{offsets} jiffies{jiffies}")
}

#[test]
fn listings() {
    let lines = lines("listvectors/stdout");
    assert!(lines.len() > 100);
    for line in lines {
        let (name, rest) = line.split_once(' ').expect("a name");
        let words: Vec<&str> = rest.splitn(5, ' ').collect();
        let ask: Vec<u64> = words[..4]
            .iter()
            .map(|word| word.parse().unwrap())
            .collect();
        let file = fs::read(path("listvectors/data").join(name)).expect("a file");
        assert_eq!(list_line(&file, &ask, true), words[4], "{name} {ask:?}");
        assert_eq!(list_line(&file, &ask, false), words[4], "{name} {ask:?}");
    }
}

/// A meaning in the words of the program pairs.
fn told(meaning: Meaning) -> String {
    match meaning {
        Meaning::Note(note) => told_note(note),
        Meaning::Command(command) => told_command(command),
    }
}

fn told_note(note: Note) -> String {
    let duration = match note.duration {
        Duration::Whole => "whole",
        Duration::Half => "half",
        Duration::Quarter => "quarter",
        Duration::Eighth => "eighth",
        Duration::Sixteenth => "sixteenth",
        Duration::ThirtySecond => "thirty-second",
        Duration::SixtyFourth => "64th",
        Duration::UtilityDuration => "utility-duration",
        Duration::UtilityVoice => "utility-voice",
        Duration::AbsolutePitch => {
            assert!(note.shape == Shape::Plain && !note.tied);
            return format!("absolute {}", told_tone(note));
        }
    };
    let shape = match note.shape {
        Shape::Plain => "plain",
        Shape::Dotted => "dotted",
        Shape::DoubleDotted => "double-dotted",
        Shape::Triplet => "triplet",
    };
    let tie = if note.tied { "tied" } else { "-" };
    format!("note {duration} {shape} {tie} {}", told_tone(note))
}

/// Letter, accidental, octave and half-step.
fn told_tone(note: Note) -> String {
    let Some(tone) = note.tone else {
        return "rest".to_string();
    };
    let accidental = match tone.accidental {
        Accidental::Natural => "natural",
        Accidental::Sharp => "sharp",
        Accidental::DoubleSharp => "double-sharp",
        Accidental::Flat => "flat",
        Accidental::DoubleFlat => "double-flat",
    };
    let half_step = pair::half_step(Meaning::Note(note)).expect("it has a tone");
    let Tone { letter, octave, .. } = tone;
    format!("{letter:?} {accidental} {octave} {half_step}")
}

fn told_command(command: Command) -> String {
    let Command { name, value } = command;
    match name {
        Name::Tal | Name::End | Name::Hlt => format!("{name}"),
        Name::Bmp => format!("{name} {}", ["UP", "DN"][value as usize]),
        Name::Flt | Name::Rng | Name::Snc | Name::FX | Name::PV | Name::ThreeOff => {
            format!("{name} {}", ["NO", "YES"][value as usize])
        }
        _ => format!("{name} {value}"),
    }
}

#[test]
fn pairs() {
    let stdin = fs::read(path("pairs/stdin")).expect("the pairs are there");
    let lines = lines("pairs/stdout");
    assert_eq!(lines.len(), stdin.len() / 2);
    for (bytes, line) in stdin.chunks_exact(2).zip(lines) {
        let (first, second) = (bytes[0], bytes[1]);
        let answer = match pair::read(first, second) {
            Err(refusal) => format!("{first:02X} {second:02X} refused {}", refusal.number()),
            Ok(meaning) => {
                let [a, b] = pair::write(meaning).expect("a pair has it");
                format!("{first:02X} {second:02X} {} {a:02X} {b:02X}", told(meaning))
            }
        };
        assert_eq!(answer, line);
        let library = pair::read_code(first, second);
        assert_eq!(
            pair_of(library),
            plain_pair_of(plain::code::read(first, second))
        );
    }
}

/// The command with this abbreviation.
fn named(abbreviation: &str) -> Option<Name> {
    let names = (0x200..0x400).filter_map(Name::from_number);
    names
        .into_iter()
        .find(|name| name.abbreviation() == abbreviation)
}

/// The commands of crates/pairvectors, on both sides of every range.
#[test]
fn commands_written() {
    let mut seen = 0;
    for line in lines("pairvectors/stdout") {
        let words: Vec<&str> = line.split(' ').collect();
        let Some(name) = named(words[0]) else {
            continue;
        };
        let value = match words[1] {
            "NO" => 0,
            "YES" => 1,
            number => number.parse().expect("a number"),
        };
        let answer = match pair::write(Meaning::Command(Command { name, value })) {
            Ok([first, second]) => format!("{first:02X} {second:02X}"),
            Err(refusal) => format!("refused {} {}", refusal.number(), refusal.place),
        };
        assert_eq!(answer, words[2..].join(" "), "{line}");
        seen += 1;
    }
    assert!(seen > 100);
}
