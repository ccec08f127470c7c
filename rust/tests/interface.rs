//! What the wrappers add to the library's numbers: names, words, iterators, and that no value of a
//! caller makes them panic.

use std::collections::{HashMap, HashSet};
use std::error::Error;
use std::fmt::Debug;
use std::process::{Command as Program, Termination};
use std::{env, iter};
use turftangle::pair::{self, Accidental, Command, Letter, Meaning, Name, Tone};
use turftangle::sid::{self, Clock, Format, Model, Speed};
use turftangle::{kind, latin1, mus, reason_into, sap, Kind, Reason, Refusal, Span};

/// A file of the repository's crates.
macro_rules! sample {
    ($name:literal) => {
        include_bytes!(concat!(env!("CARGO_MANIFEST_DIR"), "/../crates/", $name))
    };
}

const TUNE: &[u8] = sample!("sidinfo/stdin");
const MACHINE: &[u8] = sample!("cardcheck/data/machine.sid");
const REEL: &[u8] = sample!("muscheck/stdin");
/// Its first voice has a repeat without an end: 30.
const UNCLOSED: &[u8] = sample!("cardcheck/data/unclosed.mus");

/// The example of source document 002.
const INSIDE: &[u8] = include_bytes!("data/inside.sap");

/// The numbers of document 01's table, and those of document 02 (i).
fn table() -> impl Iterator<Item = u32> {
    (1..=13).chain(21..=33).chain(40..=44).chain(51..=54)
}

#[test]
fn reasons_are_those_of_the_table() {
    let numbers = Reason::ALL.iter().map(|reason| reason.number());
    assert!(numbers.eq(table()));
    let numbers: HashSet<u32> = table().collect();
    for number in (0..1000).chain([65_537, 1 << 31, u32::MAX]) {
        let reason = Reason::from_number(number);
        assert_eq!(reason.is_some(), numbers.contains(&number), "{number}");
        assert!(reason.map_or(true, |reason| reason.number() == number));
    }
}

/// Each phrase is a line of ASCII of its own, and both ways to ask for it give the same.
#[test]
fn phrases() {
    let mut seen = HashSet::new();
    for &reason in Reason::ALL {
        let phrase = reason.phrase();
        assert!(phrase.len() > 3 && phrase.bytes().all(|byte| (b' '..=b'~').contains(&byte)));
        assert_eq!(reason.to_string(), phrase);
        for cells in 0..phrase.len() + 3 {
            let mut out = vec![b'@'; cells];
            assert_eq!(reason_into(reason.number(), &mut out), phrase.len());
            let filled = cells.min(phrase.len());
            assert_eq!(out[..filled], phrase.as_bytes()[..filled]);
            assert!(out[filled..].iter().all(|&cell| cell == b'@'));
        }
        assert!(seen.insert(phrase), "{reason:?} has the phrase of another");
    }
}

#[test]
fn numbers_without_a_phrase() {
    let known: HashSet<u32> = table().collect();
    for number in (0..1000).chain([65_537, 1 << 31, u32::MAX]) {
        let mut out = [b'@'; 4];
        let length = reason_into(number, &mut out);
        assert_eq!(length > 0, known.contains(&number), "{number}");
        assert_eq!(out != [b'@'; 4], length > 0, "{number}");
    }
}

#[test]
fn refusals_in_words() {
    for &reason in Reason::ALL {
        for place in [0, 1, 56, usize::MAX] {
            let refusal = Refusal { reason, place };
            let (number, phrase) = (reason.number(), reason.phrase());
            let told = match place {
                0 => format!("refused {number}: {phrase}"),
                _ => format!("refused {number} at place {place}: {phrase}"),
            };
            assert_eq!(refusal.to_string(), told);
            assert_eq!(format!("{refusal:?}"), told);
            assert_eq!(refusal.number(), number);
        }
    }
}

/// Set in a process that is to do what a `main` with an error does.
const CHILD: &str = "TURFTANGLE_CHILD";

/// What a `main` that answers an error shows on standard error. A second process of this test hands
/// the error to `Termination`, which is what the runtime does with the answer of a `main`.
fn shown_by_main<E: Debug>(test: &str, error: E) -> Option<String> {
    if env::var_os(CHILD).is_some() {
        Err::<(), E>(error).report();
        return None;
    }
    let mut program = Program::new(env::current_exe().expect("this test"));
    program
        .args(["--exact", test, "--nocapture"])
        .env(CHILD, "1");
    let output = program.output().expect("it runs");
    Some(latin1(&output.stderr))
}

#[test]
fn a_main_tells_a_person() {
    let refusal = mus::accept(UNCLOSED).unwrap_err();
    if let Some(shown) = shown_by_main("a_main_tells_a_person", refusal) {
        let told = format!(
            "Error: refused 30 at place 56: {}",
            Reason::Structure.phrase()
        );
        assert!(shown.lines().any(|line| line == told), "{shown}");
    }
}

#[test]
fn a_main_with_any_error_tells_a_person() {
    let refusal: Box<dyn Error> = sid::read(b"PSID").unwrap_err().into();
    if let Some(shown) = shown_by_main("a_main_with_any_error_tells_a_person", refusal) {
        let told = format!("Error: refused 1: {}", Reason::TooShort.phrase());
        assert!(shown.lines().any(|line| line == told), "{shown}");
    }
}

/// These can be sent to other threads; where they cannot, this does not compile.
const _: fn() = || {
    fn sent<T: Send + Sync>() {}
    fn error<T: Error + Send + Sync + 'static>() {}
    error::<Refusal>();
    sent::<mus::Events<'_>>();
    sent::<sid::Header>();
    sent::<sap::Header>();
    sent::<Meaning>();
};

#[test]
fn spans_at_the_ends() {
    let file = [1, 2, 3, 4, 5];
    let of = |offset, length| Span { offset, length }.of(&file);
    assert_eq!(of(0, 5), Some(&file[..]));
    assert_eq!(of(4, 1), Some(&[5][..]));
    assert_eq!(of(0, 0), Some(&[][..]));
    assert_eq!(of(5, 0), Some(&[][..]));
    for (offset, length) in [(0, 6), (5, 1), (6, 0), (4, 2), (1, 5)] {
        assert_eq!(of(offset, length), None, "{offset} {length}");
    }
    for far in [usize::MAX, usize::MAX - 1, usize::MAX / 2 + 1] {
        for (offset, length) in [(0, far), (far, 0), (far, far), (1, far), (far, 1), (5, far)] {
            assert_eq!(of(offset, length), None, "{offset} {length}");
        }
    }
    assert_eq!(Span::default().of(&[]), Some(&[][..]));
}

#[test]
fn latin1_of_every_byte() {
    let bytes: Vec<u8> = (0..=255).collect();
    let text = latin1(&bytes);
    assert!(text.chars().map(u32::from).eq(0..256));
    assert_eq!(text.len(), 128 + 2 * 128);
}

fn all_pairs() -> impl Iterator<Item = (u8, u8)> {
    (0..=0xFFFF_u16).map(|pair| ((pair >> 8) as u8, pair as u8))
}

/// Meanings that have different codes print differently, and those of one code alike.
#[test]
fn meanings_in_words() {
    let mut codes = HashMap::new();
    for (first, second) in all_pairs() {
        let Ok(meaning) = pair::read(first, second) else {
            continue;
        };
        let (code, words) = (pair::read_code(first, second).ok(), meaning.to_string());
        assert_eq!(meaning.code(), code);
        let seen = *codes.entry(words.clone()).or_insert(code);
        assert_eq!(seen, code, "{first:02X} {second:02X}: {words}");
    }
    let different: HashSet<_> = codes.values().collect();
    assert_eq!(different.len(), codes.len());
}

#[test]
fn words_of_some_pairs() {
    for (first, second, words) in [
        (0xF0, 0x94, "quarter double-dotted tied F natural 5"),
        (0x20, 0x94, "64th F natural 5"),
        (0x40, 0x94, "64th tied F natural 5"),
        (0xA0, 0x94, "64th triplet F natural 5"),
        (0x10, 0xF9, "quarter C flat 0"),
        (0x08, 0x47, "whole B sharp 7"),
        (0x1C, 0x01, "thirty-second C double-sharp 7"),
        (0x2C, 0x03, "half dotted E double-flat 7"),
        (0x14, 0x00, "eighth rest"),
        (0x58, 0x00, "sixteenth tied rest"),
        (0x04, 0x99, "utility-duration C natural 4"),
        (0x24, 0x9E, "utility-voice A natural 4"),
        (0x00, 0x99, "absolute C natural 4"),
        (0x00, 0x00, "absolute rest"),
        (0x56, 0xFF, "P-S -1"),
        (0x06, 0x00, "TEM 256"),
        (0x01, 0x03, "BMP UP"),
        (0x01, 0x0B, "BMP DN"),
        (0x01, 0x13, "FLT NO"),
        (0x01, 0x4B, "F-X YES"),
        (0x01, 0x5B, "3-0 YES"),
        (0x01, 0x6B, "LFO 1"),
        (0x01, 0x73, "P&V NO"),
        (0x01, 0x0F, "TAL"),
        (0x01, 0x2F, "END"),
        (0x01, 0x4F, "HLT"),
        (0x01, 0x0A, "RES 0"),
    ] {
        let meaning = pair::read(first, second).expect(words);
        assert_eq!(meaning.to_string(), words);
    }
}

#[test]
fn names() {
    let names: Vec<Name> = (0..=0xFFFF).filter_map(Name::from_number).collect();
    let words: HashSet<String> = names.iter().map(Name::to_string).collect();
    assert_eq!((names.len(), words.len()), (50, 50));
    for name in names {
        assert_eq!(Name::from_number(name.number()), Some(name));
        assert_eq!(name.to_string(), name.abbreviation());
        assert_eq!(name.abbreviation().len(), 3);
        assert_eq!(format!("{name:>5}"), format!("  {name}"));
    }
    assert_eq!(Name::from_number(u32::MAX), None);
}

/// 12 x octave + the letter's step + the accidental, by document 01.
fn step(tone: Tone) -> i32 {
    let letter = match tone.letter {
        Letter::C => 0,
        Letter::D => 2,
        Letter::E => 4,
        Letter::F => 5,
        Letter::G => 7,
        Letter::A => 9,
        Letter::B => 11,
    };
    let accidental = match tone.accidental {
        Accidental::DoubleFlat => -2,
        Accidental::Flat => -1,
        Accidental::Natural => 0,
        Accidental::Sharp => 1,
        Accidental::DoubleSharp => 2,
    };
    12 * i32::from(tone.octave) + letter + accidental
}

#[test]
fn half_steps_of_all_pairs() {
    let mut steps = HashSet::new();
    for (first, second) in all_pairs() {
        let Ok(meaning) = pair::read(first, second) else {
            continue;
        };
        let tone = match meaning {
            Meaning::Note(note) => note.tone,
            Meaning::Command(_) => None,
        };
        let half_step = pair::half_step(meaning);
        let code = meaning.code().expect("a pair's meaning");
        assert_eq!(half_step, pair::half_step_of_code(code));
        match tone {
            Some(tone) => assert_eq!(half_step, Ok(step(tone)), "{meaning}"),
            None => assert_eq!(half_step, NO_PAIR.map(|()| 0), "{meaning}"),
        }
        steps.extend(half_step.ok());
    }
    assert!((-1..=96).all(|step| steps.remove(&step)) && steps.is_empty());
}

const NO_PAIR: Result<(), Refusal> = Err(Refusal {
    reason: Reason::NoPair,
    place: 0,
});

#[test]
fn meanings_without_a_pair() {
    let Ok(Meaning::Note(note)) = pair::read(0x10, 0x99) else {
        panic!("a note");
    };
    let tone = note.tone.expect("C natural 4");
    let octaves = (8..=255).map(|octave| {
        let tone = Some(Tone { octave, ..tone });
        Meaning::Note(pair::Note { tone, ..note })
    });
    let values = [-1, 16_384, 65_535, 65_536, -65_536, i32::MAX, i32::MIN].map(|value| {
        let name = Name::Por;
        Meaning::Command(Command { name, value })
    });
    for meaning in octaves.chain(values) {
        assert_eq!(pair::write(meaning).map(|_| ()), NO_PAIR, "{meaning:?}");
        assert_eq!(pair::half_step(meaning).map(|_| ()), NO_PAIR);
        assert!(!meaning.to_string().is_empty());
        if let Some(code) = meaning.code() {
            assert_eq!(Meaning::from_code(code), Some(meaning));
        }
    }
}

/// How many of these codes spell a meaning; each such meaning has the code.
fn spelled(codes: impl Iterator<Item = u32>) -> usize {
    let meanings = codes.filter_map(|code| Some((code, Meaning::from_code(code)?)));
    meanings.fold(0, |count, (code, meaning)| {
        assert_eq!(meaning.code(), Some(code), "{code:08X}");
        count + 1
    })
}

/// The digits of docs/INTERFACE.md, with every digit as octave and every size as value: which of
/// them some pair has is for the writer to say.
#[test]
fn codes_there_and_back() {
    let tones = 7 * 5 * 16; // letters, accidentals, octaves
    let quarters = spelled(0x1040_0000..0x1050_0000);
    assert_eq!(quarters, 4 * 2 * (tones + 1)); // shapes, tied or not, a rest
    assert_eq!(
        spelled((0..0x1000).map(|front| front << 20 | 0xC04)),
        10 + 50
    ); // durations, names
    assert_eq!(spelled(0x2560_0000..0x2570_0000), 2 * 65_536 - 1); // no 0 below 0
    assert_eq!(spelled((0..0x1000_0000).step_by(4099)), 0);
    assert_eq!(spelled((0x4000_0000..=u32::MAX).step_by(4099)), 0);
}

/// A song whose first voice plays some eighths a number of times, and then HLT.
fn song(passes: u8, eighths: usize) -> Vec<u8> {
    let length = (2 * (eighths + 3)) as u16;
    let mut file = vec![0, 0];
    file.extend(length.to_le_bytes());
    file.extend([2, 0, 2, 0, 0x36, passes]);
    file.extend(iter::repeat([0x14, 0x99]).take(eighths).flatten());
    file.extend([0x01, 0x0F, 0x01, 0x4F, 0x01, 0x4F, 0x01, 0x4F]);
    file.extend([0x0D, 0x0D, 0x0D, 0x0D, 0x0D, 0x00]);
    file
}

/// Offset and jiffy of every event of a voice, by one list of the whole.
fn listed(file: &[u8], voice: u32) -> Vec<(usize, u32)> {
    let count = mus::accept(file).expect("accepted")[voice as usize - 1].events;
    let (mut offsets, mut jiffies) = (vec![0; count + 1], vec![0; count + 1]);
    let filled = mus::list(file, voice, 0, &mut offsets, &mut jiffies);
    assert_eq!(filled, Ok(count));
    let offsets = offsets.into_iter().map(|offset: u32| offset as usize);
    offsets.zip(jiffies).take(count).collect()
}

/// Voices that end before, at and after the ends of windows. An eighth at the tempo of the start,
/// 120, takes 15 jiffies.
#[test]
fn events_are_the_list() {
    let shapes = (0..5).chain(254..258).chain(766..770);
    for (passes, eighths) in shapes.map(|n| (1, n)).chain([(41, 2439), (255, 4096)]) {
        let file = song(passes, eighths);
        let list = listed(&file, 1);
        assert_eq!(list.len(), usize::from(passes) * eighths + 1);
        let mut events = mus::events(&file, 1).expect("accepted");
        for (number, &(offset, jiffy)) in list.iter().enumerate() {
            assert_eq!(jiffy as usize, 15 * number);
            let left = list.len() - number;
            assert_eq!(
                (events.len(), events.size_hint()),
                (left, (left, Some(left)))
            );
            let event = events.next().expect("one is left");
            assert_eq!(
                (event.number, event.offset, event.jiffy),
                (number as u64, offset, jiffy)
            );
        }
        assert_eq!(
            (events.len(), events.next(), events.next()),
            (0, None, None)
        );
    }
}

/// Every way to pass over events gives what stands in the list.
#[test]
fn events_passed_over() {
    let file = song(41, 2439);
    let list = listed(&file, 1);
    let events = mus::events(&file, 1).expect("accepted");
    let numbers = |events: &mut dyn Iterator<Item = mus::Event>| -> Vec<u64> {
        let check = |event: mus::Event| {
            let cell = list[event.number as usize];
            assert_eq!((event.offset, event.jiffy), cell);
            event.number
        };
        // One more than there are, so that an iterator without an end fails soon.
        events.take(list.len() + 1).map(check).collect()
    };
    for step in [
        1,
        2,
        255,
        256,
        257,
        1000,
        99_999,
        100_000,
        100_001,
        usize::MAX,
    ] {
        let stepped = numbers(&mut events.clone().step_by(step));
        assert!(stepped.into_iter().eq((0..100_000).step_by(step)), "{step}");
        let skipped = numbers(&mut events.clone().skip(step));
        assert!(skipped.into_iter().eq((0..100_000).skip(step)), "{step}");
        let mut passed = events.clone();
        let number = passed.nth(step).map(|event| event.number);
        assert_eq!(number, (0..100_000).nth(step));
        let left = 99_999_usize.saturating_sub(step);
        assert_eq!((passed.len(), passed.count()), (left, left));
    }
    assert_eq!(events.last().map(|event| event.number), Some(99_999));
}

#[test]
fn events_of_each_voice() {
    for file in [REEL, &song(3, 7)] {
        for voice in 1..=3 {
            let events = mus::events(file, voice).expect("accepted");
            assert!(events
                .map(|event| (event.offset, event.jiffy))
                .eq(listed(file, voice)));
        }
    }
    for voice in [0, 4, 256, 257, u32::MAX] {
        for file in [REEL, UNCLOSED, b""] {
            let refusal = mus::events(file, voice).unwrap_err();
            assert_eq!((refusal.reason, refusal.place), (Reason::VoiceNumber, 0));
        }
    }
    let refusal = mus::events(UNCLOSED, 3).unwrap_err();
    assert_eq!((refusal.reason, refusal.place), (Reason::Structure, 56));
    let shown = format!("{:?}", mus::events(REEL, 3).expect("accepted"));
    assert_eq!(shown, "Events { voice: 3, next: 0, end: 2, .. }");
}

/// Its voices have 25, 5 and 1 pairs and begin at 8, so they lie at 8, 58 and 68 and end at 70.
#[test]
fn pairs_at_every_offset() {
    assert_eq!(mus::accept(UNCLOSED).map(|_| ()).unwrap_err().number(), 30);
    let far = [65_536, 1 << 32, usize::MAX - 1, usize::MAX];
    for place in (0..200).chain(far) {
        let expected = match place {
            8..=57 if place % 2 == 0 => Some((1, (place - 8) / 2)),
            58..=67 if place % 2 == 0 => Some((2, (place - 58) / 2)),
            68 => Some((3, 0)),
            _ => None,
        };
        assert_eq!(mus::pair_at(UNCLOSED, place), Ok(expected), "{place}");
    }
    assert_eq!(mus::pair_at(&UNCLOSED[..69], 8).unwrap_err().number(), 24);
}

/// Flag bits 2 to 5 as clock and model, each in words of its own.
#[test]
fn clocks_and_models() {
    let mut words = HashSet::new();
    let mut tune = TUNE.to_vec();
    for flags in (0..64).step_by(4) {
        tune[0x77] = flags;
        let header = sid::header(&tune).expect("accepted");
        let numbers = header.clock.number() << 2 | header.model.number() << 4;
        assert_eq!(numbers, u32::from(flags));
        words.insert(format!("{}, {}", header.clock, header.model));
    }
    assert_eq!(words.len(), 16);
    assert_eq!(Clock::Both.to_string(), "PAL and NTSC");
    assert_eq!(Model::Both.to_string(), "MOS6581 and MOS8580");
    let formats = [TUNE, MACHINE].map(|file| sid::header(file).expect("accepted").format);
    assert_eq!(formats, [Format::Psid, Format::Rsid]);
    assert_eq!(formats.map(|format| format.to_string()), ["PSID", "RSID"]);
    assert_eq!(formats.map(Format::number), [0, 1]);
}

/// Bit n - 1 for song n, and bit 31 for every song above 32.
#[test]
fn speeds_of_all_songs() {
    let mut tune = TUNE.to_vec();
    tune[0x0E..0x10].copy_from_slice(&256_u16.to_be_bytes());
    for field in [0, 1, 0x8000_0000, 0xA53C_0FF1, u32::MAX] {
        tune[0x12..0x16].copy_from_slice(&field.to_be_bytes());
        assert_eq!(sid::header(&tune).expect("accepted").speed_field, field);
        for song in 1..=256 {
            let bit = field >> (song.min(32) - 1) & 1;
            let speed = sid::speed(&tune, song).expect("it is there");
            assert_eq!(
                (speed.bit(), speed == Speed::Cia),
                (bit, bit == 1),
                "{song}"
            );
        }
        for song in [0, 257, u32::MAX] {
            let refusal = sid::speed(&tune, song).unwrap_err();
            assert_eq!((refusal.reason, refusal.place), (Reason::NoSuchSong, 0));
        }
    }
}

/// Numbers that a careless caller may hand over.
const NUMBERS: [u32; 12] = [0, 1, 2, 3, 4, 5, 6, 255, 256, 65_536, 1 << 31, u32::MAX];

/// Every function on a tune: a refusal is everywhere the same, and what is named lies in the file.
fn ask_of_tune(file: &[u8]) {
    let read = sid::read(file);
    let header = sid::header(file);
    assert_eq!(header.map(|_| ()), read);
    assert_eq!(sid::fields_into(file, &mut []).map(|_| ()), read);
    let mut memory = vec![0; sid::MEMORY_SIZE];
    assert_eq!(sid::load(file, &mut memory), read);
    for cells in [0, 1, sid::MEMORY_SIZE - 1] {
        let refusal = sid::load(file, &mut memory[..cells]).unwrap_err();
        assert_eq!(refusal.reason, Reason::MemorySize);
    }
    for song in NUMBERS {
        let speed = sid::speed(file, song);
        let songs = header.map_or(0, |header| header.songs);
        assert_eq!(speed.is_ok(), song > 0 && song <= songs);
    }
    if let Ok(header) = header {
        let (payload, load) = (header.payload, header.load as usize);
        for text in [header.title, header.author, header.released] {
            assert!(text.of(file).map_or(false, |bytes| bytes.len() < 32));
        }
        assert_eq!(payload.of(file), memory.get(load..load + payload.length));
    }
}

/// The same on a song.
fn ask_of_song(file: &[u8]) {
    let accepted = mus::accept(file);
    let refused = accepted.map(|_| ());
    assert_eq!(mus::accept_into(file, &mut []).map(|_| ()), refused);
    assert_eq!(mus::load_address(file).map(|_| ()), refused);
    for number in NUMBERS {
        let line = mus::line(file, number);
        assert_eq!(line.map(|_| ()), refused);
        assert_eq!(mus::line_into(file, number, &mut []).map(|_| ()), refused);
        let there = refused.is_ok() && (1..=5).contains(&number);
        let line = line.ok().flatten();
        let closed = line.map(|line| file.get(line.offset + line.length));
        assert_eq!(closed, there.then_some(Some(&0x0D)));
        assert!(line.map_or(true, |line| line.of(file).is_some()));
        // the events' refusals are its refusals, and the last event's jiffy is its whole part
        let last = mus::events(file, number).map(|events| events.last().map(|event| event.jiffy));
        let length = mus::length(file, number);
        assert_eq!(length.map(|time| Some((time / 384) as u32)), last);
    }
    for (number, voice) in (1..).zip(accepted.ok().into_iter().flatten()) {
        let events = mus::events(file, number).expect("accepted");
        assert_eq!(events.len(), voice.events);
    }
}

/// The same on a song's voices; those of a song that is accepted are those that it reports.
fn ask_of_voices(file: &[u8]) {
    let places = mus::voices(file);
    let refused = places.map(|_| ());
    assert_eq!(mus::voices_into(file, &mut []).map(|_| ()), refused);
    for number in NUMBERS {
        assert_eq!(mus::pair_at(file, number as usize).map(|_| ()), refused);
        assert!(mus::events(file, number).is_err() || mus::accept(file).is_ok());
    }
    match (places, mus::accept(file)) {
        (Err(refusal), accepted) => assert_eq!(accepted, Err(refusal)),
        (Ok(_), Err(refusal)) => assert!((25..=33).contains(&refusal.number())),
        (Ok(places), Ok(voices)) => {
            let reported = voices.map(|voice| (voice.offset, voice.pairs));
            assert_eq!(places.map(|place| (place.offset, place.pairs)), reported);
        }
    }
}

/// The same on an Atari song: what the header counts is what the other functions hand out.
fn ask_of_atari(file: &[u8]) {
    let read = sap::read(file);
    let header = sap::header(file);
    assert_eq!(header.map(|_| ()), read);
    assert_eq!(sap::fields_into(file, &mut []).map(|_| ()), read);
    let mut memory = vec![0; sap::MEMORY_SIZE];
    assert_eq!(sap::load(file, &mut memory), read);
    for cells in [0, 1, sap::MEMORY_SIZE - 1] {
        let refusal = sap::load(file, &mut memory[..cells]).unwrap_err();
        assert_eq!(refusal.reason, Reason::MemorySize);
    }
    let (songs, times, blocks) = header.map_or((0, 0, 0), |h| (h.songs, h.times, h.blocks));
    for number in NUMBERS {
        let time = sap::time(file, number);
        assert_eq!(time.is_ok(), number < songs);
        let stated = time.map_or(false, |time| time.is_some());
        assert_eq!(stated, (number as usize) < times);
        let block = sap::block(file, number);
        assert_eq!(block.map(|_| ()), read);
        assert_eq!(sap::block_into(file, number, &mut []).map(|_| ()), read);
        let block = block.ok().flatten();
        assert_eq!(block.is_some(), (number as usize) < blocks);
        let there = block.map(|block| block.span().of(file).map(<[u8]>::len));
        let due = block.map(|block| Some(usize::from(block.end - block.start) + 1));
        assert_eq!(there, due);
    }
    if let Ok(header) = header {
        assert!(file[header.data..].starts_with(&[0xFF, 0xFF]));
        for text in [header.author, header.name, header.date]
            .into_iter()
            .flatten()
        {
            assert!(text.of(file).map_or(false, |bytes| bytes.len() <= 120));
        }
    }
}

/// What a file is, from the other functions' answers.
fn expected_kind(file: &[u8]) -> Kind {
    match mus::voices(file) {
        _ if file.starts_with(b"PSID") => Kind::Psid,
        _ if file.starts_with(b"RSID") => Kind::Rsid,
        _ if file.starts_with(b"SAP\r\n") => match (sap::read(file), mus::accept(file)) {
            (Err(_), Ok(_)) => Kind::Mus,
            _ => Kind::Sap,
        },
        Ok(_) => Kind::Mus,
        Err(_) => Kind::Neither,
    }
}

fn ask(file: &[u8]) {
    ask_of_tune(file);
    ask_of_song(file);
    ask_of_voices(file);
    ask_of_atari(file);
    assert_eq!(kind(file), expected_kind(file));
}

/// Every byte of the samples changed, and the samples cut at every length.
#[test]
fn no_file_makes_a_function_panic() {
    for sample in [TUNE, MACHINE, REEL, UNCLOSED, INSIDE] {
        for at in 0..sample.len() {
            ask(&sample[..at]);
            for byte in [0, 1, 0x0D, b'2', 0x7F, 0x80, 0xFF] {
                let mut file = sample.to_vec();
                file[at] = byte;
                ask(&file);
            }
        }
        ask(sample);
    }
    ask(&vec![0; 70_000]);
}

/// The five kinds have numbers 0 to 4, and words of their own.
#[test]
fn kinds() {
    let kinds = [&b"?"[..], TUNE, MACHINE, UNCLOSED, INSIDE].map(kind);
    let due = [Kind::Neither, Kind::Psid, Kind::Rsid, Kind::Mus, Kind::Sap];
    assert_eq!(kinds, due);
    assert_eq!(kinds.map(Kind::number), [0, 1, 2, 3, 4]);
    let words: HashSet<String> = kinds.iter().map(Kind::to_string).collect();
    assert_eq!(words.len(), 5);
}

/// The four types as players, each with its letter; times in the words of a TIME line.
#[test]
fn players_and_times() {
    for (lines, player) in [
        (
            "B\r\nINIT 0F80\r\nPLAYER 247F",
            sap::Player::B {
                init: 0x0F80,
                player: 0x247F,
            },
        ),
        (
            "C\r\nMUSIC 4000\r\nPLAYER 247F",
            sap::Player::C {
                music: 0x4000,
                player: 0x247F,
            },
        ),
        (
            "D\r\nINIT 0F80",
            sap::Player::D {
                init: 0x0F80,
                player: None,
            },
        ),
        (
            "D\r\nINIT 0F80\r\nPLAYER 0000",
            sap::Player::D {
                init: 0x0F80,
                player: Some(0),
            },
        ),
        (
            "S\r\nINIT 0F80\r\nPLAYER 247F",
            sap::Player::S { init: 0x0F80 },
        ),
    ] {
        let text = format!("SAP\r\nTYPE {lines}\r\nTIME 9:99.5 LOOP\r\n");
        let file = [text.as_bytes(), &[0xFF, 0xFF, 0, 0x20, 0, 0x20, 0x60]].concat();
        let header = sap::header(&file).expect("accepted");
        assert_eq!(header.player, player);
        assert!(lines.starts_with(player.letter()));
        assert_eq!(player.to_string(), format!("type {}", player.letter()));
        let time = sap::time(&file, 0).expect("accepted").expect("stated");
        assert_eq!((time.milliseconds, time.looped), (639_500, true));
        assert_eq!(time.to_string(), "10:39.500 LOOP");
        assert_eq!(
            (header.author, header.name, header.date),
            (None, None, None)
        );
    }
}
