//! How long a voice is. Songs with the length that document 01, 'Playing a voice', gives them, worked out
//! by hand, the sum beside each. The library must give it, by itself and by the wrapper, and so must the
//! plain reader, by playing the voice and by maps.
//!
//! In 384ths of a jiffy, with tempo t: whole 384 t, half 192 t, quarter 96 t, eighth 48 t, sixteenth 24 t,
//! 64th 6 t. A voice starts with t = 120: quarter 11,520, eighth 5,760.

mod plain;
// The library's functions themselves: the wrapper has a list of one cell only.
#[allow(dead_code)]
#[path = "../src/raw.rs"]
mod raw;

use std::collections::HashSet;
use turftangle::mus;

/// The bytes of a voice in words: commands, each with its value if it has one, notes by name, and any pair
/// as four hex digits.
fn voice(words: &str) -> Vec<u8> {
    let mut words = words.split_whitespace();
    let mut pairs = Vec::new();
    while let Some(word) = words.next() {
        let mut value = || words.next().and_then(|w| w.parse().ok()).expect(word);
        pairs.extend(match word {
            "TEM" => [0x06, value()],
            "UTL" => [0x16, value()],
            "UTV" => [0xF6, value()],
            "HED" => [0x36, value()],
            "DEF" => phrase(value(), 0x06, 0x03),
            "CAL" => phrase(value(), 0x02, 0x0B),
            "TAL" => [0x01, 0x0F],
            "END" => [0x01, 0x2F],
            "HLT" => [0x01, 0x4F],
            "whole" => [0x08, 0x94],
            "half" => [0x0C, 0x94],
            "quarter" => [0x10, 0x94],
            "eighth" => [0x14, 0x94],
            "sixteenth" => [0x18, 0x94],
            "64th" => [0x20, 0x94],
            "triplet-64th" => [0x80, 0x94],
            "utility-duration" => [0x04, 0x94],
            "triplet-utility" => [0x84, 0x94],
            "utility-voice" => [0x24, 0x94],
            _ => u16::from_str_radix(word, 16).expect(word).to_be_bytes(),
        });
    }
    pairs
}

/// DEF or CAL: 0 to 15 in one row, 16 to 23 as 8 to F in the other.
fn phrase(k: u8, low: u8, high: u8) -> [u8; 2] {
    let row = if k < 16 {
        k << 4 | low
    } else {
        (k - 8) << 4 | high
    };
    [0x01, row]
}

/// A song of these voices, with empty lines. Pair i of the first voice stands at 8 + 2i.
fn song(voices: [&str; 3]) -> Vec<u8> {
    let voices = voices.map(voice);
    let mut file = vec![0, 0];
    for voice in &voices {
        file.extend((voice.len() as u16).to_le_bytes());
    }
    file.extend(voices.concat());
    file.extend(b"\r\r\r\r\r\0");
    file
}

/// A song of this first voice.
fn one(voice: &str) -> Vec<u8> {
    song([voice, "HLT", "HLT"])
}

/// What a lent cell holds before a call.
const OLD: u64 = 0xFEDC_BA98_7654_3210;

/// A voice's length, or number and place: everyone's answer, the library's into lists of 0, 1 and 3 cells.
fn length(file: &[u8], voice: u32) -> Result<u64, (u32, u32)> {
    let library = mus::length(file, voice).map_err(|r| (r.number(), r.place as u32));
    let played = plain::mus::length(file, voice).map_err(|r| (r.number, r.place));
    let maps = plain::maps::length(file, voice).map_err(|r| (r.number, r.place));
    assert_eq!((library, maps), (played, played), "voice {voice}");
    let answer = match library {
        Ok(_) => 1,
        Err((number, place)) => u64::from(number) << 32 | u64::from(place),
    };
    let cell = library.unwrap_or(OLD);
    for due in [&[][..], &[cell], &[cell, OLD, OLD]] {
        let mut cells = vec![OLD; due.len()];
        assert_eq!(raw::mus_length(file, voice, &mut cells), answer);
        assert_eq!(cells, due, "voice {voice}");
    }
    library
}

/// Fails unless the voice has this length, and its listing ends with HLT, at a jiffy that is the length
/// divided by 384, rounded down, and that no other exceeds.
fn lasts(file: &[u8], voice: u32, time: u64) {
    assert_eq!(length(file, voice), Ok(time), "voice {voice}");
    let events = mus::accept(file).expect("accepted")[voice as usize - 1].events;
    let (mut offsets, mut jiffies) = (vec![0; events], vec![0; events]);
    let count = mus::list(file, voice, 0, &mut offsets, &mut jiffies);
    assert_eq!(count, Ok(events));
    let (at, last) = (offsets[events - 1] as usize, jiffies[events - 1]);
    assert_eq!(file[at..at + 2], [0x01, 0x4F]);
    assert_eq!(u64::from(last), time / 384);
    assert!(jiffies.iter().all(|&jiffy| jiffy <= last));
}

/// The same of first voices.
fn each_lasts(rows: &[(&str, u64)]) {
    for (voice, time) in rows {
        println!("{voice}");
        lasts(&one(voice), 1, *time);
    }
}

#[test]
fn a_body_changes_its_own_tempo() {
    each_lasts(&[
        // 96 x 120 + 48 x 60 = 14,400, then twice 96 x 60 + 48 x 60 = 8,640
        ("HED 3 quarter TEM 60 eighth TAL HLT", 31_680),
        // 96 x 120: there is one pass
        ("HED 1 quarter TEM 60 TAL HLT", 11_520),
        // 384 x 120 = 46,080, then 254 x 384 = 97,536
        ("HED 255 whole TEM 1 TAL HLT", 143_616),
        // the passes are alike: 4 x (96 x 100 + 192 x 50)
        ("HED 4 TEM 100 quarter TEM 50 half TAL HLT", 76_800),
        // the outer body changes it: twice 96 x 120, then twice 96 x 60
        ("HED 2 HED 2 quarter TAL TEM 60 TAL HLT", 34_560),
        // both bodies do: 48 x 120 + 2 x 48 x 90 + 96 x 90 = 23,040, then
        // 48 x 200 + 2 x 48 x 90 + 96 x 90 = 26,880
        (
            "HED 2 HED 3 eighth TEM 90 TAL quarter TEM 200 TAL HLT",
            49_920,
        ),
    ]);
}

#[test]
fn a_phrase_under_different_tempi() {
    each_lasts(&[
        // 144 t with t = 120, 60 and 256: 17,280 + 8,640 + 36,864
        (
            "DEF 0 quarter eighth END TEM 60 CAL 0 TEM 0 CAL 0 HLT",
            62_784,
        ),
        // it changes the tempo itself: 96 t + 24 x 30 with t = 120, 30 and 200, then a quarter at 30:
        // 12,240 + 3,600 + 19,920 + 2,880
        (
            "DEF 5 quarter TEM 30 sixteenth END CAL 5 TEM 200 CAL 5 quarter HLT",
            38_640,
        ),
        // called in a repeat: 96 x 120 where it stands, then 96 x 120 and twice 96 x 40
        ("DEF 16 quarter END HED 3 CAL 16 TEM 40 TAL HLT", 30_720),
        // called in a phrase: 48 x 120, then 48 x 120 + 48 x 80, then 2 x 48 x 80
        (
            "DEF 1 eighth END DEF 2 CAL 1 TEM 80 CAL 1 END CAL 2 HLT",
            23_040,
        ),
        // defined in a repeat: 96 x 120 and 96 x 60, and called 96 x 60
        ("HED 2 DEF 0 quarter TEM 60 END TAL CAL 0 HLT", 23_040),
        // a repeat in it: 2 x 96 x 120, then 2 x 96 x 50
        ("DEF 23 HED 2 quarter TAL END TEM 50 CAL 23 HLT", 32_640),
    ]);
}

/// 16 is neither 0 (its last four bits) nor 8 (the nibble of its pairs).
#[test]
fn phrases_of_their_own() {
    each_lasts(&[
        // 11,520 + 5,760 + 11,520
        ("DEF 8 quarter END DEF 16 eighth END CAL 8 HLT", 28_800),
        // 11,520 + 5,760, then 2 x 5,760 + 11,520
        (
            "DEF 0 quarter END DEF 16 eighth END CAL 16 CAL 16 CAL 0 HLT",
            40_320,
        ),
    ]);
}

#[test]
fn utility_values_of_an_earlier_pass() {
    each_lasts(&[
        // 0, then twice 384 x 5
        ("HED 3 utility-duration UTL 5 TAL HLT", 3_840),
        // 0, then twice 384 x 7
        ("HED 3 utility-voice UTV 7 TAL HLT", 5_376),
        // 0, then twice 384 x (5 + 5 + 7); UTL and UTV exchanged would make it 7 + 7 + 5
        (
            "HED 3 utility-duration utility-duration utility-voice UTL 5 UTV 7 TAL HLT",
            13_056,
        ),
        // 384 x (9 + 4), then 384 x (4 + 4)
        (
            "UTL 9 HED 2 utility-duration UTL 4 utility-duration TAL HLT",
            8_064,
        ),
        // 0, then three times 256 x 1
        ("HED 4 triplet-utility UTL 1 TAL HLT", 768),
        // all three values: 96 x 120, then three times 96 x 10 + 384 x 20 + 384 x 30 = 20,160
        (
            "HED 4 quarter utility-duration utility-voice TEM 10 UTL 20 UTV 30 TAL HLT",
            72_000,
        ),
    ]);
}

#[test]
fn utility_values_of_phrases() {
    each_lasts(&[
        // 0, 384 x 11, 384 x 2, and 384 x 11 after the call
        (
            "DEF 3 utility-duration UTL 11 END CAL 3 UTL 2 CAL 3 utility-duration HLT",
            9_216,
        ),
        // 0, 384 x 13, 384 x 3, and 384 x 13 after the call
        (
            "DEF 3 utility-voice UTV 13 END CAL 3 UTV 3 CAL 3 utility-voice HLT",
            11_136,
        ),
        // each goes by its own value: 0, 384 x 200, 384 x 1
        (
            "UTL 200 utility-voice UTV 1 utility-duration utility-voice HLT",
            77_184,
        ),
        // and not by the tempo: 384 x 255 + 384 x 254
        (
            "TEM 1 UTL 255 utility-duration UTV 254 utility-voice HLT",
            195_456,
        ),
        // 384 x 6, and 0 again
        ("UTL 6 utility-duration UTL 0 utility-duration HLT", 2_304),
    ]);
}

#[test]
fn a_value_holds_after_its_body() {
    each_lasts(&[
        // 96 x 120, 96 x 60, and 96 x 60 after the repeat
        ("HED 2 quarter TEM 60 TAL quarter HLT", 23_040),
        // 96 x 60
        ("HED 200 TEM 60 TAL quarter HLT", 5_760),
        // 96 x 60 after the phrase, 96 x 90, and 96 x 60 after its call
        (
            "DEF 0 TEM 60 END quarter TEM 90 quarter CAL 0 quarter HLT",
            20_160,
        ),
        // 384 x 3 + 384 x 4
        (
            "HED 2 UTL 3 UTV 4 TAL utility-duration utility-voice HLT",
            2_688,
        ),
        // 384 x 7, after two bodies
        ("HED 1 HED 1 TEM 7 TAL TAL whole HLT", 2_688),
    ]);
}

/// First bytes of notes, and the 384ths for each unit of tempo: plain; dotted (bit 5), 3/2; triplet
/// (bit 7), 2/3; double dotted (both), 7/4. Each row has the halves of the row before.
const SHAPES: [(u8, [u64; 4]); 6] = [
    (0x08, [384, 576, 256, 672]),
    (0x0C, [192, 288, 128, 336]),
    (0x10, [96, 144, 64, 168]),
    (0x14, [48, 72, 32, 84]),
    (0x18, [24, 36, 16, 42]),
    (0x1C, [12, 18, 8, 21]),
];

/// All 64 first bytes of notes, each with tempo 101, UTL 103 and UTV 107. Bit 6 ties a note and changes no
/// length; but 00 is absolute pitch, and 40 a 64th.
#[test]
fn all_notes() {
    let mut rows = vec![(0x00, 0), (0x40, 6 * 101)];
    // a 64th is never dotted; its triplet is 6 x 2/3
    rows.extend([0x20, 0x60].map(|first| (first, 6 * 101)));
    rows.extend([0x80, 0xC0, 0xA0, 0xE0].map(|first| (first, 4 * 101)));
    // utility duration, its triplet 384 x 2/3; utility voice, in which bit 7 has no meaning
    rows.extend([0x04, 0x44].map(|first| (first, 384 * 103)));
    rows.extend([0x84, 0xC4].map(|first| (first, 256 * 103)));
    rows.extend([0x24, 0x64, 0xA4, 0xE4].map(|first| (first, 384 * 107)));
    for (low, shapes) in SHAPES {
        for (bits, each) in [0x00, 0x20, 0x80, 0xA0].into_iter().zip(shapes) {
            rows.extend([0x00, 0x40].map(|tie| (low | bits | tie, each * 101)));
        }
    }
    for &(first, time) in &rows {
        let voice = format!("TEM 101 UTL 103 UTV 107 {first:02X}94 HLT");
        each_lasts(&[(&voice, time)]);
    }
    let firsts: HashSet<u8> = rows.iter().map(|row| row.0).collect();
    assert_eq!((firsts.len(), rows.len()), (64, 64));
}

#[test]
fn nothing_is_rounded() {
    each_lasts(&[
        // 8 x 720: 15 jiffies
        ("HED 8 64th TAL HLT", 5_760),
        // a triplet 64th and a double dotted 32nd, at 1: 16 x (4 + 21), a jiffy and 16
        ("TEM 1 HED 16 triplet-64th BC94 TAL HLT", 400),
        // two thirds of a jiffy, twice: a jiffy and 128
        ("UTL 1 HED 2 triplet-utility TAL HLT", 512),
        // rests of a quarter and of a triplet utility duration: 96 x 120 + 256 x 7
        ("UTL 7 1000 8400 HLT", 13_312),
        // three dotted eighths and a triplet quarter, at 7: 7 x (3 x 72 + 64)
        ("TEM 7 HED 3 3494 TAL 9094 HLT", 1_960),
    ]);
}

/// Sixteen repeats, one in the other: the innermost two of 255 passes, the others of one.
fn sixteen_deep(body: &str, tails: &str) -> Vec<u8> {
    let heads = "HED 1 ".repeat(14);
    one(&format!("{heads} HED 255 HED 255 {body} {tails} HLT"))
}

/// The innermost body is played 255 x 255 = 65,025 times. Of fourteen events the inner repeat walks
/// 1 + 255 x 15 = 3,826 pairs, the next 1 + 255 x 3,827 = 975,886, fourteen more 2 each, HLT 1.
#[test]
fn sixteen_deep_near_the_limit() {
    let tails = "TAL ".repeat(16);
    // 7 x (11,520 + 4 x 120) = 84,000 a pass
    let file = sixteen_deep(&"quarter triplet-64th ".repeat(7), &tails);
    let counts = mus::accept(&file).expect("accepted")[0];
    assert_eq!((counts.events, counts.walked), (910_351, 975_915));
    lasts(&file, 1, 5_462_100_000);
    // 13 x 96 x 120 = 149,760 once, 13 x 96 x 60 = 74,880 in the other 65,024 passes: 4,868,997,120
    let quarters = "quarter ".repeat(13);
    let file = sixteen_deep(&format!("{quarters} TEM 60"), &tails);
    lasts(&file, 1, 4_869_146_880);
    // 255 x 149,760 = 38,188,800 in the outer repeat's first pass, 255 x 74,880 = 19,094,400 in the other
    // 254: 4,849,977,600
    let file = sixteen_deep(&format!("{quarters} TAL TEM 60"), &"TAL ".repeat(15));
    lasts(&file, 1, 4_888_166_400);
}

/// A double dotted whole note at tempo 256 takes 672 x 256 = 172,032, or 448 jiffies, and no note takes
/// more. TEM 0, HED 33 over 31,773 of them, 31 more and HLT walk 1 + (1 + 33 x 31,774) + 31 + 1 =
/// 1,048,576 pairs; 33 x 31,773 + 31 = 1,048,540 of them are notes.
///
/// No voice lasts longer. It can have 32,759 pairs, and 32 passes of all of them would be fewer notes. So
/// some note is played 33 times, which takes a HED and 33 TALs; with calls, or repeats in repeats, it takes
/// more pairs. With TEM and HLT, 36 of the pairs walked are no notes.
#[test]
fn the_longest_voice() {
    let notes = |count: usize| "A894 ".repeat(count);
    let passes = format!("TEM 0 HED 33 {} TAL", notes(31_773));
    let file = one(&format!("{passes} {} HLT", notes(31)));
    let counts = mus::accept(&file).expect("accepted")[0];
    assert_eq!((counts.events, counts.walked), (1_048_542, 1_048_576));
    // 1,048,540 x 172,032: 38 bits
    lasts(&file, 1, 180_382_433_280);
    let file = one(&format!("{passes} {} HLT", notes(32)));
    assert_eq!(length(&file, 1), Err((33, 8)));
    // of few pairs: 255 x 255 x 15 = 975,375 notes
    let file = one(&format!("TEM 0 HED 255 HED 255 {} TAL TAL HLT", notes(15)));
    lasts(&file, 1, 167_795_712_000);
}

/// The 28 bytes of document 01: three 64ths of 720.
#[test]
fn the_song_of_the_paper() {
    let file = [
        0x00, 0x09, 0x0A, 0x00, 0x02, 0x00, 0x02, 0x00, 0x06, 0x78, 0x36, 0x03, 0x20, 0x94, 0x01,
        0x0F, 0x01, 0x4F, 0x01, 0x4F, 0x01, 0x4F, 0x0D, 0x0D, 0x0D, 0x0D, 0x0D, 0x00,
    ];
    lasts(&file, 1, 2_160);
    lasts(&file, 2, 0);
    lasts(&file, 3, 0);
}

#[test]
fn bodies_of_nothing() {
    each_lasts(&[
        ("HLT", 0),
        ("HED 255 TAL HLT", 0),
        ("HED 255 HED 255 TAL TAL HLT", 0),
        ("DEF 0 END CAL 0 HLT", 0),
        // 96 x 120 before and after
        ("quarter HED 5 TAL quarter HLT", 23_040),
        // 96 x 120 after the calls
        ("DEF 0 END CAL 0 HED 9 CAL 0 TAL quarter HLT", 11_520),
        // VOL 15, absolute pitch and JIF 16 take no time; 96 x 60 after them
        ("HED 7 01FE 0094 3E10 TEM 60 TAL quarter HLT", 5_760),
    ]);
}

/// Each voice has its own tempo, utility values and phrases.
#[test]
fn three_voices() {
    let file = song([
        // 96 x 60, and called 96 x 60
        "TEM 60 DEF 0 quarter END UTL 9 UTV 9 CAL 0 HLT",
        // 48 x 120, called 48 x 120, and 0
        "DEF 0 eighth END UTV 8 CAL 0 utility-duration HLT",
        // 384 x 2, and 0
        "UTL 2 utility-duration utility-voice HLT",
    ]);
    lasts(&file, 1, 11_520);
    lasts(&file, 2, 11_520);
    lasts(&file, 3, 768);
}

/// Songs that are refused, with number and place.
fn refused() -> Vec<(Vec<u8>, (u32, u32))> {
    let right = one("quarter HLT");
    let changed = |at: usize, byte: u8| {
        let mut file = right.clone();
        file[at] = byte;
        file
    };
    let deep = "HED 1 ".repeat(17) + &"TAL ".repeat(17) + "HLT";
    vec![
        (right[..7].to_vec(), (21, 0)),
        ([&right[..], &[0; 65_536]].concat(), (22, 0)),
        (changed(2, 3), (23, 0)),
        (changed(3, 1), (24, 0)),
        (right[..right.len() - 1].to_vec(), (25, 0)),
        ([&right[..], &[0]].concat(), (26, 0)),
        (one("quarter 0153 HLT"), (27, 10)),
        (one("6EF8 HLT"), (28, 8)),
        (one("HLT quarter HLT"), (29, 8)),
        (one("quarter TAL HLT"), (30, 10)),
        (one("quarter quarter HED 0 TAL HLT"), (31, 12)),
        (one(&deep), (32, 8)),
        (one("HED 255 HED 255 HED 255 TAL TAL TAL HLT"), (33, 8)),
        // in voice 2 and in voice 3, which begin after one pair and after two
        (song(["HLT", "CAL 0 HLT", "HLT"]), (30, 10)),
        (song(["HLT", "HLT", "TEM 9 HED 2 HLT"]), (30, 16)),
    ]
}

/// The file's refusal is the answer for each of its voices, also for one without a fault.
#[test]
fn a_refused_song() {
    for (file, refusal) in refused() {
        for voice in 1..=3 {
            assert_eq!(length(&file, voice), Err(refusal));
        }
    }
}

/// A voice that is not there is 41, whatever the file is.
#[test]
fn no_such_voice() {
    let files = refused().into_iter().map(|row| row.0);
    for file in files.chain([one("quarter HLT"), Vec::new(), b"PSID".to_vec()]) {
        for voice in [0, 4, 5, 257, 65_537, 1 << 31, u32::MAX - 1, u32::MAX] {
            assert_eq!(length(&file, voice), Err((41, 0)));
        }
    }
}
