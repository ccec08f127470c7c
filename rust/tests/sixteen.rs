//! Phrase 16: 01 83 is DEF 16 and 01 8B is CAL 16. Small files, each with the answer that document 01,
//! corrected by request (ii), gives, worked out by hand; both readers must give it.

mod plain;

use turftangle::pair::{self, Command, Meaning, Name};

type Pair = [u8; 2];

const DEF_0: Pair = [0x01, 0x06];
const CAL_0: Pair = [0x01, 0x02];
const DEF_8: Pair = [0x01, 0x86];
const CAL_8: Pair = [0x01, 0x82];
const DEF_16: Pair = [0x01, 0x83];
const CAL_16: Pair = [0x01, 0x8B];
const END: Pair = [0x01, 0x2F];
const TAL: Pair = [0x01, 0x0F];
const HLT: Pair = [0x01, 0x4F];
/// A quarter and an eighth, C natural 5: 30 and 15 jiffies at the tempo of the start.
const QUARTER: Pair = [0x10, 0x91];
const EIGHTH: Pair = [0x14, 0x91];

const fn hed(n: u8) -> Pair {
    [0x36, n]
}

/// A song of these voices, with empty lines. Pair i of the first voice stands at 8 + 2i.
fn song(voices: [&[Pair]; 3]) -> Vec<u8> {
    let mut file = vec![0, 0];
    for voice in voices {
        file.extend((2 * voice.len() as u16).to_le_bytes());
    }
    file.extend(voices.concat().concat());
    file.extend(b"\r\r\r\r\r\0");
    file
}

/// Events and pairs walked of each voice, or number and place: both readers' answer.
fn counts(file: &[u8]) -> Result<[(u64, u64); 3], (u32, u32)> {
    let library = turftangle::mus::accept(file);
    let library = library.map(|voices| voices.map(|v| (v.events as u64, v.walked as u64)));
    let library = library.map_err(|refusal| (refusal.number(), refusal.place as u32));
    let plain = plain::mus::accept(file);
    let plain = plain.map(|voices| voices.map(|v| (v.events, v.walked)));
    let plain = plain.map_err(|refusal| (refusal.number, refusal.place));
    assert_eq!(library, plain, "{file:02X?}");
    plain
}

/// Offset and jiffy of the first voice's events, at most 60: both readers' answer.
fn listed(file: &[u8]) -> Vec<(u32, u32)> {
    let (mut ours, mut theirs) = ([[0; 60]; 2], [[0; 60]; 2]);
    let [offsets, jiffies] = &mut ours;
    let library = turftangle::mus::list(file, 1, 0, offsets, jiffies).ok();
    let [offsets, jiffies] = &mut theirs;
    let plain = plain::mus::list(file, 1, 0, offsets, jiffies).ok();
    assert_eq!((library, ours), (plain, theirs), "{file:02X?}");
    let [offsets, jiffies] = theirs;
    let events = offsets.into_iter().zip(jiffies);
    events.take(plain.expect("accepted")).collect()
}

/// A first voice, its events and pairs walked, and the listing.
type Accepted = (&'static [Pair], (u64, u64), &'static [(u32, u32)]);

/// Pairs walked: DEF to END body + 2, CAL body + 2, repeat 1 + n x (body + 1), HLT 1.
const ACCEPTED: [Accepted; 6] = [
    // alone: 3 + 1
    (&[DEF_16, QUARTER, END, HLT], (2, 4), &[(10, 0), (14, 30)]),
    // called: 3 + 3 + 1
    (
        &[DEF_16, QUARTER, END, CAL_16, HLT],
        (3, 7),
        &[(10, 0), (10, 30), (16, 60)],
    ),
    // called in a repeat: 3 + (1 + 3 x (3 + 1)) + 1
    (
        &[DEF_16, QUARTER, END, hed(3), CAL_16, TAL, HLT],
        (5, 17),
        &[(10, 0), (10, 30), (10, 60), (10, 90), (20, 120)],
    ),
    // defined in a repeat: (1 + 2 x (3 + 1)) + 3 + 1
    (
        &[hed(2), DEF_16, QUARTER, END, TAL, CAL_16, HLT],
        (4, 13),
        &[(12, 0), (12, 30), (12, 60), (20, 90)],
    ),
    // a repeat in it, 1 + 2 x (1 + 1): (5 + 2) + (5 + 2) + 1
    (
        &[DEF_16, hed(2), QUARTER, TAL, END, CAL_16, HLT],
        (5, 15),
        &[(12, 0), (12, 30), (12, 60), (12, 90), (20, 120)],
    ),
    // called in another phrase: 3 + (3 + 2) + (3 + 2) + 1
    (
        &[DEF_16, QUARTER, END, DEF_8, CAL_16, END, CAL_8, HLT],
        (4, 14),
        &[(10, 0), (10, 30), (10, 60), (22, 90)],
    ),
];

#[test]
fn accepted() {
    for (voice, due, events) in ACCEPTED {
        let file = song([voice, &[HLT], &[HLT]]);
        assert_eq!(counts(&file), Ok([due, (1, 1), (1, 1)]), "{voice:02X?}");
        assert_eq!(listed(&file), events, "{voice:02X?}");
    }
}

/// A first voice, and the number and place of its refusal.
const REFUSED: [(&[Pair], (u32, u32)); 13] = [
    // called before it is defined, without a definition, and inside its own
    (&[QUARTER, CAL_16, DEF_16, QUARTER, END, HLT], (30, 10)),
    (&[CAL_16, HLT], (30, 8)),
    (&[DEF_16, QUARTER, CAL_16, END, HLT], (30, 12)),
    // defined twice
    (&[DEF_16, QUARTER, END, DEF_16, QUARTER, END, HLT], (30, 14)),
    // a definition in a definition
    (&[DEF_16, DEF_16, END, END, HLT], (30, 10)),
    (&[DEF_0, DEF_16, END, END, HLT], (30, 10)),
    // TAL of a repeat that was opened outside, END over a repeat, HLT in a definition
    (&[hed(2), DEF_16, TAL, END, HLT], (30, 12)),
    (&[DEF_16, hed(2), END, TAL, HLT], (30, 12)),
    (&[DEF_16, QUARTER, HLT], (30, 12)),
    // 0 and 8 are other phrases
    (&[DEF_16, QUARTER, END, CAL_0, HLT], (30, 14)),
    (&[DEF_16, QUARTER, END, CAL_8, HLT], (30, 14)),
    (&[DEF_8, QUARTER, END, CAL_16, HLT], (30, 14)),
    // 27 comes before 30, though its pair comes after
    (&[CAL_16, [0x01, 0x53], HLT], (27, 10)),
];

#[test]
fn refused() {
    for (voice, due) in REFUSED {
        let file = song([voice, &[HLT], &[HLT]]);
        assert_eq!(counts(&file), Err(due), "{voice:02X?}");
    }
}

/// DEF k, which for 0 to 15 is k in the n6 row, for 16 to 23 k - 8 in the n3 row; and CAL k.
fn def_and_cal(k: u8) -> (Pair, Pair) {
    match k {
        0..=15 => ([0x01, 16 * k + 0x06], [0x01, 16 * k + 0x02]),
        _ => ([0x01, 16 * (k - 8) + 0x03], [0x01, 16 * (k - 8) + 0x0B]),
    }
}

/// All 24, each with a quarter; then each is called, the last one first. Both are 3 pairs walked.
#[test]
fn all_phrases() {
    let mut voice = Vec::new();
    for k in 0..24 {
        voice.extend([def_and_cal(k).0, QUARTER, END]);
    }
    voice.extend((0..24).rev().map(|k| def_and_cal(k).1));
    voice.push(HLT);
    let file = song([&voice, &[HLT], &[HLT]]);
    assert_eq!(counts(&file), Ok([(49, 145), (1, 1), (1, 1)]));
    // phrase k has its quarter at 10 + 6k; HLT stands after 72 pairs and 24
    let defined = (0..24).map(|k| 10 + 6 * k);
    let called = defined.clone().rev();
    let offsets = defined.chain(called).chain([200]);
    let jiffies = (0..49).map(|number| 30 * number);
    assert!(listed(&file).into_iter().eq(offsets.zip(jiffies)));
}

/// CAL 0 plays the quarter of DEF 0 and CAL 16 the eighth of DEF 16, in either order; so with 8.
#[test]
fn other_phrases() {
    for (def, cal) in [(DEF_0, CAL_0), (DEF_8, CAL_8)] {
        let front = [def, QUARTER, END, DEF_16, EIGHTH, END];
        let voice = [&front[..], &[cal, CAL_16, HLT]].concat();
        let file = song([&voice, &[HLT], &[HLT]]);
        assert_eq!(counts(&file), Ok([(5, 13), (1, 1), (1, 1)]));
        let due = [(10, 0), (16, 30), (10, 45), (16, 75), (24, 90)];
        assert_eq!(listed(&file), due);
        let voice = [&front[..], &[CAL_16, cal, HLT]].concat();
        let due = [(10, 0), (16, 30), (16, 45), (10, 60), (24, 90)];
        assert_eq!(listed(&song([&voice, &[HLT], &[HLT]])), due);
    }
}

/// Each voice has a phrase 16 of its own.
#[test]
fn three_voices() {
    let voice = &[DEF_16, QUARTER, END, CAL_16, HLT];
    assert_eq!(counts(&song([voice; 3])), Ok([(3, 7); 3]));
    // voice 2 begins after five pairs
    let file = song([voice, &[CAL_16, HLT], voice]);
    assert_eq!(counts(&file), Err((30, 18)));
}

/// A call is one deep: fifteen repeats may stand around it. CAL walks 3 pairs, each HED 1 with its TAL
/// 2 more.
#[test]
fn depth() {
    for (repeats, due) in [(15, Ok((3, 3 + 33 + 1))), (16, Err((32, 8)))] {
        let mut voice = vec![DEF_16, QUARTER, END];
        voice.extend(vec![hed(1); repeats]);
        voice.push(CAL_16);
        voice.extend(vec![TAL; repeats]);
        voice.push(HLT);
        let answer = counts(&song([&voice, &[HLT], &[HLT]]));
        assert_eq!(answer.map(|voices| voices[0]), due);
    }
}

/// HED 255 over HED 255 over 15 quarters: 1 + 255 x (1 + 255 x 16 + 1) = 1,040,911 pairs walked.
/// With DEF, END and HLT it is fewer than the limit; a call goes past it.
#[test]
fn walked() {
    let mut phrase = vec![DEF_16, hed(255), hed(255)];
    phrase.extend([QUARTER; 15]);
    phrase.extend([TAL, TAL, END]);
    let file = song([&[&phrase[..], &[HLT]].concat(), &[HLT], &[HLT]]);
    let due = (255 * 255 * 15 + 1, 1_040_914);
    assert_eq!(counts(&file), Ok([due, (1, 1), (1, 1)]));
    let file = song([&[&phrase[..], &[CAL_16, HLT]].concat(), &[HLT], &[HLT]]);
    assert_eq!(counts(&file), Err((33, 8)));
}

/// Both readers' code of a pair, or the refusal's number.
fn read(pair: Pair) -> Result<u32, u32> {
    let library = pair::read_code(pair[0], pair[1]).map_err(|refusal| refusal.number());
    let plain = plain::code::read(pair[0], pair[1]).map_err(|refusal| refusal.number);
    assert_eq!(library, plain, "{pair:02X?}");
    plain
}

/// Both readers' pair for a code, or the refusal's number.
fn write(code: u32) -> Result<u32, u32> {
    let library = pair::write_code(code).map(|pair| u32::from(u16::from_be_bytes(pair)));
    let library = library.map_err(|refusal| refusal.number());
    let plain = plain::code::write(code).map_err(|refusal| refusal.number);
    assert_eq!(library, plain, "{code:08X}");
    plain
}

/// 16 and the numbers beside the rows' ends, there and back.
#[test]
fn read_and_written() {
    for (pair, code) in [
        ([0x01, 0xF6], 0x3060_000F), // DEF 15
        ([0x01, 0x83], 0x3060_0010), // DEF 16
        ([0x01, 0x93], 0x3060_0011), // DEF 17
        ([0x01, 0xF3], 0x3060_0017), // DEF 23
        ([0x01, 0xF2], 0x3020_000F), // CAL 15
        ([0x01, 0x8B], 0x3020_0010), // CAL 16
        ([0x01, 0x9B], 0x3020_0011), // CAL 17
        ([0x01, 0xFB], 0x3020_0017), // CAL 23
    ] {
        assert_eq!(read(pair), Ok(code));
        assert_eq!(write(code), Ok(u16::from_be_bytes(pair).into()));
    }
    // DEF 24, CAL 24, DEF -16, CAL -16
    for code in [0x3060_0018, 0x3020_0018, 0x3061_0010, 0x3021_0010] {
        assert_eq!(write(code), Err(43), "{code:08X}");
    }
}

/// The wrapper's meanings.
#[test]
fn named() {
    for (name, word, [first, second]) in
        [(Name::Def, "DEF 16", DEF_16), (Name::Cal, "CAL 16", CAL_16)]
    {
        let meaning = |value| Meaning::Command(Command { name, value });
        assert_eq!(pair::read(first, second), Ok(meaning(16)));
        assert_eq!(pair::write(meaning(16)), Ok([first, second]));
        assert_eq!(meaning(16).to_string(), word);
        let refusal = pair::write(meaning(24)).unwrap_err();
        assert_eq!((refusal.number(), refusal.place), (43, 0));
    }
}

/// What is left without a meaning after 01.
#[test]
fn unassigned() {
    let refused = (0..=255).filter(|&second| read([0x01, second]) == Err(27));
    assert!(refused.eq([0x53, 0x6F, 0x7F, 0x9F, 0xBF, 0xCF, 0xFF]));
}
