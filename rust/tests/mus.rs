//! MUS: the library against the plain reader, on songs of many kinds.

mod check;
mod make;
mod plain;

use check::{all_seeds, hex, seeds, Ask, Call, Checked, Checker};
use make::mus::{call, define, head, END, HLT, TAL};
use make::rng::Rng;
use make::{damage, mus};

const EMPTY: &[u8] = b"\r\r\r\r\r\0";

fn events(file: &[u8]) -> [u64; 3] {
    plain::mus::accept(file).map_or([3; 3], |voices| voices.map(|voice| voice.events))
}

/// The calls of a song on one file, the listing `asks` times with windows of up to `most` cells.
fn check_file(
    checker: &mut Checker,
    rng: &mut Rng,
    file: &[u8],
    asks: usize,
    most: usize,
) -> Checked {
    let salt = rng.next() as u32;
    checker.mus_accept(file, rng.below(17), salt)?;
    checker.parts(rng, file, salt)?;
    checker.some_length(rng, file, salt)?;
    let events = events(file);
    for _ in 0..asks {
        checker.mus_list(file, Ask::some(rng, events, most), salt)?;
    }
    Ok(())
}

#[test]
fn random_songs() {
    let mut checker = Checker::new();
    let mut file = Vec::new();
    for seed in seeds(60_000) {
        let rng = &mut Rng::new(seed);
        let most = rng.pick(&[1, 3, 8, 8, 30, 30, 30, 100, 100, 400]);
        mus::valid(rng, most, &mut file);
        for _ in 0..rng.pick(&[0, 0, 1, 1, 1, 2, 2, 3, 5]) {
            damage::mus(rng, &mut file);
        }
        let answer = check_file(&mut checker, rng, &file, 4, 400)
            .and_then(|()| checker.lengths(rng, &file, seed as u32));
        if let Err(difference) = answer {
            panic!("seed {seed}: {difference}\n{}", hex(&file));
        }
    }
    println!("{}", checker.told());
    if all_seeds() {
        let file = || [0].into_iter().chain(21..=33);
        checker.came_alone(Call::MusAccept, file());
        checker.came_alone(Call::MusLoad, file());
        checker.came_alone(Call::MusLine, file());
        checker.came_alone(Call::MusVoices, [0, 21, 22, 23, 24]);
        checker.came_alone(Call::MusList, file().chain([41, 42]));
        checker.came_alone(Call::MusLength, file().chain([41]));
        checker.kinds_came(&[0, 3]);
        checker.sixteen.came();
        checker.carried.came();
    }
}

/// Voices that walk the greatest number of pairs, or one or two less or more; listed whole too.
#[test]
fn at_the_limit() {
    let mut checker = Checker::new();
    let mut file = Vec::new();
    for seed in seeds(60) {
        let rng = &mut Rng::new(seed);
        let extra = rng.between(0, 4) as isize - 2;
        let long = mus::voice_at_limit(rng, extra);
        mus::song(0, [&HLT, &long, &HLT], EMPTY, &mut file);
        let answer = turftangle::mus::accept(&file).map(|voices| voices[1].walked);
        let answer = answer.map_err(|refusal| (refusal.number(), refusal.place));
        let walked = 1_048_576_usize.wrapping_add(extra as usize);
        let due = if extra > 0 { Err((33, 10)) } else { Ok(walked) };
        assert_eq!(answer, due, "seed {seed}");
        // beside another voice, which may be refused by itself
        let small = mus::voice(rng, 20);
        let voices: [&[u8]; 3] = match seed % 3 {
            0 => [&long, &small, &HLT],
            1 => [&HLT, &long, &small],
            _ => [&HLT, &HLT, &long],
        };
        mus::song(0, voices, EMPTY, &mut file);
        let answer = check_file(&mut checker, rng, &file, 5, 1_100_000)
            .and_then(|()| checker.lengths(rng, &file, seed as u32));
        if let Err(difference) = answer {
            panic!("seed {seed}: {difference}\n{}", hex(&file));
        }
    }
    if all_seeds() {
        checker.came(Call::MusAccept, [0, 33]);
        checker.came(Call::MusLength, [0, 33]);
    }
}

/// Long voices, and load addresses that bring them to the end of memory.
#[test]
fn long_songs() {
    let mut checker = Checker::new();
    let mut file = Vec::new();
    for seed in seeds(120) {
        let rng = &mut Rng::new(seed);
        let pairs = rng.between(2_000, 32_759);
        let long = match rng.below(2) {
            0 => mus::flat(rng, pairs),
            _ => mus::voice(rng, 30_000),
        };
        let text = if rng.one_in(4) {
            mus::text(rng)
        } else {
            EMPTY.to_vec()
        };
        let load = (65_536 + 2 - (8 + long.len() + 4 + text.len())).saturating_sub(rng.below(3));
        mus::song(load, [&long, &HLT, &HLT], &text, &mut file);
        for _ in 0..rng.below(3) {
            damage::mus(rng, &mut file);
        }
        if let Err(difference) = check_file(&mut checker, rng, &file, 4, 40_000) {
            panic!("seed {seed}: {difference}\n{}", hex(&file));
        }
    }
    if all_seeds() {
        checker.came(Call::MusAccept, [0, 22]);
    }
}

/// Files of 65,534 to 65,538 bytes, loaded at 0 to 5: both halves of 22.
#[test]
fn longest_songs() {
    let mut checker = Checker::new();
    let mut file = Vec::new();
    for (pairs, letters) in [
        (32_758, 0),
        (32_758, 1),
        (32_759, 0),
        (32_759, 1),
        (32_759, 2),
    ] {
        let rng = &mut Rng::new(pairs as u64);
        let voice = mus::flat(rng, pairs);
        let text = [&b"xx"[..letters], EMPTY].concat();
        for load in 0..6 {
            mus::song(load, [&voice, &HLT, &HLT], &text, &mut file);
            check_file(&mut checker, rng, &file, 2, 40_000).unwrap();
            let fits = file.len() <= 65_536 && load + file.len() - 2 <= 65_536;
            assert_eq!(
                turftangle::mus::accept(&file).is_ok(),
                fits,
                "{} at {load}",
                file.len()
            );
        }
    }
    checker.came_alone(Call::MusVoices, [0, 22]);
    checker.came_alone(Call::MusAccept, [0, 22]);
}

/// Every order of up to six pairs of eight kinds, before a HLT. The phrases have these two numbers.
fn small_structures(checker: &mut Checker, one: usize, two: usize) {
    let kinds = [
        [0x20, 0x94],
        head(2),
        TAL,
        define(one),
        END,
        call(one),
        define(two),
        call(two),
    ];
    let mut file = Vec::new();
    for length in 0..=6 {
        for order in 0..8_usize.pow(length) {
            let mut voice: Vec<u8> = (0..length)
                .flat_map(|i| kinds[order >> (3 * i) & 7])
                .collect();
            voice.extend(HLT);
            mus::song(0, [&HLT, &voice, &HLT], EMPTY, &mut file);
            let ask = Ask {
                voice: 2,
                first: 0,
                offsets: 20,
                jiffies: 20,
            };
            let answer = checker
                .mus_accept(&file, 12, order as u32)
                .and_then(|()| checker.mus_list(&file, ask, order as u32));
            if let Err(difference) = answer {
                panic!("{difference}\n{}", hex(&file));
            }
        }
    }
}

/// The first phrase and the last; then 16 beside 0 and beside 8. 16 could be taken for 0 (its last four
/// bits) or for 8 (the nibble of its pairs).
#[test]
fn every_small_structure() {
    let mut checker = Checker::new();
    for (one, two) in [(0, 23), (0, 16), (8, 16)] {
        small_structures(&mut checker, one, two);
    }
    println!("{}", checker.told());
    checker.came_alone(Call::MusAccept, [0, 30]);
    checker.sixteen.came();
}

/// Every order of up to six pairs before a HLT: a note that a value rules, the value set in two ways, a
/// repeat, and a phrase with its call. Of tempo, UTL and UTV.
#[test]
fn every_small_clock() {
    let mut checker = Checker::new();
    let mut file = Vec::new();
    for (note, command) in [(0x10, 0x06), (0x84, 0x16), (0x24, 0xF6)] {
        let kinds = [
            [note, 0x94],
            [command, 60],
            [command, 0],
            head(3),
            TAL,
            define(0),
            END,
            call(0),
        ];
        for length in 0..=6 {
            for order in 0..8_usize.pow(length) {
                let pairs = (0..length).map(|i| kinds[order >> (3 * i) & 7]);
                let voice: Vec<u8> = pairs.chain([HLT]).flatten().collect();
                mus::song(0, [&HLT, &HLT, &voice], EMPTY, &mut file);
                if let Err(difference) = checker.mus_length(&file, 3, 1, order as u32) {
                    panic!("{difference}\n{}", hex(&file));
                }
            }
        }
    }
    println!("{}", checker.told());
    checker.came_alone(Call::MusLength, [0, 30]);
    checker.carried.came();
}

/// Every byte of a song set to every value; and every prefix.
#[test]
fn every_byte() {
    let mut checker = Checker::new();
    checker.most_played = 2_000;
    let mut file = Vec::new();
    for seed in seeds(24) {
        let rng = &mut Rng::new(seed);
        mus::valid(rng, 8, &mut file);
        for at in 0..file.len() {
            let old = file[at];
            for value in 0..=255 {
                file[at] = value;
                if let Err(difference) = check_file(&mut checker, rng, &file, 1, 60) {
                    panic!("seed {seed}: {difference}\n{}", hex(&file));
                }
            }
            file[at] = old;
        }
        for length in 0..file.len() {
            let answer = check_file(&mut checker, rng, &file[..length], 1, 60);
            answer.unwrap_or_else(|e| panic!("seed {seed}: {e}\n{}", hex(&file[..length])));
        }
    }
}

/// All lengths of both lists around the number of events, all first numbers, all voices.
#[test]
fn every_window() {
    let mut checker = Checker::new();
    let mut file = Vec::new();
    let voice = [head(3), [0x16, 7], [0x84, 0], TAL, [0x1C, 0], HLT].concat();
    mus::song(0, [&voice, &HLT, &HLT], EMPTY, &mut file);
    for (first, voice) in (0..12).flat_map(|first| (0..6).map(move |voice| (first, voice))) {
        for (offsets, jiffies) in (0..12).flat_map(|a| (0..12).map(move |b| (a, b))) {
            let ask = Ask {
                voice,
                first,
                offsets,
                jiffies,
            };
            checker.mus_list(&file, ask, 3).unwrap();
        }
    }
    checker.came_alone(Call::MusList, [0, 41, 42]);
}

/// Lists of every length from 0 to past the twelve numbers; the wrapper's names of them.
#[test]
fn every_list_length() {
    let mut checker = Checker::new();
    let mut file = Vec::new();
    let rng = &mut Rng::new(3);
    for salt in 0..300 {
        mus::valid(rng, 30, &mut file);
        for length in 0..30 {
            checker.mus_accept(&file, length, salt).unwrap();
        }
        let mut cells = [0; 12];
        if let Ok(voices) = turftangle::mus::accept(&file) {
            assert_eq!(plain::mus::accept_into(&file, &mut cells), Ok(12));
            let four = voices.map(|v| [v.offset, v.pairs, v.events, v.walked]);
            assert_eq!(four.concat(), cells.map(|cell| cell as usize));
        }
    }
    checker.came(Call::MusAccept, [0]);
}

/// Line numbers in and beside the five, and lists of every length from 0 to past the numbers there
/// are; of right songs and of damaged ones.
#[test]
fn every_part() {
    let mut checker = Checker::new();
    let mut file = Vec::new();
    let rng = &mut Rng::new(4);
    for salt in 0..600 {
        mus::valid(rng, 12, &mut file);
        if salt % 2 == 1 {
            damage::mus(rng, &mut file);
        }
        for line in (0..=7).chain([257, 65_537, 1 << 31, u32::MAX - 1, u32::MAX]) {
            for length in 0..6 {
                checker.mus_line(&file, line, length, salt).unwrap();
            }
        }
        for length in 0..12 {
            checker.mus_voices(&file, length, salt).unwrap();
        }
    }
    checker.came(Call::MusLine, [0, 24, 25, 29, 30]);
    checker.came(Call::MusVoices, [0, 24]);
}

/// Voices in and beside the three, and lists of every length from 0 to past the one number; of right
/// songs and of damaged ones.
#[test]
fn every_length() {
    let mut checker = Checker::new();
    let mut file = Vec::new();
    let rng = &mut Rng::new(5);
    for salt in 0..600 {
        mus::valid(rng, 12, &mut file);
        if salt % 2 == 1 {
            damage::mus(rng, &mut file);
        }
        for voice in (0..=4).chain([257, 65_537, 1 << 31, u32::MAX - 1, u32::MAX]) {
            for length in 0..4 {
                checker.mus_length(&file, voice, length, salt).unwrap();
            }
        }
    }
    checker.came(Call::MusLength, [0, 24, 25, 29, 30, 41]);
}
