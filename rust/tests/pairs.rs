//! Pairs: the library against the plain reader, on all pairs and on the codes beside theirs.

mod check;
mod make;
mod plain;

use check::{all_seeds, seeds, Call, Checker};
use make::rng::Rng;
use std::collections::BTreeSet;
use turftangle::pair::{self, half_step_of_code, read_code, write_code, Command, Meaning, Name};

fn all_pairs() -> impl Iterator<Item = (u8, u8)> {
    (0..=0xFFFF_u16).map(|pair| ((pair >> 8) as u8, pair as u8))
}

/// The codes that some pair has.
fn all_codes() -> BTreeSet<u32> {
    let codes = all_pairs().filter_map(|(first, second)| read_code(first, second).ok());
    codes.collect()
}

#[test]
fn every_pair_is_read() {
    let mut checker = Checker::new();
    for (first, second) in all_pairs() {
        checker.pair_read(first, second).unwrap();
    }
    let tally = checker.tally(Call::PairRead);
    assert_eq!(tally.iter().sum::<u64>(), 65_536);
    // seven second bytes after 01; the other 63 first bytes with low bits 01, and 8E AE CE EE
    assert_eq!(tally[27], 7 + (63 + 4) * 256);
    checker.came_alone(Call::PairRead, [0, 27, 28]);
}

/// DEF and CAL have the numbers 0 to 23 and no others, 16 among them; each is that of one pair.
#[test]
fn twenty_four_phrases() {
    for front in [0x306, 0x302] {
        let codes = all_pairs().filter_map(|(first, second)| read_code(first, second).ok());
        let mut numbers: Vec<u32> = codes
            .filter(|code| code >> 20 == front)
            .map(|code| code & 0xF_FFFF)
            .collect();
        numbers.sort_unstable();
        println!("{front:03X}: phrases {numbers:?}");
        assert!(numbers.into_iter().eq(0..24));
    }
}

/// Each code of a pair is written, and what is written reads as that code again.
#[test]
fn every_code_is_written() {
    let mut checker = Checker::new();
    for code in all_codes() {
        checker.pair_write(code).unwrap();
        checker.half_step(code).unwrap();
        let [first, second] = write_code(code).unwrap();
        assert_eq!(read_code(first, second), Ok(code), "{code:08X}");
    }
    checker.came_alone(Call::PairWrite, [0]);
    checker.came_alone(Call::HalfStep, [0, 43]);
}

/// The half-step of a note's pair, by document 01 from the second byte alone; a rest or a command
/// has none.
fn half_step_of_pair(first: u8, second: u8) -> Option<i32> {
    if first & 3 != 0 || second & 7 == 0 {
        return None;
    }
    let letter = usize::from(second & 7) - 1;
    let octave = 7 - i32::from(second >> 3 & 7);
    let accidental = match second >> 6 {
        3 => -1,
        2 => 0,
        1 => 1,
        // C D F G, and E A B
        _ => [2, 2, -2, 2, 2, -2, -2][letter],
    };
    Some(12 * octave + [0, 2, 4, 5, 7, 9, 11][letter] + accidental)
}

/// From the bytes to the half-step, without a code of ours between; all from -1 to 96 come.
#[test]
fn half_steps_of_all_pairs() {
    let mut seen = BTreeSet::new();
    for (first, second) in all_pairs() {
        let Ok(code) = read_code(first, second) else {
            continue;
        };
        let answer = half_step_of_code(code).map_err(|refusal| (refusal.number(), refusal.place));
        let due = half_step_of_pair(first, second);
        assert_eq!(answer, due.ok_or((43, 0)), "{first:02X} {second:02X}");
        seen.extend(due);
    }
    assert!(seen.into_iter().eq(-1..=96));
}

/// Each digit of each code changed to every other value; a code beside it is written exactly when
/// some pair has it.
#[test]
fn codes_beside_them() {
    let codes = all_codes();
    let mut checker = Checker::new();
    for &code in &codes {
        for place in 0..8 {
            for digit in 1..16 {
                let near = code ^ digit << (4 * place);
                checker.pair_write(near).unwrap();
                checker.half_step(near).unwrap();
                if place < 2 {
                    assert_eq!(
                        write_code(near).is_ok(),
                        codes.contains(&near),
                        "{near:08X}"
                    );
                }
            }
        }
    }
    checker.came_alone(Call::PairWrite, [0, 43]);
    checker.came_alone(Call::HalfStep, [0, 43]);
}

#[test]
fn random_codes() {
    let mut checker = Checker::new();
    for seed in seeds(2_000_000) {
        let rng = &mut Rng::new(seed);
        let code = rng.next() as u32;
        // half of them begin like a code
        let code = if rng.one_in(2) {
            code & 0x3FF1_FFFF
        } else {
            code
        };
        let answer = checker
            .pair_write(code)
            .and_then(|()| checker.half_step(code));
        if let Err(difference) = answer {
            panic!("seed {seed}: {difference}");
        }
    }
    println!("{}", checker.told());
    if all_seeds() {
        checker.came_alone(Call::PairWrite, [0, 43]);
        checker.came_alone(Call::HalfStep, [0, 43]);
    }
}

/// The wrapper's meanings and codes, there and back; its meanings are those of the plain reader.
#[test]
fn meanings_there_and_back() {
    for (first, second) in all_pairs() {
        let (Ok(code), Ok(meaning)) = (read_code(first, second), pair::read(first, second)) else {
            assert_eq!(
                read_code(first, second).err(),
                pair::read(first, second).err()
            );
            continue;
        };
        assert_eq!(Meaning::from_code(code), Some(meaning));
        assert_eq!(meaning.code(), Some(code));
        assert_eq!(pair::write(meaning), write_code(code));
        let plain = plain::pair::read(first, second).expect("the readers agree");
        assert_eq!(plain::code::encode(plain), code);
        assert_eq!(plain::code::decode(code), Some(plain));
    }
}

/// Meanings without a code of their own are answered 43 too.
#[test]
fn meanings_without_a_code() {
    let deep = Meaning::from_code(0x1010_0C07).expect("a whole C");
    let Meaning::Note(mut note) = deep else {
        panic!("a note");
    };
    note.tone.as_mut().expect("a tone").octave = 16;
    let far = Meaning::Command(Command {
        name: Name::Por,
        value: 65_536,
    });
    for meaning in [Meaning::Note(note), far] {
        let refusal = pair::write(meaning).unwrap_err();
        assert_eq!((refusal.number(), refusal.place), (43, 0));
    }
}
