//! The phrases: the library against the table of docs/INTERFACE.md.

mod check;
mod make;
mod plain;

use check::{seeds, Call, Checker};
use make::rng::Rng;
use plain::reason::Phrases;
use turftangle::{reason_into, Reason};

/// The numbers of document 01's table, and those of document 02 (i).
fn numbers() -> Vec<u32> {
    let numbers = (1..=13).chain(21..=33).chain(40..=44);
    numbers.chain(51..=54).collect()
}

/// Each refusal has a phrase and no other number has one, in the document and in the library; the
/// wrapper names each.
#[test]
fn every_refusal_has_one() {
    assert_eq!(Phrases::new().numbers(), numbers());
    let spoken = (0..=1_000).filter(|&number| reason_into(number, &mut []) > 0);
    assert_eq!(spoken.collect::<Vec<u32>>(), numbers());
    let named = Reason::ALL.iter().map(|reason| reason.number());
    assert_eq!(named.collect::<Vec<u32>>(), numbers());
}

/// Every number up to 1,000, into every length of list up to some cells past the longest phrase.
#[test]
fn every_number_and_length() {
    let mut checker = Checker::new();
    for number in 0..=1_000 {
        for length in 0..=100 {
            checker.reason(number, length, number).unwrap();
        }
    }
    for number in numbers() {
        let length = reason_into(number, &mut []);
        assert!(length <= 96, "{number}: lists past its length are tried");
    }
    checker.came_alone(Call::Reason, [0]);
}

/// Numbers beside the refusals' in one of their bytes, and any other.
#[test]
fn other_numbers() {
    let mut checker = Checker::new();
    let far = [1 << 31, (1 << 31) + 1, u32::MAX - 1, u32::MAX];
    let near = (0..=255).flat_map(|low| [8, 16, 24].map(|bit| low | 1 << bit));
    for number in near.chain(far) {
        for length in [0, 1, 80] {
            checker.reason(number, length, 5).unwrap();
        }
    }
    for seed in seeds(200_000) {
        let rng = &mut Rng::new(seed);
        let number = rng.next() as u32 >> rng.below(32);
        if let Err(difference) = checker.reason(number, rng.below(100), seed as u32) {
            panic!("seed {seed}: {difference}");
        }
    }
}

/// Bytes that any screen shows: no NUL, no line feed, nothing past ASCII; no space at an end.
#[test]
fn phrases_are_plain() {
    for number in numbers() {
        let mut cells = [0; 200];
        let length = reason_into(number, &mut cells) as usize;
        let phrase = &cells[..length];
        assert!(
            phrase.iter().all(|&b| (0x20..0x7F).contains(&b)),
            "{number}"
        );
        assert!(phrase[0] != b' ' && phrase[length - 1] != b' ', "{number}");
        assert_eq!(cells[length..], [0; 200][length..]);
    }
}

/// Those of SAP files, word by word.
#[test]
fn phrases_of_sap() {
    for (number, phrase) in [
        (51, "its first line is not SAP"),
        (
            52,
            "a line of its header is bad or stands twice, or no FF FF follows it",
        ),
        (53, "its tags do not fit its type or its number of songs"),
        (54, "a block is bad, cut off or missing"),
    ] {
        let reason = Reason::from_number(number).expect("it has a name");
        assert_eq!(reason.phrase(), phrase);
    }
}
