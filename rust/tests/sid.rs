//! PSID and RSID: the library against the plain reader, on files of many kinds.

mod check;
mod make;
mod plain;

use check::{all_seeds, hex, seeds, Call, Checked, Checker};
use make::rng::Rng;
use make::{damage, sid};

/// All calls on one file, but those that go by a song's pairs.
fn check_file(checker: &mut Checker, rng: &mut Rng, file: &[u8]) -> Checked {
    let salt = rng.next() as u32;
    checker.parts(rng, file, salt)?;
    checker.sid_read(file)?;
    checker.sid_fields(file, rng.below(26), salt)?;
    checker.fill_memory(salt);
    checker.sid_load(file, 65_536)?;
    if rng.one_in(8) {
        let length = rng.pick(&[0, 1, 255, 65_535, 65_537, 65_552]);
        checker.sid_load(file, length)?;
    }
    let songs = plain::sid::read(file).map_or(1, |header| header.songs.into());
    let song = rng.below(300) as u32;
    for song in [0, 1, 31, 32, 33, songs, songs + 1, 256, 257, u32::MAX, song] {
        checker.sid_speed(file, song)?;
    }
    Ok(())
}

fn ask(checker: &mut Checker, rng: &mut Rng, file: &[u8], what: &str) {
    if let Err(difference) = check_file(checker, rng, file) {
        panic!("{what}: {difference}\n{}", hex(file));
    }
}

#[test]
fn random_files() {
    let mut checker = Checker::new();
    let mut file = Vec::new();
    for seed in seeds(120_000) {
        let rng = &mut Rng::new(seed);
        let most = rng.pick(&[1, 2, 3, 8, 40, 40, 200, 200, 200, 600, 3_000]);
        sid::valid(rng, most, &mut file);
        for _ in 0..rng.pick(&[0, 1, 1, 1, 2, 2, 3, 6]) {
            damage::sid(rng, &mut file);
        }
        ask(&mut checker, rng, &file, &format!("seed {seed}"));
    }
    println!("{}", checker.told());
    if all_seeds() {
        checker.came_alone(Call::SidRead, 0..=13);
        checker.came_alone(Call::SidFields, 0..=13);
        checker.came_alone(Call::SidLoad, (0..=13).chain([40]));
        checker.came_alone(Call::SidSpeed, (0..=13).chain([44]));
        checker.came_alone(Call::MusVoices, [21, 23, 24]);
        checker.kinds_came(&[0, 1, 2]);
    }
}

/// Payloads up to the whole memory, and a little more.
#[test]
fn long_files() {
    let mut checker = Checker::new();
    let mut file = Vec::new();
    for seed in seeds(2_000) {
        let rng = &mut Rng::new(seed);
        let most = rng.pick(&[20_000, 50_000, 65_536]);
        sid::valid(rng, most, &mut file);
        for _ in 0..rng.below(3) {
            damage::sid(rng, &mut file);
        }
        if rng.one_in(10) {
            file.resize(0x7E + 65_536 + rng.below(4), 7);
        }
        ask(&mut checker, rng, &file, &format!("seed {seed}"));
    }
    if all_seeds() {
        checker.came(Call::SidRead, [0, 10]);
        checker.came(Call::MusVoices, [22]);
    }
}

/// The makers' files are accepted, so that the damage is what is tested.
#[test]
fn made_files_are_accepted() {
    let mut file = Vec::new();
    for seed in seeds(5_000) {
        let rng = &mut Rng::new(seed);
        sid::valid(rng, 40_000, &mut file);
        let answer = turftangle::sid::read(&file);
        assert_eq!(answer, Ok(()), "seed {seed}: {}", hex(&file));
    }
}

/// Every byte of the header set to every value, in a file of each kind; and every prefix.
#[test]
fn every_byte() {
    let mut checker = Checker::new();
    let mut file = Vec::new();
    for seed in seeds(24) {
        let rng = &mut Rng::new(seed);
        sid::valid(rng, 6, &mut file);
        for at in 0..file.len() {
            if (0x16..0x76).contains(&at) && at % 8 != 5 {
                continue; // the texts have no other test in them
            }
            let old = file[at];
            for value in 0..=255 {
                file[at] = value;
                let answer = checker
                    .sid_fields(&file, 21, seed as u32)
                    .and_then(|()| checker.sid_speed(&file, 1))
                    .and_then(|()| checker.kind(&file));
                if let Err(difference) = answer {
                    panic!("seed {seed}: {difference}\n{}", hex(&file));
                }
            }
            file[at] = old;
        }
        for length in 0..file.len() {
            ask(&mut checker, rng, &file[..length], &format!("seed {seed}"));
        }
    }
    checker.kinds_came(&[0]);
}

/// Lists of every length from 0 to past the last field, of an accepted and of a refused file.
#[test]
fn every_list_length() {
    let mut checker = Checker::new();
    let mut file = Vec::new();
    let rng = &mut Rng::new(1);
    for case in 0..200 {
        sid::valid(rng, 40, &mut file);
        if case % 2 == 1 {
            file[3] = b'X';
        }
        for length in 0..40 {
            checker.sid_fields(&file, length, case).unwrap();
        }
    }
    let tally = checker.tally(Call::SidFields);
    assert_eq!([tally[0], tally[2]], [4_000, 4_000]);
}

/// The wrapper's header names the cells as docs/INTERFACE.md numbers them.
#[test]
fn header_names_the_cells() {
    let mut file = Vec::new();
    let rng = &mut Rng::new(2);
    for _ in 0..500 {
        sid::valid(rng, 3_000, &mut file);
        let mut cells = [0; 21];
        assert_eq!(plain::sid::fields_into(&file, &mut cells), Ok(21));
        let h = turftangle::sid::header(&file).unwrap();
        let numbers = [
            h.format as u32,
            h.version,
            h.load.into(),
            h.init.into(),
            h.play.into(),
            h.songs,
            h.start,
            h.speed_field,
            h.basic.into(),
            h.clock as u32,
            h.model as u32,
            h.start_page,
            h.page_length,
        ];
        assert_eq!(numbers, cells[..13]);
        let spans = [h.title, h.author, h.released, h.payload];
        let spans = spans.map(|span| [span.offset as u32, span.length as u32]);
        assert_eq!(spans.concat(), cells[13..]);
        let payload = h.payload.of(&file).map(<[u8]>::len);
        assert_eq!(payload, Some(cells[20] as usize));
    }
}
