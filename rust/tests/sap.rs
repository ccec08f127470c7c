//! SAP: the library against the plain reader, on files of many kinds.

mod check;
mod make;
mod plain;

use check::{all_seeds, hex, seeds, Ask, Call, Checked, Checker};
use make::rng::Rng;
use make::sap::Parts;
use make::{damage, mus, sap, sapdamage};
use turftangle::sap::{Block, Header, Player, Time};

/// The calls of a SAP file on one file, and what kind it is.
fn check_file(checker: &mut Checker, rng: &mut Rng, file: &[u8]) -> Checked {
    let salt = rng.next() as u32;
    checker.kind(file)?;
    checker.sap_read(file)?;
    checker.sap_fields(file, rng.below(26), salt)?;
    checker.fill_memory(salt);
    checker.sap_load(file, 65_536)?;
    if rng.one_in(8) {
        let length = rng.pick(&[0, 1, 255, 65_535, 65_537, 65_552]);
        checker.sap_load(file, length)?;
    }
    let header = plain::sap::read(file);
    let numbers = header.map_or((1, 0, 0), |h| (h.songs, h.times, h.blocks as u32));
    let (songs, times, blocks) = numbers;
    for song in [0, 1, songs - 1, songs, times, 31, 32, 256, u32::MAX] {
        checker.sap_time(file, song)?;
    }
    for number in [0, 1, blocks.wrapping_sub(1), blocks, blocks + 1, 65_536] {
        checker.sap_block(file, number, rng.below(6), salt)?;
    }
    Ok(())
}

fn ask(checker: &mut Checker, rng: &mut Rng, file: &[u8], what: &str) {
    if let Err(difference) = check_file(checker, rng, file) {
        panic!("{what}: {difference}\n{}", hex(file));
    }
}

#[test]
fn random_files() {
    let mut checker = Checker::new();
    let mut file = Vec::new();
    for seed in seeds(100_000) {
        let rng = &mut Rng::new(seed);
        let most = rng.pick(&[1, 2, 3, 8, 40, 40, 200, 600, 3_000]);
        sap::valid(rng, most, &mut file);
        for _ in 0..rng.pick(&[0, 0, 0, 1, 1, 1, 1, 2, 3]) {
            sapdamage::damage(rng, &mut file);
        }
        ask(&mut checker, rng, &file, &format!("seed {seed}"));
    }
    println!("{}", checker.told());
    if all_seeds() {
        let file = || [0].into_iter().chain(51..=54);
        checker.came_alone(Call::SapRead, file());
        checker.came_alone(Call::SapFields, file());
        checker.came_alone(Call::SapLoad, file().chain([40]));
        checker.came_alone(Call::SapTime, file().chain([44]));
        checker.came_alone(Call::SapBlock, file());
        let least = [
            (0, 30_000),
            (51, 4_000),
            (52, 20_000),
            (53, 5_000),
            (54, 14_000),
        ];
        checker.came_often(Call::SapRead, &least);
        checker.kinds_came(&[0, 4]);
    }
}

/// Damage at one place alone, or none: each rule by itself, on small files.
#[test]
fn one_rule_at_a_time() {
    let mut checker = Checker::new();
    let mut file = Vec::new();
    for seed in seeds(60_000) {
        let rng = &mut Rng::new(seed);
        sap::valid(rng, 12, &mut file);
        sapdamage::damage(rng, &mut file);
        let length = rng.between(18, 22);
        let (song, number) = (rng.below(33) as u32, rng.below(9) as u32);
        let answer = checker
            .sap_fields(&file, length, seed as u32)
            .and_then(|()| checker.sap_time(&file, song))
            .and_then(|()| checker.sap_block(&file, number, 3, seed as u32));
        if let Err(difference) = answer {
            panic!("seed {seed}: {difference}\n{}", hex(&file));
        }
    }
    println!("{}", checker.told());
    if all_seeds() {
        let least = [
            (0, 10_000),
            (51, 3_000),
            (52, 18_000),
            (53, 4_000),
            (54, 14_000),
        ];
        checker.came_often(Call::SapFields, &least);
        checker.came(Call::SapTime, [0, 44]);
    }
}

/// Blocks up to the whole memory but what none may touch, and files past what MUS and SID can be.
#[test]
fn long_files() {
    let mut checker = Checker::new();
    let mut file = Vec::new();
    let mut longest = 0;
    for seed in seeds(1_000) {
        let rng = &mut Rng::new(seed);
        let most = rng.pick(&[5_000, 20_000, 64_796]);
        sap::valid(rng, most, &mut file);
        for _ in 0..rng.below(3) {
            sapdamage::damage(rng, &mut file);
        }
        longest = longest.max(file.len());
        ask(&mut checker, rng, &file, &format!("seed {seed}"));
    }
    if all_seeds() {
        checker.came(Call::SapRead, [0, 51, 52, 53, 54]);
        assert!(longest > 140_000, "{longest}");
    }
}

/// The makers' files are accepted, so that the damage is what is tested; and each type comes.
#[test]
fn made_files_are_accepted() {
    let mut file = Vec::new();
    let mut letters = String::new();
    for seed in seeds(5_000) {
        let rng = &mut Rng::new(seed);
        sap::valid(rng, 40_000, &mut file);
        match turftangle::sap::header(&file) {
            Ok(header) => letters.push(header.player.letter()),
            Err(refusal) => panic!("seed {seed}: {refusal} {}", hex(&file)),
        }
    }
    for letter in "BCDS".chars().filter(|_| all_seeds()) {
        assert!(letters.matches(letter).count() > 1_000, "{letter}");
    }
}

/// Every byte of some small files set to every value; and every prefix.
#[test]
fn every_byte() {
    let mut checker = Checker::new();
    let mut file = Vec::new();
    for seed in seeds(80) {
        let rng = &mut Rng::new(seed);
        sap::valid(rng, 6, &mut file);
        if file.len() > 250 {
            continue;
        }
        for at in 0..file.len() {
            let old = file[at];
            for value in 0..=255 {
                file[at] = value;
                let answer = checker
                    .sap_fields(&file, 21, seed as u32)
                    .and_then(|()| checker.sap_time(&file, 0))
                    .and_then(|()| checker.sap_block(&file, 1, 3, seed as u32))
                    .and_then(|()| checker.kind(&file));
                if let Err(difference) = answer {
                    panic!("seed {seed}: {difference}\n{}", hex(&file));
                }
            }
            file[at] = old;
        }
        for length in 0..file.len() {
            ask(&mut checker, rng, &file[..length], &format!("seed {seed}"));
        }
    }
    if all_seeds() {
        checker.came(Call::SapFields, [0, 51, 52, 53, 54]);
        checker.kinds_came(&[0, 4]);
    }
}

/// Two bytes of the data set to every value: all starts and all ends of a block, in turn.
#[test]
fn every_address() {
    let mut checker = Checker::new();
    let front = b"SAP\r\nTYPE S\r\nINIT 2000\r\n\xFF\xFF";
    for other in [
        0x0000, 0x02DE, 0x02E0, 0x02E3, 0x02E4, 0x8000, 0xFFFE, 0xFFFF_u16,
    ] {
        let mut file = [front, &[0; 10][..]].concat();
        for address in 0..=0xFFFF_u16 {
            for (start, end) in [(address, other), (other, address)] {
                let at = front.len();
                file[at..at + 2].copy_from_slice(&start.to_le_bytes());
                file[at + 2..at + 4].copy_from_slice(&end.to_le_bytes());
                let answer = checker.sap_block(&file, 0, 3, 1);
                answer.unwrap_or_else(|difference| panic!("{start:04X} {end:04X}: {difference}"));
            }
        }
    }
    checker.came_alone(Call::SapBlock, [0, 54]);
}

/// Lists of every length from 0 to past the last cell, of accepted and of refused files.
#[test]
fn every_list_length() {
    let mut checker = Checker::new();
    let mut file = Vec::new();
    let rng = &mut Rng::new(1);
    for case in 0..200 {
        sap::valid(rng, 40, &mut file);
        if case % 2 == 1 {
            file[3] = b'X';
        }
        for length in 0..40 {
            checker.sap_fields(&file, length, case).unwrap();
        }
        for (number, length) in (0..12).flat_map(|n| (0..8).map(move |length| (n, length))) {
            checker.sap_block(&file, number, length, case).unwrap();
        }
    }
    let tally = checker.tally(Call::SapFields);
    assert_eq!([tally[0], tally[51]], [4_000, 4_000]);
    let tally = checker.tally(Call::SapBlock);
    assert_eq!([tally[0], tally[51]], [9_600, 9_600]);
}

/// Memories of every length near the right one and of some others: 40, whatever the file.
#[test]
fn every_memory_length() {
    let mut checker = Checker::new();
    let mut file = Vec::new();
    let rng = &mut Rng::new(2);
    for case in 0..40 {
        sap::valid(rng, 4_000, &mut file);
        if case % 2 == 1 {
            sapdamage::damage(rng, &mut file);
        }
        checker.fill_memory(case);
        for length in (0..20).chain(65_520..=65_552).chain([256, 4_096, 32_768]) {
            checker.sap_load(&file, length).unwrap();
        }
    }
    let tally = checker.tally(Call::SapLoad);
    assert_eq!(tally[40], 40 * 55);
    checker.came(Call::SapLoad, [0, 40]);
}

/// What the plain reader's cells are in the wrapper's names.
fn cells_of(header: &Header) -> Vec<u32> {
    let (init, music, player) = match header.player {
        Player::B { init, player } => (init, 0, Some(player)),
        Player::C { music, player } => (0, music, Some(player)),
        Player::D { init, player } => (init, 0, player),
        Player::S { init } => (init, 0, None),
    };
    let mut cells = vec![
        header.player.letter().into(),
        header.songs,
        header.default_song,
        header.stereo.into(),
        header.ntsc.into(),
        header.covox.into(),
        header.fastplay,
        header.fastplay_stated.into(),
        init.into(),
        music.into(),
        player.unwrap_or(0).into(),
        player.is_some().into(),
    ];
    for text in [header.author, header.name, header.date] {
        let span = text.unwrap_or_default();
        cells.extend([span.offset as u32, span.length as u32]);
    }
    let counts = [header.times, header.blocks, header.data];
    cells.extend(counts.map(|count| count as u32));
    cells
}

/// The wrapper's header, times and blocks name the cells as docs/INTERFACE.md numbers them.
#[test]
fn header_names_the_cells() {
    let mut file = Vec::new();
    let rng = &mut Rng::new(3);
    for _ in 0..2_000 {
        sap::valid(rng, 300, &mut file);
        let mut cells = [0; 21];
        assert_eq!(plain::sap::fields_into(&file, &mut cells), Ok(21));
        let header = turftangle::sap::header(&file).unwrap();
        assert_eq!(cells_of(&header), cells);
        for song in 0..header.songs {
            let time = turftangle::sap::time(&file, song).unwrap();
            assert_eq!(time.is_some(), song < header.times as u32);
            let number = time.map_or(u32::MAX, Time::number);
            assert_eq!(plain::sap::time(&file, song), Ok(number));
        }
        for number in 0..=header.blocks as u32 {
            let mut cells = [0; 3];
            let count = plain::sap::block_into(&file, number, &mut cells).unwrap();
            let block = turftangle::sap::block(&file, number).unwrap();
            assert_eq!(block.is_some(), count == 3);
            let three = |b: Block| [b.start.into(), b.end.into(), b.offset as u32];
            assert_eq!(block.map_or([0; 3], three), cells);
        }
    }
}

/// The texts that the wrapper names are what stands between the quotes; an empty one is there too.
#[test]
fn texts_stand_between_quotes() {
    let mut file = Vec::new();
    let (mut absent, mut empty, mut longest) = (0, 0, 0);
    let rng = &mut Rng::new(4);
    for _ in 0..3_000 {
        sap::valid(rng, 3, &mut file);
        let header = turftangle::sap::header(&file).unwrap();
        let texts = [header.author, header.name, header.date];
        for (tag, text) in ["AUTHOR", "NAME", "DATE"].into_iter().zip(texts) {
            let line = [b"\r\n", tag.as_bytes(), b" \""].concat();
            let place = file.windows(line.len()).position(|part| part == line);
            assert_eq!(text.is_some(), place.is_some());
            let (Some(text), Some(place)) = (text, place) else {
                absent += 1;
                continue;
            };
            assert_eq!(text.offset, place + line.len());
            let bytes = text.of(&file).expect("it lies in the file");
            assert!(file[text.offset + text.length..].starts_with(b"\"\r\n"));
            assert!(!bytes.contains(&b'"'));
            empty += usize::from(bytes.is_empty());
            longest = longest.max(bytes.len());
        }
    }
    assert!(absent > 500 && empty > 100 && longest == 120);
}

/// Exchanging two neighbouring lines that are not both TIME changes neither the refusal nor any
/// value but where texts stand.
#[test]
fn lines_in_any_order() {
    let mut file = Vec::new();
    let mut numbers = [0; 55];
    for seed in seeds(20_000) {
        let rng = &mut Rng::new(seed);
        sap::valid(rng, 10, &mut file);
        if rng.one_in(2) {
            sapdamage::damage(rng, &mut file);
        }
        let Some(mut parts) = Parts::of(&file) else {
            continue;
        };
        let is_time = |line: &[u8]| line.starts_with(b"TIME ");
        let exchanged: Vec<usize> = (1..parts.lines.len())
            .filter(|&at| !(is_time(&parts.lines[at - 1]) && is_time(&parts.lines[at])))
            .collect();
        if exchanged.is_empty() {
            continue;
        }
        let at = rng.pick(&exchanged);
        let before = values(&file);
        parts.lines.swap(at - 1, at);
        parts.write(&mut file);
        assert_eq!(values(&file), before, "seed {seed}: {}", hex(&file));
        numbers[before.map_or_else(|number| number as usize, |_| 0)] += 1;
    }
    let came = [0, 52, 53, 54].iter().all(|&number| numbers[number] > 500);
    assert!(came || !all_seeds(), "{numbers:?}");
}

/// All values but where texts stand: the cells without the texts' offsets, then the texts and the
/// times; or the refusal.
fn values(file: &[u8]) -> Result<(Vec<u32>, Vec<Vec<u8>>), u32> {
    let header = turftangle::sap::header(file).map_err(|refusal| refusal.number())?;
    let mut cells = cells_of(&header);
    let texts = [header.author, header.name, header.date];
    let texts = texts.map(|text| text.and_then(|text| text.of(file)).unwrap_or(b"none"));
    for at in [12, 14, 16] {
        cells[at] = cells[at].min(1);
    }
    for song in 0..header.songs {
        let time = turftangle::sap::time(file, song).expect("accepted");
        cells.push(time.map_or(u32::MAX, Time::number));
    }
    Ok((cells, texts.map(<[u8]>::to_vec).to_vec()))
}

/// Of two blocks that share a byte the later one's byte is in memory; a byte that no block covers is
/// as it was.
#[test]
fn later_blocks_win() {
    let mut file = Vec::new();
    let mut shared = 0;
    for seed in seeds(2_000) {
        let rng = &mut Rng::new(seed);
        sap::valid(rng, 500, &mut file);
        let mut memory = vec![0xA5; 65_536];
        turftangle::sap::load(&file, &mut memory).expect("accepted");
        let mut due: Vec<Option<u8>> = vec![None; 65_536];
        for block in (0..).map_while(|n| turftangle::sap::block(&file, n).expect("accepted")) {
            let data = block.span().of(&file).expect("it lies in the file");
            for (address, byte) in (block.start..=block.end).zip(data) {
                shared += u64::from(due[usize::from(address)].replace(*byte).is_some());
            }
        }
        let same = due.iter().zip(&memory);
        assert!(
            same.into_iter()
                .all(|(due, byte)| due.unwrap_or(0xA5) == *byte),
            "seed {seed}"
        );
    }
    assert!(shared > 10_000 || !all_seeds(), "{shared}");
}

/// A MUS song that begins with the bytes `SAP` CR LF: it loads to $4153, voice 1 has $0D50 bytes and
/// voice 2 a length of which the low byte is $0A.
fn song_like_sap(rng: &mut Rng, file: &mut Vec<u8>) {
    let high = rng.pick(&[0, 0, 1, 4, 0x13, usize::from(b'N'), usize::from(b'T')]);
    let first = mus::flat(rng, 0x0D50 / 2);
    let second = mus::flat(rng, (high << 8 | 0x0A) / 2);
    let third = match rng.below(3) {
        0 => mus::HLT.to_vec(),
        _ => mus::voice(rng, 40),
    };
    let text = mus::text(rng);
    mus::song(0x4153, [&first, &second, &third], &text, file);
    assert!(file.starts_with(b"SAP\r\n"));
}

/// Such songs, right and damaged: they are MUS where MUS accepts them, else SAP.
#[test]
fn songs_that_begin_like_sap() {
    let mut checker = Checker::new();
    let mut file = Vec::new();
    let (mut songs, mut others) = (0, 0);
    for seed in seeds(3_000) {
        let rng = &mut Rng::new(seed);
        song_like_sap(rng, &mut file);
        for _ in 0..rng.pick(&[0, 1, 1, 2]) {
            damage::mus(rng, &mut file);
        }
        if file.starts_with(b"SAP\r\n") {
            let song = turftangle::mus::accept(&file).is_ok();
            let kind = turftangle::kind(&file).number();
            assert_eq!(kind, if song { 3 } else { 4 }, "seed {seed}");
            songs += usize::from(song);
            others += usize::from(!song);
        }
        ask(&mut checker, rng, &file, &format!("seed {seed}"));
        let list = Ask::some(rng, [3; 3], 24);
        let answer = checker.mus_accept(&file, 12, 1);
        let answer = answer.and_then(|()| checker.mus_list(&file, list, 1));
        answer.unwrap_or_else(|difference| panic!("seed {seed}: {difference}"));
    }
    if all_seeds() {
        assert!(songs > 800 && others > 500, "{songs} {others}");
        checker.kinds_came(&[3, 4]);
        checker.came(Call::MusAccept, [0, 23, 24, 25, 27, 29, 30]);
    }
}

/// No file that some reader accepts is called another reader's: an accepted SAP file is SAP, an
/// accepted song is MUS.
#[test]
fn kinds_of_accepted_files() {
    let mut file = Vec::new();
    let mut kinds = [0; 5];
    for seed in seeds(4_000) {
        let rng = &mut Rng::new(seed);
        match seed % 3 {
            0 => song_like_sap(rng, &mut file),
            1 => sap::valid(rng, 300, &mut file),
            _ => mus::valid(rng, 30, &mut file),
        }
        let kind = turftangle::kind(&file).number();
        if turftangle::sap::read(&file).is_ok() {
            assert_eq!(kind, 4, "seed {seed}");
        } else if turftangle::mus::accept(&file).is_ok() {
            assert_eq!(kind, 3, "seed {seed}");
        }
        kinds[kind as usize] += 1;
    }
    assert!(
        kinds[3] > 1_000 && kinds[4] > 1_000 || !all_seeds(),
        "{kinds:?}"
    );
}

/// A file of more than 4,294,967,295 bytes: offsets past that are given as that. Its blocks are of
/// zeros, which the system keeps no memory for.
#[test]
fn past_32_bits() {
    let front = b"SAP\r\nTYPE D\r\nINIT 2000\r\n\xFF\xFF";
    let (start, end) = (0x02E4_usize, 0xFFFF_usize);
    let whole = 4 + end - start + 1;
    let count = ((1_usize << 32) - front.len()) / whole + 3;
    let mut file = vec![0; front.len() + count * whole];
    file[..front.len()].copy_from_slice(front);
    for number in 0..count {
        let at = front.len() + number * whole;
        file[at..at + 4].copy_from_slice(&[0xE4, 0x02, 0xFF, 0xFF]);
    }
    let mut checker = Checker::new();
    let number = count as u32;
    checker.sap_read(&file).unwrap();
    checker.sap_fields(&file, 21, 1).unwrap();
    checker.kind(&file).unwrap();
    let mut past = 0;
    for number in [0, number - 4, number - 3, number - 2, number - 1, number] {
        checker.sap_block(&file, number, 4, 1).unwrap();
        let block = turftangle::sap::block(&file, number).unwrap();
        let offset = front.len() + 4 + number as usize * whole;
        let due = (number < count as u32).then_some(offset.min(0xFFFF_FFFF));
        assert_eq!(block.map(|block| block.offset), due);
        past += usize::from(due == Some(0xFFFF_FFFF));
    }
    assert_eq!(past, 2);
    let last = file.len() - 1;
    checker.sap_read(&file[..last]).unwrap();
    checker.came_alone(Call::SapRead, [0, 54]);
}
