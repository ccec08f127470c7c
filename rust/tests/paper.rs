//! Document 01's own sums, as numbers: both readers must give them.

mod plain;

use turftangle::mus::{accept, list};
use turftangle::pair::{half_step_of_code, read_code, write_code};

/// Both readers' code of a pair, or the number of its refusal.
fn code(first: u8, second: u8) -> Result<u32, u32> {
    let library = read_code(first, second).map_err(|refusal| refusal.number());
    let plain = plain::code::read(first, second).map_err(|refusal| refusal.number);
    assert_eq!(library, plain, "{first:02X} {second:02X}");
    plain
}

/// Both readers' pair for a code.
fn pair(code: u32) -> Option<u32> {
    let library = write_code(code)
        .ok()
        .map(|p| u32::from(u16::from_be_bytes(p)));
    let plain = plain::code::write(code).ok();
    assert_eq!(library, plain, "{code:08X}");
    plain
}

#[test]
fn starred_pairs() {
    assert_eq!(code(0xF0, 0x94), Ok(0x1042_1F05)); // tied double dotted quarter, F natural 5
    assert_eq!(code(0x20, 0x94), Ok(0x1640_0F05)); // 64th, never dotted
    assert_eq!(code(0x40, 0x94), Ok(0x1640_1F05)); // tied 64th
    assert_eq!(code(0x80, 0x94), Ok(0x1643_0F05)); // triplet 64th
    assert_eq!(code(0xA0, 0x94), Ok(0x1643_0F05));
    assert_eq!(code(0x56, 0xFF), Ok(0x2561_0001)); // P-S -1
    assert_eq!(code(0x56, 0x80), Ok(0x2561_0080)); // P-S -128
    assert_eq!(code(0xA6, 0xA1), Ok(0x2A61_0001)); // TPS -1
    assert_eq!(code(0xA6, 0xB1), Ok(0x2A60_0000)); // TPS 0
    assert_eq!(code(0x2E, 0x53), Ok(0x22E1_0001)); // RTP -1
    assert_eq!(code(0x10, 0xF9), Ok(0x1040_0CF0)); // C flat 0
    assert_eq!(code(0x10, 0x47), Ok(0x1040_0B17)); // B sharp 7
    assert_eq!(code(0x6E, 0xF8), Err(28)); // SCA -8
    assert_eq!(code(0x01, 0x83), Ok(0x3060_0010)); // DEF 16
    assert_eq!(code(0x01, 0x8B), Ok(0x3020_0010)); // CAL 16
    assert_eq!(code(0x01, 0x53), Err(27)); // 3-0 is never NO
    assert_eq!(code(0x06, 0x00), Ok(0x2060_0100)); // TEM 256
    assert_eq!(code(0x01, 0x9B), Ok(0x3020_0011)); // CAL 17
    assert_eq!(code(0x01, 0xDF), Ok(0x38F0_0002)); // DST 2
    assert_eq!(code(0x00, 0x08), Ok(0x1AB0_0000)); // absolute pitch, rest
    assert_eq!(code(0x1A, 0x00), Ok(0x20A1_0800)); // DTN -2,048
    assert_eq!(code(0xFE, 0x38), Ok(0x23E1_00C8)); // JIF raw 824, -200
    assert_eq!(code(0xFE, 0x37), Err(28)); // JIF raw 823
    assert_eq!(code(0xBE, 0xF6), Err(28)); // JIF raw 758
}

/// Where several pairs mean one thing.
#[test]
fn preferred_pairs() {
    assert_eq!(pair(0x1640_1F05), Some(0x6094)); // 64th with bit 5 set
    assert_eq!(pair(0x1643_0F05), Some(0xA094));
    assert_eq!(pair(0x1D20_0F05), Some(0x2494)); // utility voice with bit 7 clear
    assert_eq!(pair(0x1040_0000), Some(0x1000)); // rest 00
    assert_eq!(pair(0x2A60_0000), Some(0xA60E)); // TPS zero 0E
    assert_eq!(pair(0x22E0_0000), Some(0x2E5B)); // RTP zero 5B
    assert_eq!(pair(0x22E1_000D), Some(0x2E54)); // RTP -13: one octave and one half-step down
    assert_eq!(pair(0x22E0_000D), Some(0x2E62)); // RTP 13
    assert_eq!(pair(0x1641_0F05), None); // a dotted 64th
    assert_eq!(pair(0x2A61_0000), None); // a zero below zero
}

/// Both readers' half-step and one of a code, or the number of its refusal.
fn half_step(code: u32) -> Result<u32, u32> {
    let library = half_step_of_code(code).map(|half_step| (half_step + 1) as u32);
    let library = library.map_err(|refusal| refusal.number());
    let plain = plain::code::half_step(code).map_err(|refusal| refusal.number);
    assert_eq!(library, plain, "{code:08X}");
    plain
}

#[test]
fn half_steps() {
    assert_eq!(half_step(0x1640_0CF0), Ok(0)); // C flat 0: -1
    assert_eq!(half_step(0x1640_0B17), Ok(97)); // B sharp 7: 96
    assert_eq!(half_step(0x1042_1F05), Ok(66)); // F natural 5: 65
    assert_eq!(half_step(0x1040_0C00), Ok(1)); // C natural 0: 0
    assert_eq!(half_step(0x1040_0624), Ok(58)); // G double sharp 4: 48 + 7 + 2
    assert_eq!(half_step(0x1040_0EE4), Ok(51)); // E double flat 4: 48 + 4 - 2
    assert_eq!(half_step(0x1AB0_0C04), Ok(49)); // absolute pitch, C natural 4: 48
    assert_eq!(half_step(0x1AB0_1C04), Err(43)); // absolute pitch is never tied
    assert_eq!(half_step(0x1641_0F05), Err(43)); // a dotted 64th
    assert_eq!(half_step(0x1040_0CE4), Err(43)); // C has no double flat
    assert_eq!(half_step(0x1040_0C08), Err(43)); // octave 8
    assert_eq!(half_step(0x1040_0000), Err(43)); // a rest
    assert_eq!(half_step(0x1AB0_0000), Err(43)); // a rest of absolute pitch
    assert_eq!(half_step(0x2561_0001), Err(43)); // P-S -1
    assert_eq!(half_step(0x34F0_0000), Err(43)); // HLT
    assert_eq!(half_step(0), Err(43));
    assert_eq!(half_step(u32::MAX), Err(43));
}

const SONG: [u8; 28] = [
    0x00, 0x09, 0x0A, 0x00, 0x02, 0x00, 0x02, 0x00, 0x06, 0x78, 0x36, 0x03, 0x20, 0x94, 0x01, 0x0F,
    0x01, 0x4F, 0x01, 0x4F, 0x01, 0x4F, 0x0D, 0x0D, 0x0D, 0x0D, 0x0D, 0x00,
];

/// Both readers' events of a voice, at most 20.
fn events(file: &[u8], voice: u32) -> Vec<(u32, u32)> {
    let listed = |library: bool| {
        let (mut offsets, mut jiffies) = ([0; 20], [0; 20]);
        let count = if library {
            list(file, voice, 0, &mut offsets, &mut jiffies).ok()
        } else {
            plain::mus::list(file, voice, 0, &mut offsets, &mut jiffies).ok()
        };
        let cells = offsets.into_iter().zip(jiffies);
        cells.take(count.expect("accepted")).collect::<Vec<_>>()
    };
    assert_eq!(listed(true), listed(false));
    listed(false)
}

#[test]
fn the_listing() {
    assert_eq!(
        events(&SONG, 1),
        [(8, 0), (12, 0), (12, 1), (12, 3), (16, 5)]
    );
    assert_eq!(events(&SONG, 2), [(18, 0)]);
    assert_eq!(events(&SONG, 3), [(20, 0)]);
    // TEM, HED 3 over a note 1 + 3 x 2, HLT: 9 pairs walked
    let voices = accept(&SONG).unwrap();
    let counts = voices.map(|v| (v.offset, v.pairs, v.events, v.walked));
    assert_eq!(counts, [(8, 5, 5, 9), (18, 1, 1, 1), (20, 1, 1, 1)]);
}

/// Eight 64ths at t = 120 take 15 jiffies, not 8.
#[test]
fn fractions_are_kept() {
    let mut file = vec![0, 0, 18, 0, 2, 0, 2, 0];
    file.extend([0x20, 0x94].repeat(8));
    file.extend([0x01, 0x4F].repeat(3));
    file.extend([0x0D, 0x0D, 0x0D, 0x0D, 0x0D, 0x00]);
    let jiffies: Vec<u32> = events(&file, 1).iter().map(|event| event.1).collect();
    assert_eq!(jiffies, [0, 1, 3, 5, 7, 9, 11, 13, 15]);
}

/// An RSID without BASIC: the effective init, by the field and by the load address.
#[test]
fn effective_init() {
    for (init, by_load, number) in [
        (0x07E8, false, 0),
        (0x9FFF, false, 0),
        (0x07E7, false, 12),
        (0xA000, false, 12),
        (0x07E8, true, 0),
        (0x9FFF, true, 0),
        (0xA000, true, 12),
    ] {
        let mut file = vec![0; 0x7C];
        file[..8].copy_from_slice(b"RSID\0\x02\0\x7C");
        file[15] = 1;
        let load: u16 = if by_load { init } else { 0x1000 };
        if !by_load {
            file[10..12].copy_from_slice(&init.to_be_bytes());
        }
        file.extend(load.to_le_bytes());
        file.push(0x60);
        let library = turftangle::sid::read(&file).map_or_else(|refusal| refusal.number(), |()| 0);
        let plain = plain::sid::read(&file).map_or_else(|refusal| refusal.number, |_| 0);
        assert_eq!((library, plain), (number, number), "{init:04X} {by_load}");
    }
}

/// Both readers' kind of a file.
fn kind(file: &[u8]) -> u32 {
    let plain = plain::kind(file);
    assert_eq!(turftangle::kind(file).number(), plain, "{file:02X?}");
    plain
}

/// A number and a place, where a file is refused.
fn refused(file: &[u8]) -> (u32, u32) {
    let library = accept(file).expect_err("refused");
    let plain = plain::mus::accept(file).err().expect("refused");
    assert_eq!(
        (library.number(), library.place),
        (plain.number, plain.place as usize)
    );
    (plain.number, plain.place)
}

/// The song with some bytes of it changed.
fn changed(at: usize, bytes: &[u8]) -> [u8; 28] {
    let mut file = SONG;
    file[at..at + bytes.len()].copy_from_slice(bytes);
    file
}

/// A file that begins like a tune is one, whatever else is wrong with it.
#[test]
fn kinds_of_tunes() {
    assert_eq!(kind(b"PSID"), 1);
    assert_eq!(kind(b"RSID"), 2);
    assert_eq!(kind(b"PSIDPSID"), 1);
    // long enough, with version 0: refused 3
    for (magic, number) in [(b"PSID", 1), (b"RSID", 2)] {
        let mut file = [0; 200];
        file[..4].copy_from_slice(magic);
        let refusal = turftangle::sid::read(&file).unwrap_err();
        assert_eq!((refusal.number(), kind(&file)), (3, number));
        // longer than any song
        assert_eq!(kind(&[&file[..], &[0; 70_000]].concat()), number);
    }
    assert_eq!(kind(b""), 0);
    assert_eq!(kind(b"P"), 0);
    assert_eq!(kind(b"PSI"), 0);
    assert_eq!(kind(b"RSI"), 0);
    assert_eq!(kind(b"psid"), 0);
    assert_eq!(kind(b"SIDP"), 0);
    assert_eq!(kind(b" PSID"), 0);
}

/// Any other file is a song unless 21 to 24 refuse it.
#[test]
fn kinds_of_songs() {
    assert_eq!(kind(&SONG), 3);
    for (file, refusal, number) in [
        (changed(27, &[1]), (25, 0), 3),     // the text does not end with $00
        (changed(12, &[0x05]), (27, 12), 3), // no command begins with 05
        (changed(12, &[0x01, 0x0F]), (30, 14), 3), // TAL where no HED is open any more
        (changed(0, &[0xE7, 0xFF]), (22, 0), 0), // one byte past $FFFF
        (changed(2, &[9]), (23, 0), 0),      // an odd length
        (changed(4, &[0]), (23, 0), 0),      // a voice of no length
        (changed(2, &[18]), (24, 0), 0),     // 8 + 18 + 2 + 2 bytes in a file of 28
    ] {
        assert_eq!((refused(&file), kind(&file)), (refusal, number));
    }
    // the last byte at $FFFF; the voices end where the file ends
    assert_eq!(kind(&changed(0, &[0xE6, 0xFF])), 3);
    assert_eq!(kind(&changed(2, &[16])), 3);
    assert_eq!(refused(&changed(2, &[16])), (25, 0));
    // cut after the voices, in them, and before them
    assert_eq!((refused(&SONG[..22]), kind(&SONG[..22])), ((25, 0), 3));
    assert_eq!((refused(&SONG[..21]), kind(&SONG[..21])), ((24, 0), 0));
    assert_eq!((refused(&SONG[..7]), kind(&SONG[..7])), ((21, 0), 0));
}

/// Both readers' value and list of two cells for a line, or the number of the refusal.
fn line(file: &[u8], number: u32) -> Result<(u32, [u32; 2]), u32> {
    let (mut ours, mut theirs) = ([7; 2], [7; 2]);
    let library = turftangle::mus::line_into(file, number, &mut ours).map(|n| n as u32);
    let plain = plain::mus::line_into(file, number, &mut theirs);
    let library = library.map_err(|refusal| refusal.number());
    let plain = plain.map_err(|refusal| refusal.number);
    assert_eq!((library, ours), (plain, theirs));
    plain.map(|count| (count, theirs))
}

/// Both readers' places of the voices.
fn voices(file: &[u8]) -> Result<[u32; 6], u32> {
    let (mut ours, mut theirs) = ([7; 6], [7; 6]);
    let library = turftangle::mus::voices_into(file, &mut ours).map(|n| n as u32);
    let plain = plain::mus::voices_into(file, &mut theirs);
    let library = library.map_err(|refusal| refusal.number());
    let plain = plain.map_err(|refusal| refusal.number);
    assert_eq!((library, ours), (plain, theirs));
    plain.map(|count| {
        assert_eq!(count, 6);
        theirs
    })
}

/// Both readers' load address.
fn load(file: &[u8]) -> Result<u32, u32> {
    let library = turftangle::mus::load_address(file).map(u32::from);
    let library = library.map_err(|refusal| refusal.number());
    let plain = plain::mus::load(file).map_err(|refusal| refusal.number);
    assert_eq!(library, plain);
    plain
}

/// The song with five lines of 6, 0, 32, 1 and 0 bytes.
#[test]
fn parts_of_a_song() {
    let text = b"A TUNE\r\r0123456789ABCDEF0123456789ABCDEF\rX\r\r\0";
    let file = [&SONG[..22], text].concat();
    assert_eq!(load(&file), Ok(0x0900));
    assert_eq!(voices(&file), Ok([8, 5, 18, 1, 20, 1]));
    assert_eq!(line(&file, 1), Ok((2, [22, 6])));
    assert_eq!(line(&file, 2), Ok((2, [29, 0])));
    assert_eq!(line(&file, 3), Ok((2, [30, 32])));
    assert_eq!(line(&file, 4), Ok((2, [63, 1])));
    assert_eq!(line(&file, 5), Ok((2, [65, 0])));
    assert_eq!(file.len(), 67);
    for number in [0, 6, 257, u32::MAX] {
        assert_eq!(line(&file, number), Ok((0, [7, 7])));
    }
    // two bytes that no command has: the voices still have their places
    let wrong = changed(12, &[0x05]);
    assert_eq!((load(&wrong), line(&wrong, 1)), (Err(27), Err(27)));
    assert_eq!(line(&wrong, 6), Err(27));
    assert_eq!(voices(&wrong), Ok([8, 5, 18, 1, 20, 1]));
    assert_eq!(voices(&changed(2, &[18])), Err(24));
    assert_eq!(voices(&SONG[..22]), Ok([8, 5, 18, 1, 20, 1]));
}
