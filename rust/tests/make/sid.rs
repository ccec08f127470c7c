//! PSID and RSID files that document 01 accepts.

use super::rng::Rng;

#[derive(Clone, Copy, PartialEq)]
enum Kind {
    Psid1,
    Psid2,
    Rsid,
    Basic,
}

/// Makes an accepted file with a payload of up to `most` bytes.
pub fn valid(rng: &mut Rng, most: usize, file: &mut Vec<u8>) {
    let kind = rng.pick(&[Kind::Psid1, Kind::Psid2, Kind::Rsid, Kind::Basic]);
    let rsid = kind == Kind::Rsid || kind == Kind::Basic;
    let length = rng.between(1, most);
    let load = load_address(rng, kind, length);
    let in_data = rsid || load == 0 || rng.one_in(2);
    file.clear();
    file.extend_from_slice(if rsid { b"RSID" } else { b"PSID" });
    word(file, if kind == Kind::Psid1 { 1 } else { 2 });
    word(file, if kind == Kind::Psid1 { 0x76 } else { 0x7C });
    word(file, if in_data { 0 } else { load });
    word(file, init_field(rng, kind, load));
    word(file, if rsid { 0 } else { rng.next() as usize });
    let most_songs = rng.pick(&[1, 31, 32, 33, 255, 256]);
    let songs = rng.between(1, most_songs);
    word(file, songs);
    word(file, rng.below(songs + 1));
    for _ in 0..2 {
        word(file, if rsid { 0 } else { rng.next() as usize });
    }
    for _ in 0..3 {
        text(rng, file);
    }
    if kind != Kind::Psid1 {
        flags_and_pages(rng, kind, load, length, file);
    }
    if in_data {
        file.extend_from_slice(&(load as u16).to_le_bytes());
    }
    payload(rng, length, file);
}

fn word(file: &mut Vec<u8>, n: usize) {
    file.extend_from_slice(&(n as u16).to_be_bytes());
}

/// A place where the payload fits, often on an edge.
fn load_address(rng: &mut Rng, kind: Kind, length: usize) -> usize {
    let last = 65_536 - length;
    let least = match kind {
        Kind::Psid1 | Kind::Psid2 => 0,
        Kind::Rsid | Kind::Basic => 0x07E8.min(last),
    };
    match rng.below(6) {
        0 => least,
        1 => last.min(65_535),
        2 => 0x1000.clamp(least, last),
        _ => rng.between(least, last.min(65_535)),
    }
}

/// An init field that is allowed for the kind; 0 where the load address may be the init.
fn init_field(rng: &mut Rng, kind: Kind, load: usize) -> usize {
    match kind {
        Kind::Basic => 0,
        Kind::Psid1 | Kind::Psid2 => rng.pick(&[0, 0x1000, 0xA000, 0xFFFF]),
        Kind::Rsid if (load < 0xA000 || load / 0x1000 == 0xC) && rng.one_in(2) => 0,
        Kind::Rsid if rng.one_in(3) => rng.pick(&[0x07E8, 0x9FFF, 0xC000, 0xCFFF]),
        Kind::Rsid if rng.one_in(2) => rng.between(0x07E8, 0x9FFF),
        Kind::Rsid => rng.between(0xC000, 0xCFFF),
    }
}

/// 32 bytes: some text, mostly closed by a zero.
fn text(rng: &mut Rng, file: &mut Vec<u8>) {
    let length = rng.below(33);
    let end = file.len() + 32;
    for _ in 0..length {
        file.push(rng.byte() | 1);
    }
    while file.len() < end {
        let rest = if rng.one_in(8) { rng.byte() } else { 0 };
        file.push(rest);
    }
}

fn flags_and_pages(rng: &mut Rng, kind: Kind, load: usize, length: usize, file: &mut Vec<u8>) {
    let bit_1 = match kind {
        Kind::Basic => 2,
        Kind::Rsid => 0,
        _ => rng.pick(&[0, 2]),
    };
    word(file, rng.below(16) << 2 | bit_1);
    let (start, count) = pages(rng, kind, load, length);
    file.extend_from_slice(&[start as u8, count as u8]);
    word(file, 0);
}

/// Pages that are free; where a few tries find none, start page 0, which states nothing.
fn pages(rng: &mut Rng, kind: Kind, load: usize, length: usize) -> (usize, usize) {
    if rng.one_in(3) {
        return (rng.pick(&[0, 0xFF]), 0);
    }
    let (first, last) = (load >> 8, (load + length - 1) >> 8);
    for _ in 0..8 {
        let start = match rng.below(4) {
            0 => last + 1,
            1 => rng.pick(&[0x04, 0x9F, 0xC0, 0xCF]),
            _ => rng.between(1, 0xFE),
        };
        let room = match kind {
            Kind::Rsid | Kind::Basic => match start {
                0x04..=0x9F => 0xA0 - start,
                0xC0..=0xCF => 0xD0 - start,
                _ => 0,
            },
            _ => 256_usize.saturating_sub(start),
        };
        let room = if start <= first {
            room.min(first - start)
        } else {
            room
        };
        if room > 0 && start < 0xFF && (start > last || start < first) {
            return (
                start,
                if rng.one_in(3) {
                    room
                } else {
                    rng.between(1, room)
                },
            );
        }
    }
    (0, 0)
}

fn payload(rng: &mut Rng, length: usize, file: &mut Vec<u8>) {
    let end = file.len() + length;
    while file.len() < end {
        file.extend_from_slice(&rng.next().to_le_bytes());
    }
    file.truncate(end);
}
