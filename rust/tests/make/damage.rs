//! Damages files: now and then beyond all sense, mostly so little that a late test finds it.

use super::mus;
use super::rng::Rng;
use std::ops::Range;

/// Numbers on both sides of the papers' limits.
const WORDS: [u16; 26] = [
    0, 1, 2, 3, 0x75, 0x76, 0x7C, 0x7D, 0xFF, 0x100, 0x101, 0x3FF, 0x400, 0x7E7, 0x7E8, 0x7E9,
    0x9FFF, 0xA000, 0xBFFF, 0xC000, 0xCFFF, 0xD000, 0xFFF0, 0xFFFD, 0xFFFE, 0xFFFF,
];

fn a_word(rng: &mut Rng) -> u16 {
    if rng.one_in(4) {
        rng.next() as u16
    } else {
        rng.pick(&WORDS)
    }
}

fn set(file: &mut [u8], at: usize, bytes: &[u8]) {
    if let Some(cells) = file.get_mut(at..at + bytes.len()) {
        cells.copy_from_slice(bytes);
    }
}

/// One bit, one byte, the length: in any file.
pub fn any(rng: &mut Rng, file: &mut Vec<u8>) {
    let at = rng.below(file.len());
    match rng.below(6) {
        0 | 1 if !file.is_empty() => file[at] ^= 1 << rng.below(8),
        2 if !file.is_empty() => file[at] = rng.byte(),
        3 => file.truncate(at),
        4 => file.truncate(file.len().saturating_sub(rng.between(1, 4))),
        _ => (0..rng.between(1, 4)).for_each(|_| file.push(rng.pick(&[0, 0x0D, 0x4F, 0xFF]))),
    }
}

/// The places of the fields of a PSID or RSID header.
const FIELDS: [usize; 14] = [
    4, 6, 8, 10, 12, 14, 16, 18, 20, 0x76, 0x78, 0x7A, 0x7C, 0x7E,
];

/// Something in a PSID or RSID file.
pub fn sid(rng: &mut Rng, file: &mut Vec<u8>) {
    match rng.below(16) {
        0..=3 => {
            let at = rng.pick(&FIELDS);
            set(file, at, &a_word(rng).to_be_bytes());
        }
        4 => set(file, 0, rng.pick(&[b"PSID", b"RSID", b"PSIE", b"QSID"])),
        5 => set(
            file,
            4,
            rng.pick(&[&[0, 1, 0, 0x76], &[0, 2, 0, 0x7C], &[0, 3, 0, 0x7C]]),
        ),
        6 => file.truncate(rng.between(116, 130)),
        // the address in the data, low byte first; the init field
        7 => set(file, 0x7C, &a_word(rng).to_le_bytes()),
        8 => set(file, 10, &a_word(rng).to_be_bytes()),
        9 => set(
            file,
            0x76,
            &[
                rng.pick(&[0, 0, 0, 1, 0x80]),
                rng.byte() & rng.pick(&[0x3E, 0xFF]),
            ],
        ),
        10 => set(file, 14, &(rng.between(0, 258) as u16).to_be_bytes()),
        11 | 12 => near_pages(rng, file),
        13 => past_the_end(rng, file),
        _ => any(rng, file),
    }
}

/// Where the header says that the payload lies: its address and the end of it.
fn payload(file: &[u8]) -> Option<(usize, usize)> {
    let data = if file.get(5) == Some(&1) { 0x76 } else { 0x7C };
    let field = usize::from(*file.get(8)?) << 8 | usize::from(*file.get(9)?);
    if field != 0 {
        return Some((field, field + file.len().checked_sub(data)?));
    }
    let load = usize::from(*file.get(data)?) | usize::from(*file.get(data + 1)?) << 8;
    Some((load, load + file.len() - data - 2))
}

/// Page bytes beside the payload's pages or on the edge of a reserved area.
fn near_pages(rng: &mut Rng, file: &mut [u8]) {
    let (load, end) = payload(file).unwrap_or((0x1000, 0x1100));
    let near = match rng.below(3) {
        0 => load >> 8,
        1 => end >> 8,
        _ => rng.pick(&[
            0x00, 0x03, 0x04, 0x9F, 0xA0, 0xBF, 0xC0, 0xCF, 0xD0, 0xFE, 0xFF,
        ]),
    };
    let start = near.wrapping_sub(rng.below(4)).wrapping_add(2);
    let count = match rng.below(4) {
        0 => near.wrapping_sub(start).wrapping_add(rng.below(3)),
        1 => 256_usize.wrapping_sub(start).wrapping_add(rng.below(2)),
        2 => rng.below(256),
        _ => rng.below(3),
    };
    set(file, 0x78, &[start as u8, count as u8]);
}

/// A load address that puts the payload's end beside 65,536.
fn past_the_end(rng: &mut Rng, file: &mut [u8]) {
    let Some((load, end)) = payload(file) else {
        return;
    };
    let load = (65_536_usize.saturating_sub(end - load) + rng.below(3)) as u16;
    let data = if file.get(5) == Some(&1) { 0x76 } else { 0x7C };
    if file[8] == 0 && file[9] == 0 {
        set(file, data, &load.to_le_bytes());
    } else {
        set(file, 8, &load.to_be_bytes());
    }
}

/// Where the voices and the text lie, if the lengths fit the file.
fn parts(file: &[u8]) -> Option<[Range<usize>; 4]> {
    let mut at = 8;
    let mut ends = [file.len(); 4];
    for (i, end) in ends.iter_mut().take(3).enumerate() {
        let length = u16::from_le_bytes([*file.get(2 + 2 * i)?, *file.get(3 + 2 * i)?]);
        at += usize::from(length);
        *end = at;
    }
    let [a, b, c, d] = ends;
    (c <= d).then_some([8..a, a..b, b..c, c..d])
}

/// Something in a MUS file.
pub fn mus(rng: &mut Rng, file: &mut Vec<u8>) {
    let Some(parts) = parts(file) else {
        return any(rng, file);
    };
    let voice = rng.below(3);
    let pairs = parts[voice].clone();
    let (one, two) = (a_pair(rng, &pairs), a_pair(rng, &pairs));
    match rng.below(20) {
        0..=5 => set(file, one, &a_special(rng)),
        6 | 7 => insert(rng, file, voice, one),
        8 | 9 => remove(file, voice, one),
        10 | 11 => swap(file, one, two),
        12 => set(file, one, &[rng.byte(), rng.byte()]),
        13 => text(rng, file, &parts[3]),
        14 => set(file, 0, &a_word(rng).to_le_bytes()),
        15 => lengths(rng, file),
        _ => any(rng, file),
    }
}

/// The offset of one of the pairs; the first and the last come often.
fn a_pair(rng: &mut Rng, pairs: &Range<usize>) -> usize {
    let count = pairs.len() / 2;
    let number = match rng.below(8) {
        0 => 0,
        1 => count.saturating_sub(1),
        _ => rng.below(count),
    };
    pairs.start + 2 * number
}

/// A pair that makes bodies, or one without a meaning.
fn a_special(rng: &mut Rng) -> [u8; 2] {
    match rng.below(13) {
        0 | 1 => mus::head(rng.pick(&[0, 1, 2, 3, 255])),
        2 | 3 => mus::TAL,
        4 | 5 => mus::define(mus::phrase(rng)),
        6 => mus::END,
        7 | 8 => mus::call(mus::phrase(rng)),
        9 => mus::HLT,
        10 => [0x01, rng.pick(&[0x53, 0x6F, 0x7F, 0x9F, 0xBF, 0xCF, 0xFF])],
        11 => [
            rng.pick(&[0x05, 0x09, 0xFD, 0x8E, 0xAE, 0xCE, 0xEE]),
            rng.byte(),
        ],
        _ => [
            rng.pick(&[0x6E, 0x76, 0xC6, 0xD6, 0xA6, 0x2E, 0xBE, 0xFE]),
            rng.byte(),
        ],
    }
}

/// Adds to the length of a voice.
fn lengthen(file: &mut [u8], voice: usize, by: i16) {
    let at = 2 + 2 * voice;
    let length = u16::from_le_bytes([file[at], file[at + 1]]).wrapping_add(by as u16);
    set(file, at, &length.to_le_bytes());
}

fn insert(rng: &mut Rng, file: &mut Vec<u8>, voice: usize, at: usize) {
    let pair = if rng.one_in(4) {
        mus::event(rng)
    } else {
        a_special(rng)
    };
    file.splice(at..at, pair);
    lengthen(file, voice, 2);
}

fn remove(file: &mut Vec<u8>, voice: usize, at: usize) {
    if at + 2 <= file.len() {
        file.drain(at..at + 2);
        lengthen(file, voice, -2);
    }
}

fn swap(file: &mut [u8], one: usize, two: usize) {
    if one.max(two) + 1 < file.len() {
        file.swap(one, two);
        file.swap(one + 1, two + 1);
    }
}

/// Something in the text: a byte more, a byte less, another byte, a long line.
fn text(rng: &mut Rng, file: &mut Vec<u8>, text: &Range<usize>) {
    let at = text.start + rng.below(text.len());
    match rng.below(5) {
        0 => file.insert(at, rng.pick(&[0, 0x0D, b'x'])),
        1 if at < file.len() => drop(file.remove(at)),
        2 => set(file, at, &[rng.pick(&[0, 0x0D, b'x'])]),
        3 => drop(file.splice(at..at, [b'x'; 33].into_iter().take(rng.between(30, 33)))),
        _ => file.push(rng.pick(&[0, 0x0D])),
    }
}

/// One of the three lengths, or two of them so that their sum stays.
fn lengths(rng: &mut Rng, file: &mut [u8]) {
    let by = rng.pick(&[-4, -2, -1, 1, 2, 4, 256]);
    let voice = rng.below(3);
    lengthen(file, voice, by);
    if rng.one_in(2) {
        lengthen(file, (voice + 1) % 3, -by);
    }
}
