//! Damages SAP files: mostly one rule's boundary at a time, so that a late test finds it.

use super::damage;
use super::rng::Rng;
use super::sap::{block, good_line, line, text, Parts, BARE, MARK, TAGS};

/// Something in a SAP file.
pub fn damage(rng: &mut Rng, file: &mut Vec<u8>) {
    let Some(mut parts) = Parts::of(file) else {
        return damage::any(rng, file);
    };
    match rng.below(32) {
        0 | 1 => return first_line(rng, file),
        2 => return damage::any(rng, file),
        3 => return line_end(rng, file),
        4..=9 => other_argument(rng, &mut parts),
        10..=13 => one_letter(rng, &mut parts),
        14..=16 => whole_line(rng, &mut parts),
        17 | 18 => numbers_of_songs(rng, &mut parts),
        19 | 20 => other_type(rng, &mut parts),
        21..=23 => addresses(rng, &mut parts),
        24..=27 => ends(rng, &mut parts.data),
        _ => between(rng, &mut parts),
    }
    parts.write(file);
}

/// The first five bytes.
fn first_line(rng: &mut Rng, file: &mut Vec<u8>) {
    match rng.below(4) {
        0 => file.truncate(rng.below(6)),
        1 => drop(file.remove(rng.below(5))),
        2 => file.insert(rng.below(5), rng.pick(b" SAP\r\n")),
        _ => file[rng.below(5)] = rng.pick(b"sapSAP \r\n\xFF"),
    }
}

/// The end of some line: one byte less, another order, an empty line.
fn line_end(rng: &mut Rng, file: &mut Vec<u8>) {
    let ends: Vec<usize> = (5..file.len())
        .filter(|&at| file[at..].starts_with(b"\r\n"))
        .collect();
    if ends.is_empty() {
        return;
    }
    let at = rng.pick(&ends);
    let others: [&[u8]; 8] = [
        b"\n",
        b"\r",
        b"",
        b"\n\r",
        b"\r\r\n",
        b"\r\n\r\n",
        b" \r\n",
        b"\r\n\xFF\xFF",
    ];
    file.splice(at..at + 2, rng.pick(&others).iter().copied());
}

/// Arguments on both sides of a tag's rule, with a semicolon between each two.
fn arguments(tag: &str) -> &'static str {
    match tag {
        "SONGS" => {
            "0;1;2;3;9;10;31;32;33;01;00;;1 ; 1;1x;x;-1;+1;032;257;4294967297;18446744073709551617"
        }
        "DEFSONG" => {
            "0;1;2;9;10;31;32;33;00;01;;0 ; 0;-0;1x;256;4294967296;18446744073709551616;0x0;\
             99999999999999999999999999999999;000000000000000000000"
        }
        "FASTPLAY" => {
            "0;1;9;10;312;32766;32767;32768;65537;032767;00;;312 ;x;99999;4294967297;4294967296;\
             18446744073709551928"
        }
        "TYPE" => "B;C;D;S;R;R;b;A;E;Q;T;BB;RS;;B ; B;\"B\"",
        "INIT" | "MUSIC" | "PLAYER" => {
            "0000;FFFF;09AF;0f80;F80;00F80;;0F8G;0F8/;0F8:;0F8@;$F80; F80;F80 ;0x80;-001;FFFFF"
        }
        "COVOX" => "D600;D601;d600;D700;0600;D60;D6000;;D600 ;D500;C600",
        "TIME" => {
            "0:00;00:00;9:99;99:99.999;99:99.999 LOOP;0:60;1:2;000:00;0:0;0:000;0:00.;0:00.0000;\
             0:00.1;0:00.01;0:00.001;0:00.9 LOOP;0:00LOOP;0:00  LOOP;0:00 LOOP ;0:00 loop;0:00 LOO;\
             0:00 LOOPS;:00;0.00;0:00:00;0:00,5;a:00;0:0a;0:a0;0:00.a;0:00.0a;0:00. LOOP;;/0:00;\
             :0:00; LOOP;0:00 LOOP LOOP;-1:00;0:-1;0:00.-1"
        }
        _ => "; ;1",
    }
}

/// A text on both sides of its rule: its length, its quotes, its characters.
fn odd_text(rng: &mut Rng) -> Vec<u8> {
    let length = rng.pick(&[0, 1, 5, 118, 119, 120, 121, 122, 255, 256]);
    let mut bytes = text(rng, length);
    let at = rng.below(bytes.len());
    match rng.below(8) {
        0 => drop(bytes.remove(0)),
        1 => drop(bytes.pop()),
        2 => bytes.insert(at, b'"'),
        3 => bytes.push(b' '),
        4 => bytes.insert(0, b' '),
        5 => bytes[at] = rng.pick(b"`{}~\x7F\x80\x1F\x00\t\xFF\"z|_^a \n\r\xE9"),
        _ => {}
    }
    bytes
}

/// Gives one line another argument.
fn other_argument(rng: &mut Rng, parts: &mut Parts) {
    let tag = match rng.below(8) {
        0 => rng.pick(&BARE),
        _ => rng.pick(&TAGS),
    };
    let new = match tag {
        "AUTHOR" | "NAME" | "DATE" => [tag.as_bytes(), b" ", &odd_text(rng)].concat(),
        _ => {
            let all: Vec<&str> = arguments(tag).split(';').collect();
            line(tag, rng.pick(&all))
        }
    };
    let places = parts.tagged(tag);
    if places.is_empty() || rng.one_in(12) {
        let at = rng.below(parts.lines.len() + 1);
        parts.lines.insert(at, new);
    } else {
        parts.lines[rng.pick(&places)] = new;
    }
}

/// One letter of a line more, less or another; often in the tag or at an end.
fn one_letter(rng: &mut Rng, parts: &mut Parts) {
    if parts.lines.is_empty() {
        return;
    }
    let number = rng.below(parts.lines.len());
    let line = &mut parts.lines[number];
    let tag = line.iter().position(|&b| b == b' ').unwrap_or(line.len());
    let at = match rng.below(4) {
        0 => 0,
        1 => line.len().saturating_sub(1),
        2 => rng.below(tag + 1),
        _ => rng.below(line.len()),
    };
    let letter = match rng.below(3) {
        0 => rng.pick(b" \"09AFafz:.|_~\x00\r\n\xFF"),
        1 => rng.byte(),
        _ => line.get(at).map_or(b' ', |b| b ^ 0x20),
    };
    match rng.below(4) {
        0 => line.insert(at, letter),
        1 if at < line.len() => drop(line.remove(at)),
        2 if tag < line.len() => line.insert(tag, b' '),
        _ if at < line.len() => line[at] = letter,
        _ => line.push(letter),
    }
}

/// A line that is left out, stands twice, is exchanged or is added.
fn whole_line(rng: &mut Rng, parts: &mut Parts) {
    let count = parts.lines.len();
    let (one, two) = (rng.below(count), rng.below(count));
    let all: Vec<&str> = TAGS.iter().chain(&BARE).copied().collect();
    let tag = rng.pick(&all);
    match rng.below(6) {
        0 | 1 if count > 0 => drop(parts.lines.remove(one)),
        2 if count > 0 => parts.lines.insert(two, parts.lines[one].clone()),
        3 if count > 0 => parts.lines.swap(one, two),
        4 => parts.lines.insert(one, Vec::new()),
        _ => {
            let line = good_line(rng, tag);
            parts.lines.insert(two, line);
        }
    }
}

/// SONGS, DEFSONG and the TIMEs beside each other.
fn numbers_of_songs(rng: &mut Rng, parts: &mut Parts) {
    let (songs, times) = (parts.songs(), parts.tagged("TIME").len());
    let near = |number: usize, rng: &mut Rng| (number + rng.below(3)).saturating_sub(1);
    match rng.below(3) {
        0 => {
            let song = near(songs, rng);
            set(rng, parts, "DEFSONG", song);
        }
        1 => {
            let songs = near(times, rng);
            set(rng, parts, "SONGS", songs);
        }
        _ => {
            for _ in times..near(songs, rng) {
                let (line, at) = (good_line(rng, "TIME"), rng.below(parts.lines.len() + 1));
                parts.lines.insert(at, line);
            }
        }
    }
}

/// Puts the number into the tag's line, or into one more.
fn set(rng: &mut Rng, parts: &mut Parts, tag: &str, number: usize) {
    let new = line(tag, &number.to_string());
    match parts.tagged(tag).first() {
        Some(&at) => parts.lines[at] = new,
        None => {
            let at = rng.below(parts.lines.len() + 1);
            parts.lines.insert(at, new);
        }
    }
}

/// Another type, with the tags of the old one; or one of its tags more or less.
fn other_type(rng: &mut Rng, parts: &mut Parts) {
    let tag = rng.pick(&["INIT", "MUSIC", "PLAYER"]);
    let places = parts.tagged(tag);
    match rng.below(3) {
        0 => match parts.tagged("TYPE").first() {
            Some(&at) => parts.lines[at] = line("TYPE", rng.pick(&["B", "C", "D", "S", "R"])),
            None => parts.lines.push(b"TYPE D".to_vec()),
        },
        1 if !places.is_empty() => drop(parts.lines.remove(places[0])),
        _ => {
            let (line, at) = (good_line(rng, tag), rng.below(parts.lines.len() + 1));
            parts.lines.insert(at, line);
        }
    }
}

/// The addresses of some block, its data as it was.
fn addresses(rng: &mut Rng, parts: &mut Parts) {
    let places = parts.blocks();
    let Some(&at) = places.get(rng.below(places.len())) else {
        return;
    };
    let cell = |at: usize| u16::from_le_bytes([parts.data[at], parts.data[at + 1]]);
    let (start, end) = (cell(at), cell(at + 2));
    let length = end.wrapping_sub(start);
    let (start, end) = match rng.below(6) {
        // the end before the start
        0 => (start, start.wrapping_sub(1)),
        1 => (end.wrapping_add(1), end),
        // one byte more or less
        2 => (start, end.wrapping_add(rng.pick(&[1, 0xFFFF]))),
        // as long, beside 02E0 to 02E3 or at the end of memory
        3 => {
            let end = rng.between(0x02DE, 0x02E5) as u16;
            (end.wrapping_sub(length), end)
        }
        4 => {
            let start = rng.between(0x02DE, 0x02E5) as u16;
            (start, start.wrapping_add(length))
        }
        _ => {
            let end: u16 = rng.pick(&[0xFFFF, 0xFFFE, 0, 1]);
            (end.wrapping_sub(length), end)
        }
    };
    parts.data[at..at + 2].copy_from_slice(&start.to_le_bytes());
    parts.data[at + 2..at + 4].copy_from_slice(&end.to_le_bytes());
}

/// The data's end, or all of it.
fn ends(rng: &mut Rng, data: &mut Vec<u8>) {
    match rng.below(9) {
        0 | 1 => data.truncate(data.len() - rng.between(1, 5).min(data.len() - 2)),
        2 => data.truncate(rng.between(2, data.len())),
        // marks alone
        3 => {
            data.clear();
            (0..rng.between(1, 3)).for_each(|_| data.extend(MARK));
        }
        4 => data.extend(MARK),
        5 => data.push(0xFF),
        // a head that is cut off, or whose data is missing
        6 => data.extend(&[0x00, 0x20, 0x00, 0x20][..rng.between(1, 4)]),
        7 => data.extend([0x00, 0x20, 0x02, 0x20, 1, 2]),
        _ => data.extend((0..rng.between(1, 6)).map(|_| rng.pick(&[0, 0x02, 0xE0, 0xFF]))),
    }
}

/// A block, a mark or half of one before some block or at the end.
fn between(rng: &mut Rng, parts: &mut Parts) {
    let mut places = parts.blocks();
    places.push(parts.data.len());
    let at = rng.pick(&places);
    let mut new = Vec::new();
    match rng.below(6) {
        0 => (0..rng.between(1, 3)).for_each(|_| new.extend(MARK)),
        1 => new.push(0xFF),
        // the end before the start, with the data of a length that is taken from 65,536
        2 if rng.one_in(16) => {
            let start = rng.between(0x0400, 0xFFFE);
            let end = start - rng.between(1, 0x0400);
            new.extend((start as u16).to_le_bytes());
            new.extend((end as u16).to_le_bytes());
            new.extend(vec![0x60; 65_536 + end - start + 1]);
        }
        // both ends near the addresses that no block may touch
        _ => {
            let start = rng.between(0x02D8, 0x02E8);
            let end = rng.between(start, 0x02EC);
            block(rng, start, end, &mut new);
        }
    }
    parts.data.splice(at..at, new);
}
