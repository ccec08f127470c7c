//! SAP files worked out by hand from source document 002 and document 02 (i): both readers must give
//! what stands here. A test for each reading that is easy to miss.

mod plain;

use turftangle::sap;

/// Source 002's example, its two blocks after it.
const INSIDE: &[u8] = include_bytes!("data/inside.sap");

/// The same, line by line, as the paper prints it.
const LINES: [&str; 11] = [
    "SAP",
    "AUTHOR \"Jakub Husak\"",
    "NAME \"Inside\"",
    "DATE \"1990\"",
    "SONGS 3",
    "TYPE B",
    "INIT 0F80",
    "PLAYER 247F",
    "TIME 06:37.62",
    "TIME 02:34.02 LOOP",
    "TIME 00:15.40 LOOP",
];
const BLOCKS: [u8; 15] = [
    0xFF, 0xFF, 0x00, 0x06, 0x01, 0x06, 0xAB, 0xCD, 0x25, 0x20, 0x27, 0x20, 0x01, 0x42, 0xA3,
];

/// The tags that each type needs.
const B: [&str; 3] = ["TYPE B", "INIT 0F80", "PLAYER 247F"];
const C: [&str; 3] = ["TYPE C", "MUSIC 4000", "PLAYER 247F"];
const D: [&str; 2] = ["TYPE D", "INIT 0F80"];
const S: [&str; 2] = ["TYPE S", "INIT 0F80"];
/// A block of one byte for $2000.
const BLOCK: [u8; 5] = [0x00, 0x20, 0x00, 0x20, 0x60];

/// A file of these lines, the first too, and these bytes after them.
fn file(lines: &[&str], data: &[u8]) -> Vec<u8> {
    let mut file = Vec::new();
    for line in lines {
        file.extend(line.bytes().chain(*b"\r\n"));
    }
    file.extend(data);
    file
}

/// A file of the first line, the lines of a type, these lines and one block.
fn with(kind: &[&str], lines: &[&str]) -> Vec<u8> {
    let data = [&[0xFF, 0xFF], &BLOCK[..]].concat();
    file(&[&["SAP"], kind, lines].concat(), &data)
}

/// A file of type D with this data after the first FF FF.
fn data(after: &[u8]) -> Vec<u8> {
    file(&["SAP", D[0], D[1]], &[&[0xFF, 0xFF], after].concat())
}

/// A block with all its data.
fn block(start: u16, end: u16) -> Vec<u8> {
    let head = [start.to_le_bytes(), end.to_le_bytes()].concat();
    let length = usize::from(end.wrapping_sub(start)) + 1; // also where the end is before the start
    [head, vec![0x60; length]].concat()
}

/// Both readers' fields, or the number of their refusal. All calls refuse alike.
fn fields(file: &[u8]) -> Result<[u32; 21], u32> {
    let (mut ours, mut theirs) = ([7; 21], [7; 21]);
    let library = sap::fields_into(file, &mut ours).map_err(|refusal| {
        assert_eq!(refusal.place, 0);
        refusal.number()
    });
    let plain = plain::sap::fields_into(file, &mut theirs).map_err(|refusal| refusal.number);
    assert_eq!(library.map(|count| count as u32), plain);
    assert_eq!(ours, theirs);
    let refused = plain.map(|_| ());
    let number = |refusal: turftangle::Refusal| refusal.number();
    let mut memory = vec![1; 65_536];
    assert_eq!(sap::read(file).map_err(number), refused);
    assert_eq!(sap::load(file, &mut memory).map_err(number), refused);
    assert_eq!(sap::time(file, 0).map(|_| ()).map_err(number), refused);
    assert_eq!(sap::block(file, 0).map(|_| ()).map_err(number), refused);
    assert!(refused.is_ok() || memory.iter().all(|&byte| byte == 1));
    assert_eq!(sap::load(file, &mut memory[1..]).map_err(number), Err(40));
    plain.map(|count| {
        assert_eq!(count, 21);
        ours
    })
}

/// The number of both readers' refusal, 0 where they accept.
fn number(file: &[u8]) -> u32 {
    fields(file).err().unwrap_or(0)
}

/// The same of a file of type B with one line more, for each of these lines. A semicolon stands
/// between each two of them.
fn each(due: u32, lines: &str) {
    for line in lines.split(';') {
        assert_eq!(number(&with(&B, &[line])), due, "{line}");
    }
}

/// Both readers' number for the time of a song, or that of their refusal.
fn time(file: &[u8], song: u32) -> Result<u32, u32> {
    let library = sap::time(file, song).map(|time| time.map_or(u32::MAX, |time| time.number()));
    let library = library.map_err(|refusal| refusal.number());
    let plain = plain::sap::time(file, song).map_err(|refusal| refusal.number);
    assert_eq!(library, plain);
    plain
}

/// Both readers' start, end and offset of a block; None where there is none.
fn block_at(file: &[u8], number: u32) -> Option<[u32; 3]> {
    let (mut ours, mut theirs) = ([7; 3], [7; 3]);
    let library = sap::block_into(file, number, &mut ours).expect("accepted");
    let plain = plain::sap::block_into(file, number, &mut theirs).expect("accepted");
    assert_eq!((library as u32, ours), (plain, theirs));
    assert!(plain == 3 || plain == 0 && ours == [7; 3]);
    (plain == 3).then_some(ours)
}

/// Both readers' memory after the load, of one that held $A5.
fn memory(file: &[u8]) -> Vec<u8> {
    let (mut ours, mut theirs) = (vec![0xA5; 65_536], vec![0xA5; 65_536]);
    sap::load(file, &mut ours).expect("accepted");
    plain::sap::load(file, &mut theirs).expect("accepted");
    assert!(ours == theirs);
    ours
}

/// What the paper says of its example. The text's lines have 5, 22, 15, 13, 9, 8, 11, 13, 15, 20 and
/// 20 bytes: 151.
#[test]
fn the_example() {
    assert_eq!(file(&LINES, &BLOCKS), INSIDE);
    let (author, name, date) = ([13, 11], [33, 6], [48, 4]);
    let front = [66, 3, 0, 0, 0, 0, 312, 0, 0x0F80, 0, 0x247F, 1];
    let due = [&front[..], &author, &name, &date, &[3, 2, 151]].concat();
    assert_eq!(fields(INSIDE).map(|cells| cells.to_vec()), Ok(due));
    assert_eq!(INSIDE[13..24], *b"Jakub Husak");
    assert_eq!(INSIDE[33..39], *b"Inside");
    assert_eq!(INSIDE[48..52], *b"1990");
    assert_eq!(time(INSIDE, 0), Ok(2 * 397_620));
    assert_eq!(time(INSIDE, 1), Ok(2 * 154_020 + 1));
    assert_eq!(time(INSIDE, 2), Ok(2 * 15_400 + 1));
    assert_eq!(time(INSIDE, 3), Err(44));
    assert_eq!(time(INSIDE, u32::MAX), Err(44));
    assert_eq!(block_at(INSIDE, 0), Some([1_536, 1_537, 157]));
    assert_eq!(block_at(INSIDE, 1), Some([8_229, 8_231, 163]));
    assert_eq!(block_at(INSIDE, 2), None);
    assert_eq!(block_at(INSIDE, u32::MAX), None);
    let mut due = vec![0xA5; 65_536];
    due[0x0600..0x0602].copy_from_slice(&[0xAB, 0xCD]);
    due[0x2025..0x2028].copy_from_slice(&[0x01, 0x42, 0xA3]);
    assert!(memory(INSIDE) == due);
    assert_eq!(turftangle::kind(INSIDE).number(), 4);
}

/// The same with its first TIME alone, so with 40 bytes less: two songs have no time.
#[test]
fn the_example_with_one_time() {
    let file = file(&LINES[..9], &BLOCKS);
    let cells = fields(&file).expect("accepted");
    assert_eq!((cells[1], cells[18..].to_vec()), (3, vec![1, 2, 111]));
    assert_eq!(time(&file, 0), Ok(2 * 397_620));
    assert_eq!([1, 2].map(|song| time(&file, song)), [Ok(u32::MAX); 2]);
    assert_eq!(time(&file, 3), Err(44));
    assert_eq!(block_at(&file, 0), Some([1_536, 1_537, 117]));
    assert_eq!(block_at(&file, 1), Some([8_229, 8_231, 123]));
}

/// The paper's examples of texts.
#[test]
fn texts_of_the_paper() {
    for text in [
        "Dariusz Duma (Dhor)",
        "Lukasz Sychowicz (X-Ray) & Piotr Swierszcz (Samurai)",
        "<?> (Trzcinowy Zakapior)",
        "Bill Williams <?>",
        "Jocky Wilson's Darts Challenge",
        "<?>",
        "1986",
        "1993-1994",
        "28/08/1997",
        "12/2001",
        "23-26/07/2010",
        "199?",
        "",
    ] {
        for (tag, cell) in [("AUTHOR", 12), ("NAME", 14), ("DATE", 16)] {
            let file = with(&B, &[&format!("{tag} \"{text}\"")]);
            let cells = fields(&file).expect(text);
            let offset = 5 + 8 + 11 + 13 + tag.len() as u32 + 2;
            assert_eq!(cells[cell..cell + 2], [offset, text.len() as u32]);
            let end = offset as usize + text.len();
            assert_eq!(file[offset as usize..end], *text.as_bytes());
            let others = (12..18).filter(|at| *at / 2 != cell / 2);
            assert!(others.into_iter().all(|at| cells[at] == 0));
        }
    }
}

/// 51: the first five bytes, whatever the file's length.
#[test]
fn first_line() {
    let good = with(&B, &[]);
    for length in 0..5 {
        assert_eq!(number(&good[..length]), 51);
    }
    assert_eq!(number(&good[..5]), 52);
    for at in 0..5 {
        for byte in b"sapSAP\r\n \xFF".iter().filter(|&&byte| byte != good[at]) {
            let mut file = good.clone();
            file[at] = *byte;
            assert_eq!(number(&file), 51);
        }
    }
    assert_eq!(number(&[b"SAP ", &good[3..]].concat()), 51);
    assert_eq!(number(&[b" ", &good[..]].concat()), 51);
    assert_eq!(number(&[b"\xEF\xBB\xBF", &good[..]].concat()), 51);
    assert_eq!(number(&vec![0; 70_000]), 51);
}

/// 52 before 53 before 54, over the whole header.
#[test]
fn order_of_the_refusals() {
    let bad = [0xFF, 0xFF, 0x00];
    assert_eq!(number(&file(&["SAP", "NAME \"x\"", "BAD 1"], &bad)), 52);
    assert_eq!(number(&file(&["SAP", "BAD 1", "NAME \"x\""], &bad)), 52);
    assert_eq!(number(&file(&["SAP", "NAME \"x\""], &bad)), 53);
    assert_eq!(number(&file(&["SAP", "TYPE R", "SONGS 33"], &bad)), 52);
    assert_eq!(number(&file(&["SAP", "TYPE R", "DEFSONG 5"], &bad)), 53);
    assert_eq!(number(&file(&["SAP", D[0], D[1]], &bad)), 54);
    assert_eq!(number(&file(&["SAP"], &[0xFF, 0xFF])), 53);
    assert_eq!(number(&file(&["sap"], &[0xFF, 0xFF])), 51);
}

/// 52: no FF FF at a line's start, a line without its CR LF, an empty line.
#[test]
fn line_ends() {
    let lines = ["SAP", D[0], D[1]];
    let after = |between: &[u8]| number(&file(&lines, &[between, &BLOCKS[..]].concat()));
    for rest in [&b""[..], b"\xFF", b"\xFF\x00\x20", b"\x00", b"TYPE"] {
        assert_eq!(number(&file(&lines, rest)), 52);
    }
    assert_eq!([after(b""), after(b"NTSC\r\n")], [0, 0]);
    assert_eq!(
        [after(b"NTSC"), after(b"NTSC\r"), after(b"NTSC\n")],
        [52; 3]
    );
    assert_eq!([after(b"NTSC\n\r"), after(b"NTSC\r\r\n")], [52; 2]);
    assert_eq!([after(b"NTSC\rx"), after(b"NTSC\rxTEREO\r\n")], [52; 2]);
    assert_eq!([after(b"\r\n"), after(b"\r\nNTSC\r\n")], [52; 2]);
    assert_eq!(number(&file(&["SAP", "", D[0], D[1]], &BLOCKS)), 52);
    // FF FF, but not at a line's start
    assert_eq!(after(b"NAME \"\xFF\xFF\"\r\n"), 52);
    // the first FF FF ends the text, whatever follows
    let early = [&BLOCKS[..], b"BAD\r\n\xFF\xFF"].concat();
    assert_eq!(number(&file(&lines, &early)), 54);
}

/// One space parts tag and argument; STEREO and NTSC take none; every other tag needs one.
#[test]
fn spaces() {
    each(0, "STEREO;NTSC;SONGS 2");
    each(52, "STEREO ;NTSC ;STEREO 1; STEREO;STEREO\t;NTSC D600");
    each(
        52,
        "SONGS  2;SONGS2;SONGS\t2;SONGS 2 ; SONGS 2;SONGS ;SONGS",
    );
    each(52, "AUTHOR;NAME;DATE;DEFSONG;FASTPLAY;COVOX;TIME");
    each(52, "AUTHOR ;NAME ;DATE ;DEFSONG ;FASTPLAY ;COVOX ;TIME ");
    for lines in [
        "TYPE;INIT 0F80",
        "TYPE D;INIT",
        "TYPE D;INIT 0F80;PLAYER",
        "TYPE C;MUSIC",
    ] {
        let lines: Vec<&str> = lines.split(';').collect();
        assert_eq!(number(&with(&lines, &[])), 52, "{lines:?}");
    }
}

/// Names are capitals, and those of the paper: its heading SONG is a slip.
#[test]
fn names_of_tags() {
    each(
        52,
        "SONG 2;songs 2;SONGSS 2;Songs 2;SAP;BPM 3;STEREO2;STERE;ntsc;PAL;NTSC,STEREO",
    );
}

/// SONGS 1 to 32 and FASTPLAY 1 to 32,767; else the argument is bad, 52.
#[test]
fn ranges() {
    each(0, "SONGS 1;SONGS 32;FASTPLAY 1;FASTPLAY 32767");
    each(52, "SONGS 0;SONGS 33;FASTPLAY 0;FASTPLAY 32768");
    // in 8, 16, 32 or 64 bits they would be 1
    each(
        52,
        "SONGS 257;SONGS 65537;SONGS 4294967297;SONGS 18446744073709551617",
    );
    each(
        52,
        "FASTPLAY 65537;FASTPLAY 4294967297;FASTPLAY 18446744073709551617",
    );
    each(
        52,
        "SONGS 1.5;SONGS -1;SONGS +1;SONGS 0x1;SONGS A;SONGS \"1\"",
    );
}

/// DEFSONG is below SONGS, else 53, however many digits it has.
#[test]
fn default_songs() {
    let with_songs = |songs: u32, song: &str| {
        let (songs, song) = (format!("SONGS {songs}"), format!("DEFSONG {song}"));
        let due = number(&with(&B, &[&songs, &song]));
        assert_eq!(number(&with(&B, &[&song, &songs])), due);
        due
    };
    for songs in 1..=32 {
        let numbers = [songs - 1, songs, songs + 1].map(|n| with_songs(songs, &n.to_string()));
        assert_eq!(numbers, [0, 53, 53], "{songs}");
    }
    // in fewer bits they would be 0
    for song in ["256", "65536", "4294967296", "18446744073709551616"] {
        assert_eq!(with_songs(32, song), 53);
    }
    assert_eq!(
        with_songs(32, "340282366920938463463374607431768211456"),
        53
    );
    assert_eq!(with_songs(32, "-1"), 52);
    each(0, "DEFSONG 0");
    each(53, "DEFSONG 1");
    let cells = fields(&with(&B, &["DEFSONG 30", "SONGS 31"])).expect("accepted");
    assert_eq!(cells[1..3], [31, 30]);
    let long = format!("DEFSONG 1{}", "0".repeat(70_000));
    assert_eq!(number(&with(&B, &[&long])), 53);
    assert_eq!(number(&with(&B, &["SONGS 33", &long])), 52);
}

/// `0` has no leading zero, `00` and `01` have.
#[test]
fn leading_zeros() {
    each(0, "DEFSONG 0");
    each(
        52,
        "DEFSONG 00;DEFSONG 01;SONGS 01;SONGS 00;SONGS 032;FASTPLAY 0312",
    );
    each(52, &format!("DEFSONG {}", "0".repeat(300)));
}

/// TIME at most SONGS times, else 53; no other tag twice, else 52.
#[test]
fn tags_again() {
    let time = "TIME 0:01";
    let times =
        |songs: &str, count| number(&with(&B, &[&[songs][..], &vec![time; count]].concat()));
    assert_eq!([times("SONGS 1", 1), times("SONGS 1", 2)], [0, 53]);
    assert_eq!([times("SONGS 2", 2), times("SONGS 2", 3)], [0, 53]);
    assert_eq!([times("SONGS 32", 32), times("SONGS 32", 33)], [0, 53]);
    assert_eq!(
        [times("STEREO", 1), times("STEREO", 2), times("STEREO", 300)],
        [0, 53, 53]
    );
    assert_eq!(number(&with(&B, &[time, "SONGS 2", time, time])), 53);
    let texts = ["AUTHOR \"x\"", "NAME \"x\"", "DATE \"x\""];
    let others = "SONGS 3;DEFSONG 0;STEREO;NTSC;FASTPLAY 3;COVOX D600".split(';');
    for line in texts.into_iter().chain(others) {
        assert_eq!(number(&with(&B, &[line])), 0, "{line}");
        assert_eq!(number(&with(&B, &[line, line])), 52, "{line}");
        assert_eq!(number(&with(&B, &[line, time, line])), 52, "{line}");
    }
    each(52, "TYPE B;TYPE C;TYPE R;INIT 0F80;INIT 0F81;PLAYER 247F");
    assert_eq!(number(&with(&C, &["MUSIC 4000"])), 52);
    assert_eq!(number(&with(&["TYPE R"], &["TYPE R"])), 52);
}

/// Addresses: four digits, 0-9 and A-F. COVOX: only D600.
#[test]
fn addresses() {
    let answers = |text: &str| {
        let [init, music, player] = ["INIT", "MUSIC", "PLAYER"].map(|tag| format!("{tag} {text}"));
        let one = fields(&with(&["TYPE S", &init], &[])).map(|cells| cells[8..12].to_vec());
        let two = fields(&with(&["TYPE C", &music, &player], &[]));
        (one, two.map(|cells| cells[8..12].to_vec()))
    };
    for address in [0, 0x1234, 0x5678, 0x09AF, 0xBCDE, 0xFFFF, 0xA00A] {
        let (one, two) = answers(&format!("{address:04X}"));
        assert_eq!(one, Ok(vec![address, 0, 0, 0]));
        assert_eq!(two, Ok(vec![0, address, address, 1]));
    }
    for text in "0f80;F80;00F80;0F8G;0F8/;0F8:;0F8@;0F8`;$F80;-F80;0F8 ;;0x0F80;\"0F8\"".split(';')
    {
        assert_eq!(answers(text), (Err(52), Err(52)), "{text}");
    }
    each(0, "COVOX D600");
    each(
        52,
        "COVOX D601;COVOX D500;COVOX 0000;COVOX d600;COVOX D60;COVOX D6000;COVOX 0D600",
    );
}

/// Texts: two outer quotes, inside 0 to 120 allowed characters, no inner quote; DATE in any form.
#[test]
fn texts() {
    for tag in ["AUTHOR", "NAME", "DATE"] {
        for (length, due) in [
            (0, 0),
            (1, 0),
            (119, 0),
            (120, 0),
            (121, 52),
            (122, 52),
            (400, 52),
        ] {
            let line = format!("{tag} \"{}\"", "x".repeat(length));
            each(due, &line);
        }
        for byte in 0..=255_u8 {
            let allowed = matches!(byte, 0x20..=0x5F | 0x61..=0x7A | 0x7C) && byte != b'"';
            let line = [tag.as_bytes(), b" \"a", &[byte], b"z\"\r\n"].concat();
            let mut file = with(&B, &[]);
            file.splice(5..5, line);
            assert_eq!(number(&file), if allowed { 0 } else { 52 }, "{byte:02X}");
        }
        for rest in r#"x;"x;x";";'x';"x"y;"x"";""x";"x" ;"x" "y""#.split(';') {
            each(52, &format!("{tag} {rest}"));
        }
    }
    each(0, "DATE \"no date at all\";DATE \"31/31/0\"");
}

/// TIME: one or two digits, colon, two digits, a dot with one to three digits, ` LOOP`.
#[test]
fn times() {
    for (argument, due) in [
        ("06:37.62", 2 * 397_620),
        ("0:00", 0),
        ("0:00 LOOP", 1),
        ("00:00.000 LOOP", 1),
        ("0:01", 2_000),
        ("1:00", 120_000),
        ("01:00", 120_000),
        ("10:00", 1_200_000),
        ("0:59", 118_000),
        ("0:60", 120_000),
        ("0:99", 198_000),
        ("0:00.1", 200),
        ("0:00.10", 200),
        ("0:00.100", 200),
        ("0:00.01", 20),
        ("0:00.010", 20),
        ("0:00.001", 2),
        ("0:00.999", 1_998),
        ("99:99.999 LOOP", 2 * 6_039_999 + 1),
    ] {
        let file = with(&B, &[&format!("TIME {argument}")]);
        assert_eq!(time(&file, 0), Ok(due), "{argument}");
        assert_eq!(fields(&file).map(|cells| cells[18]), Ok(1));
    }
    let bad = ";:00;000:00;0:0;0:000;0:00.;0:00.0000;0:00. LOOP;0:00LOOP;0:00  LOOP;0:00 LOOP ;0:00 ;\
        0:00 loop;0:00 LOO;0:00 LOOPS;0:00 LOOP LOOP;LOOP; LOOP;0.00;0:00,5;0:00:00;::00;0::00;a:00;\
        0:a0;0:0a;0:00.a;0:00.0a;0:00.00a;-1:00;/0:00;0:/0;0:00.:;0:00.0/";
    for argument in bad.split(';') {
        each(52, &format!("TIME {argument}"));
    }
}

/// The time of song n is that of the n-th TIME line, counted from zero; 44 from SONGS on.
#[test]
fn times_by_song() {
    let file = with(
        &B,
        &[
            "TIME 0:01",
            "SONGS 4",
            "TIME 0:02 LOOP",
            "NTSC",
            "TIME 0:03",
        ],
    );
    let times: Vec<_> = (0..5).map(|song| time(&file, song)).collect();
    assert_eq!(
        times,
        [Ok(2_000), Ok(4_001), Ok(6_000), Ok(u32::MAX), Err(44)]
    );
    let file = with(&B, &[]);
    assert_eq!(
        [0, 1].map(|song| time(&file, song)),
        [Ok(u32::MAX), Err(44)]
    );
    // the file's own refusal first
    let file = with(&B, &["BAD"]);
    for song in [0, 1, 32, u32::MAX] {
        assert_eq!(time(&file, song), Err(52));
    }
}

/// TYPE R is 53; any other letter, or more than one, is 52.
#[test]
fn types() {
    for letter in b'A'..=b'z' {
        let kind = format!("TYPE {}", char::from(letter));
        let due = match letter {
            b'B' | b'D' | b'S' => 0,
            b'C' | b'R' => 53,
            _ => 52,
        };
        let file = with(&[&kind, "INIT 0F80", "PLAYER 247F"], &[]);
        assert_eq!(number(&file), due, "{kind}");
    }
    for kind in [
        "TYPE BB",
        "TYPE RR",
        "TYPE BR",
        "TYPE B ",
        "TYPE  B",
        "TYPE \"B\"",
        "TYPE ",
        "TYPE",
    ] {
        let file = with(&[kind, "INIT 0F80", "PLAYER 247F"], &[]);
        assert_eq!(number(&file), 52, "{kind}");
    }
    for tags in [
        &[][..],
        &["INIT 0F80"],
        &["MUSIC 4000"],
        &["MUSIC 4000", "PLAYER 247F"],
    ] {
        assert_eq!(number(&with(&["TYPE R"], tags)), 53);
        assert_eq!(number(&with(&[], tags)), 53);
    }
}

/// INIT, MUSIC and PLAYER: all eight ways to have them, by type.
#[test]
fn tags_by_type() {
    let tags = ["INIT 0F80", "MUSIC 4000", "PLAYER 247F"];
    for kind in ["B", "C", "D", "S"] {
        for ways in 0..8 {
            let [init, music, player] = [0, 1, 2].map(|bit| ways >> bit & 1 == 1);
            let lines = [(init, tags[0]), (music, tags[1]), (player, tags[2])];
            let lines = lines.into_iter().filter(|(there, _)| *there);
            let lines: Vec<&str> = lines.map(|(_, line)| line).collect();
            let fits = match kind {
                "B" => init && !music && player,
                "C" => !init && music && player,
                _ => init && !music,
            };
            let answer = fields(&with(&[&format!("TYPE {kind}")], &lines));
            let cells = answer.map(|cells| (cells[0], cells[8..12].to_vec()));
            let held = player && kind != "S";
            let due = vec![
                if init { 0x0F80 } else { 0 },
                if music { 0x4000 } else { 0 },
                if held { 0x247F } else { 0 },
                held.into(),
            ];
            let letter = u32::from(kind.as_bytes()[0]);
            assert_eq!(
                cells,
                if fits { Ok((letter, due)) } else { Err(53) },
                "{kind} {lines:?}"
            );
        }
    }
}

/// PLAYER of type S is read, must be well formed, and is dropped.
#[test]
fn player_of_type_s() {
    assert_eq!(number(&with(&S, &["PLAYER 24"])), 52);
    assert_eq!(number(&with(&S, &["PLAYER 247F", "PLAYER 247F"])), 52);
    let cells = fields(&with(&S, &["PLAYER 247F"])).expect("accepted");
    assert_eq!(cells[8..12], [0x0F80, 0, 0, 0]);
    let header = sap::header(&with(&S, &["PLAYER 247F"])).expect("accepted");
    assert_eq!(header.player, sap::Player::S { init: 0x0F80 });
    // a player at $0000 of type D is there
    let cells = fields(&with(&D, &["PLAYER 0000"])).expect("accepted");
    assert_eq!(cells[8..12], [0x0F80, 0, 0, 1]);
    let header = sap::header(&with(&D, &["PLAYER 0000"])).expect("accepted");
    let (init, player) = (0x0F80, Some(0));
    assert_eq!(header.player, sap::Player::D { init, player });
    assert_eq!(fields(&with(&D, &[])).map(|cells| cells[11]), Ok(0));
}

/// FASTPLAY as it holds: absent 312, with NTSC 262; type S 78 on either machine.
#[test]
fn fastplay() {
    for (kind, pal, ntsc) in [
        (&B[..], 312, 262),
        (&C, 312, 262),
        (&D, 312, 262),
        (&S, 78, 78),
    ] {
        let held = |lines: &[&str]| fields(&with(kind, lines)).map(|cells| (cells[6], cells[7]));
        assert_eq!(held(&[]), Ok((pal, 0)));
        assert_eq!(held(&["NTSC"]), Ok((ntsc, 0)));
        assert_eq!(held(&["FASTPLAY 156"]), Ok((156, 1)));
        assert_eq!(held(&["FASTPLAY 312", "NTSC"]), Ok((312, 1)));
        assert_eq!(held(&["FASTPLAY 78"]), Ok((78, 1)));
    }
}

/// STEREO, NTSC and COVOX: each in its own cell.
#[test]
fn machines() {
    let cells = |lines: &[&str]| fields(&with(&B, lines)).map(|cells| cells[3..6].to_vec());
    assert_eq!(cells(&[]), Ok(vec![0, 0, 0]));
    assert_eq!(cells(&["STEREO"]), Ok(vec![1, 0, 0]));
    assert_eq!(cells(&["NTSC"]), Ok(vec![0, 1, 0]));
    assert_eq!(cells(&["COVOX D600"]), Ok(vec![0, 0, 1]));
    assert_eq!(cells(&["COVOX D600", "NTSC", "STEREO"]), Ok(vec![1, 1, 1]));
}

/// Blocks: the start not after the end, the data whole.
#[test]
fn whole_blocks() {
    assert_eq!(number(&data(&block(0x2000, 0x2000))), 0);
    assert_eq!(number(&data(&block(0x2000, 0x2001))), 0);
    assert_eq!(number(&data(&[0x01, 0x20, 0x00, 0x20, 1, 2, 3])), 54);
    assert_eq!(number(&data(&[0x00, 0x20, 0xFF, 0x1F])), 54);
    assert_eq!(number(&data(&[0x00, 0x20, 0xFF, 0x1F, 1])), 54);
    // as many bytes as a length that is taken from 65,536 would need
    for (start, end) in [
        (0x2000, 0x1FFF),
        (0x2001, 0x1FFF),
        (0xFFFE, 0x0000),
        (0x0001, 0x0000),
    ] {
        let file = data(&block(start, end));
        assert!(file.len() > 26 + 4 + usize::from(end));
        assert_eq!(number(&file), 54, "{start:04X} {end:04X}");
    }
    let whole = [block(0x2000, 0x2002), block(0x3000, 0x3001)].concat();
    for length in 0..whole.len() {
        let due = if length == 7 { 0 } else { 54 };
        assert_eq!(number(&data(&whole[..length])), due, "{length}");
    }
    assert_eq!(number(&data(&whole)), 0);
    assert_eq!(number(&data(&block(0x0000, 0x0000))), 0);
    assert_eq!(number(&data(&block(0xFFFE, 0xFFFF))), 0);
    assert_eq!(number(&data(&block(0x02E4, 0xFFFF))), 0);
}

/// None that touches 02E0 to 02E3, also not one that spans them.
#[test]
fn vectors() {
    for start in 0x02DC..=0x02E6 {
        for end in start..=0x02E8 {
            let touches = (0x02E0..=0x02E3).any(|address| start <= address && address <= end);
            let due = if touches { 54 } else { 0 };
            assert_eq!(
                number(&data(&block(start, end))),
                due,
                "{start:04X} {end:04X}"
            );
            // after a good block, and before one
            let good = block(0x2000, 0x2003);
            assert_eq!(
                number(&data(&[&good[..], &block(start, end)].concat())),
                due
            );
            assert_eq!(
                number(&data(&[&block(start, end), &good[..]].concat())),
                due
            );
        }
    }
    for (start, end, due) in [
        (0x0000, 0xFFFF, 54),
        (0x0000, 0x02DF, 0),
        (0x0000, 0x02E0, 54),
        (0x0200, 0x0400, 54),
        (0x02E3, 0xFFFF, 54),
        (0x02E4, 0xFFFF, 0),
    ] {
        assert_eq!(
            number(&data(&block(start, end))),
            due,
            "{start:04X} {end:04X}"
        );
    }
}

/// FF FF where a block would start is skipped, as often as it comes, and a block must follow.
#[test]
fn marks() {
    let mark = [0xFF, 0xFF];
    assert_eq!(number(&data(&[])), 54);
    for count in [1, 2, 5, 1_000] {
        let marks = mark.repeat(count);
        assert_eq!(number(&data(&marks)), 54);
        assert_eq!(number(&data(&[&marks[..], &BLOCK].concat())), 0);
        assert_eq!(number(&data(&[&BLOCK, &marks[..]].concat())), 54);
        assert_eq!(number(&data(&[&BLOCK, &marks[..], &BLOCK].concat())), 0);
        assert_eq!(
            number(&data(&[&BLOCK, &marks[..], &BLOCK, &mark].concat())),
            54
        );
        assert_eq!(number(&data(&[&marks[..], &[0xFF]].concat())), 54);
    }
    assert_eq!(number(&data(&[&[0xFF], &BLOCK[..]].concat())), 54);
    // a start of FF 00 is no mark
    let after = [0xFF, 0x20, 0xFF, 0x20, 9];
    assert_eq!(number(&data(&after)), 0);
    // the places of the blocks are after the marks, and their data may be FF FF
    let after = [
        &mark[..],
        &BLOCK,
        &mark,
        &mark,
        &[0, 0x30, 1, 0x30, 0xFF, 0xFF],
        &BLOCK,
    ]
    .concat();
    let file = data(&after);
    let first = 5 + 8 + 11;
    assert_eq!(
        fields(&file).map(|cells| cells[19..].to_vec()),
        Ok(vec![3, first])
    );
    assert_eq!(block_at(&file, 0), Some([0x2000, 0x2000, first + 8]));
    assert_eq!(block_at(&file, 1), Some([0x3000, 0x3001, first + 17]));
    assert_eq!(block_at(&file, 2), Some([0x2000, 0x2000, first + 23]));
    assert_eq!(block_at(&file, 3), None);
}

/// Loading goes block by block, a later byte replacing an earlier one.
#[test]
fn later_bytes() {
    let after = [
        &[0x00, 0x20, 0x04, 0x20, 1, 2, 3, 4, 5][..],
        &[0x03, 0x20, 0x06, 0x20, 6, 7, 8, 9],
        &[0x01, 0x20, 0x01, 0x20, 10],
        &[0xFE, 0xFF, 0xFF, 0xFF, 11, 12],
        &[0x00, 0x00, 0x00, 0x00, 13],
    ];
    let mut due = vec![0xA5; 65_536];
    due[0x2000..0x2007].copy_from_slice(&[1, 10, 3, 6, 7, 8, 9]);
    due[0xFFFE..].copy_from_slice(&[11, 12]);
    due[0] = 13;
    assert!(memory(&data(&after.concat())) == due);
    // two blocks of the same place: the second
    let twice = [[0x00, 0x20, 0x00, 0x20, 1], [0x00, 0x20, 0x00, 0x20, 2]].concat();
    assert_eq!(memory(&data(&twice))[0x2000], 2);
}

/// There is no greatest length of a SAP file: some 2 MB of blocks, and as many marks.
#[test]
fn long_files() {
    let good = block(0x02E4, 0xFFFF);
    let mut file = data(&good.repeat(32));
    assert_eq!(file.len(), 26 + 32 * 64_800);
    assert_eq!(fields(&file).map(|cells| cells[19]), Ok(32));
    assert_eq!(
        block_at(&file, 31),
        Some([0x02E4, 0xFFFF, 26 + 31 * 64_800 + 4])
    );
    assert_eq!(turftangle::kind(&file).number(), 4);
    file.pop();
    assert_eq!(number(&file), 54);
    let marks = [vec![0xFF; 2_000_000], BLOCK.to_vec()].concat();
    let file = data(&marks);
    assert_eq!(
        block_at(&file, 0),
        Some([0x2000, 0x2000, 26 + 2_000_000 + 4])
    );
}

/// Other files are what they were before: the first five bytes decide.
#[test]
fn kinds() {
    let kind = |file: &[u8]| {
        let library = turftangle::kind(file).number();
        assert_eq!(library, plain::kind(file));
        library
    };
    assert_eq!(kind(b"SAP\r\n"), 4);
    assert_eq!(kind(b"SAP\r"), 0);
    assert_eq!(kind(b"SAP\n\r"), 0);
    assert_eq!(kind(b"SAP\r\nTYPE R\r\n\xFF\xFF"), 4);
    assert_eq!(kind(b"SAP\r\n and nothing of it is SAP"), 4);
    assert_eq!(kind(b"PSID\r\n"), 1);
    assert_eq!(kind(b"sap\r\n"), 0);
    assert_eq!(kind(&song(0x4153, 0x0D50, 0x0A)), 3);
    assert_eq!(kind(&song(0x4153, 0x0D50, 0x080A)), 3);
    // refused by both readers: SAP, also where MUS refuses with 25 to 33 alone
    let mut file = song(0x4153, 0x0D50, 0x0A);
    file.push(0);
    assert!(file.starts_with(b"SAP\r\n"));
    assert_eq!(
        plain::mus::accept(&file)
            .err()
            .map(|refusal| refusal.number),
        Some(26)
    );
    assert_eq!(kind(&file), 4);
    file[0] = b's';
    assert_eq!(kind(&file), 3);
}

/// A song with this load address and voices of these lengths in bytes: HLT after nothing but rests.
fn song(load: u16, first: usize, second: usize) -> Vec<u8> {
    let mut file = load.to_le_bytes().to_vec();
    let lengths = [first, second, 2];
    for length in lengths {
        file.extend((length as u16).to_le_bytes());
    }
    for length in lengths {
        file.extend(vec![0; length - 2]);
        file.extend([0x01, 0x4F]);
    }
    file.extend(b"\r\r\r\r\r\0");
    file
}

/// No file is accepted by both readers. An accepted SAP file's text has fewer than 1,200 bytes, so
/// that from byte 8 on it lies in voice 1 of $0D50 bytes. Its line `TYPE x` CR LF would have Y or CR as
/// the first byte of a pair, and no command has these; or, as the first line, make voice 3's length odd.
#[test]
fn no_file_is_both() {
    for (first, second) in [b'Y', b'\r']
        .into_iter()
        .flat_map(|a| (0..=255).map(move |b| (a, b)))
    {
        let library = turftangle::pair::read(first, second).map_err(|refusal| refusal.number());
        assert_eq!(library.map(|_| ()), Err(27));
        assert_eq!(plain::pair::read(first, second).map(|_| ()), Err(27));
    }
    let text = format!("\"{}\"", "x".repeat(120));
    let texts = ["AUTHOR", "NAME", "DATE"].map(|tag| format!("{tag} {text}"));
    let mut lines: Vec<&str> = texts.iter().map(String::as_str).collect();
    lines.extend([
        "SONGS 32",
        "DEFSONG 31",
        "STEREO",
        "NTSC",
        "FASTPLAY 32767",
        "COVOX D600",
    ]);
    lines.extend(["TIME 00:00.000 LOOP"; 32]);
    let longest = with(&B, &lines);
    let cells = fields(&longest).expect("accepted");
    assert!(cells[20] < 1_200, "{}", cells[20]);
    assert_eq!(cells[2], 31);
}
