//! What a call of the library costs beside the plain reader, a load beside a bare copy, and the listing of
//! a voice's last event beside the voice's length: `cargo bench --offline`. Both sides run in turn, in
//! rounds, on the same inputs and into the same lists; printed are the medians of the rounds' times and
//! of their ratios. Nothing here fails on a time.

#[path = "../tests/plain/mod.rs"]
mod plain;

use std::hint::black_box;
use std::ops::Range;
use std::time::{Duration, Instant};
use turftangle::{mus, pair, sap, sid};

const ROUNDS: usize = 32;
/// How long one side of a round takes at least.
const BATCH: Duration = Duration::from_millis(2);

fn main() {
    println!("| call | library ns | plain Rust ns | ratio |");
    println!("|---|---|---|---|");
    tunes();
    loads();
    songs();
    lengths();
    parts();
    pairs();
    atari();
    kinds();
    phrases();
    println!();
    println!("| load | library ns | copy_from_slice ns | ratio |");
    println!("|---|---|---|---|");
    copies();
    println!();
    println!("| voice | tt_mus_list, last event, ns | tt_mus_length ns | ratio |");
    println!("|---|---|---|---|");
    last_events();
}

/// Nanoseconds a call takes in this many.
fn timed<S>(times: u32, state: &mut S, call: &impl Fn(&mut S)) -> f64 {
    let start = Instant::now();
    (0..times).for_each(|_| call(state));
    start.elapsed().as_secs_f64() * 1e9 / f64::from(times)
}

/// How many calls make a batch.
fn batch<S>(state: &mut S, call: &impl Fn(&mut S)) -> u32 {
    let mut times = 1;
    while timed(times, state, call) * f64::from(times) < BATCH.as_nanos() as f64 {
        times *= 2;
    }
    times
}

fn median(mut times: Vec<f64>) -> f64 {
    times.sort_by(f64::total_cmp);
    times[times.len() / 2]
}

/// Prints a row of the table. Each round takes the next of the states; `calls` is how many calls
/// one run of a side makes.
fn contest<S>(
    what: &str,
    calls: usize,
    states: &mut [S],
    ours: impl Fn(&mut S),
    other: impl Fn(&mut S),
) {
    let our_batch = batch(&mut states[0], &ours);
    let other_batch = batch(&mut states[0], &other);
    let (mut our_times, mut other_times, mut ratios) = (Vec::new(), Vec::new(), Vec::new());
    for round in 0..ROUNDS {
        let state = &mut states[round % states.len()];
        let a = timed(our_batch, state, &ours) / calls as f64;
        let b = timed(other_batch, state, &other) / calls as f64;
        our_times.push(a);
        other_times.push(b);
        ratios.push(a / b);
    }
    let (a, b, ratio) = (median(our_times), median(other_times), median(ratios));
    println!("| {what} | {a:.1} | {b:.1} | {ratio:.2} |");
}

/// Makes sure that an answer is worked out.
fn keep<T>(answer: T) {
    black_box(answer);
}

/// A call of the plain reader as the library's are, so that neither side is made part of the loop.
#[inline(never)]
fn apart<T>(call: impl FnOnce() -> T) -> T {
    call()
}

/// A PSID of version 2 with a payload of this many bytes.
fn tune(length: usize) -> Vec<u8> {
    let mut file = vec![0; 0x7C];
    file[..8].copy_from_slice(b"PSID\0\x02\0\x7C");
    file[8..18].copy_from_slice(&[0, 0, 0x10, 0, 0x10, 3, 0, 3, 0, 1]);
    file[18..22].copy_from_slice(&[0, 0, 0, 5]);
    file[0x16..0x1B].copy_from_slice(b"Scale");
    file[0x36..0x40].copy_from_slice(b"Turftangle");
    file[0x56..0x5A].copy_from_slice(b"2026");
    file[0x77] = 0x24;
    file.extend([0x00, 0x10]);
    file.extend((0..length).map(|i| (i * 7 + 1) as u8));
    assert_eq!(sid::read(&file), Ok(()));
    file
}

fn tunes() {
    let file = tune(4_096);
    let file = || black_box(&file[..]);
    contest(
        "tt_sid_read",
        1,
        &mut [()],
        |()| keep(sid::read(file())),
        |()| keep(apart(|| plain::sid::read(file()).map(|_| ()))),
    );
    contest(
        "tt_sid_fields",
        1,
        &mut [[1; 21]],
        |out| keep(sid::fields_into(file(), black_box(out))),
        |out| keep(apart(|| plain::sid::fields_into(file(), black_box(out)))),
    );
    contest(
        "tt_sid_speed",
        1,
        &mut [()],
        |()| keep(sid::speed(file(), black_box(3))),
        |()| keep(apart(|| plain::sid::speed(file(), black_box(3)))),
    );
}

/// A SAP file of type B with two blocks, this many bytes in all.
fn atari_file(length: usize) -> Vec<u8> {
    let lines = [
        "SAP",
        "AUTHOR \"Jakub Husak\"",
        "NAME \"Inside\"",
        "DATE \"1990\"",
        "SONGS 3",
        "TYPE B",
        "INIT 0F80",
        "PLAYER 247F",
        "TIME 06:37.62",
        "TIME 02:34.02 LOOP",
        "TIME 00:15.40 LOOP",
    ];
    let mut file = lines.join("\r\n").into_bytes();
    file.extend(b"\r\n\xFF\xFF");
    let data = length - file.len() - 2 * 4;
    // the player and its music
    for (start, count) in [(0x0600, 1_500), (0x1000, data - 1_500)] {
        file.extend((start as u16).to_le_bytes());
        file.extend(((start + count - 1) as u16).to_le_bytes());
        file.extend((0..count).map(|i| (i * 7 + 1) as u8));
    }
    assert_eq!((sap::read(&file), file.len()), (Ok(()), length));
    file
}

fn atari() {
    for length in [5_000, 60_000] {
        let whole = atari_file(length);
        let file = || black_box(&whole[..]);
        contest(
            &format!("tt_sap_read, a file of {length} bytes"),
            1,
            &mut [()],
            |()| keep(sap::read(file())),
            |()| keep(apart(|| plain::sap::read(file()).map(|_| ()))),
        );
        let mut loads = Load::several(&whole);
        let what = format!("tt_sap_load, a file of {length} bytes");
        contest(&what, 1, &mut loads, Load::our_atari, Load::plain_atari);
    }
    let whole = atari_file(5_000);
    let file = || black_box(&whole[..]);
    contest(
        "tt_sap_fields, a file of 5000 bytes",
        1,
        &mut [[1; 21]],
        |out| keep(sap::fields_into(file(), black_box(out))),
        |out| keep(apart(|| plain::sap::fields_into(file(), black_box(out)))),
    );
    contest(
        "tt_sap_time, the same, song 2",
        1,
        &mut [()],
        |()| keep(sap::time(file(), black_box(2))),
        |()| keep(apart(|| plain::sap::time(file(), black_box(2)))),
    );
    contest(
        "tt_sap_block, the same, block 1",
        1,
        &mut [[1; 3]],
        |out| keep(sap::block_into(file(), black_box(1), black_box(out))),
        |out| {
            keep(apart(|| {
                plain::sap::block_into(file(), black_box(1), black_box(out))
            }))
        },
    );
}

/// A file somewhere in a buffer, and a memory. What a copy costs hangs on how the two lie to each
/// other (where the places differ by a little more than pages, some processors take ten times as
/// long), so that a load is run with several.
struct Load {
    buffer: Vec<u8>,
    file: Range<usize>,
    memory: Vec<u8>,
}

impl Load {
    fn several(whole: &[u8]) -> Vec<Load> {
        let load = |i| {
            let from = i * 4_096 / ROUNDS;
            let file = from..from + whole.len();
            let mut buffer = vec![1; 4_096 + whole.len()];
            buffer[file.clone()].copy_from_slice(whole);
            let memory = vec![1; 65_536];
            Load {
                buffer,
                file,
                memory,
            }
        };
        (0..ROUNDS).map(load).collect()
    }

    fn ours(&mut self) {
        let file = black_box(&self.buffer[self.file.clone()]);
        keep(sid::load(file, black_box(&mut self.memory)));
    }

    fn plain(&mut self) {
        let file = black_box(&self.buffer[self.file.clone()]);
        keep(apart(|| {
            plain::sid::load(file, black_box(&mut self.memory))
        }));
    }

    fn our_atari(&mut self) {
        let file = black_box(&self.buffer[self.file.clone()]);
        keep(sap::load(file, black_box(&mut self.memory)));
    }

    fn plain_atari(&mut self) {
        let file = black_box(&self.buffer[self.file.clone()]);
        keep(apart(|| {
            plain::sap::load(file, black_box(&mut self.memory))
        }));
    }

    /// The payload's bytes, into the place where the load puts them.
    fn copy(&mut self) {
        let payload = &black_box(&self.buffer[self.file.clone()])[0x7E..];
        let memory = black_box(&mut self.memory);
        memory[0x1000..0x1000 + payload.len()].copy_from_slice(payload);
        keep(memory);
    }
}

fn loads() {
    for length in [4_096, 57_344] {
        let mut loads = Load::several(&tune(length));
        let what = format!("tt_sid_load, payload of {length} bytes");
        contest(&what, 1, &mut loads, Load::ours, Load::plain);
    }
}

fn copies() {
    for length in [4_096, 57_344] {
        let mut loads = Load::several(&tune(length));
        let what = format!("payload of {length} bytes");
        contest(&what, 1, &mut loads, Load::ours, Load::copy);
    }
}

const HLT: [u8; 2] = [0x01, 0x4F];
const TAL: [u8; 2] = [0x01, 0x0F];

/// A song with this first voice and a lone HLT in the others.
fn song(mut voice: Vec<u8>) -> Vec<u8> {
    voice.extend(HLT);
    let mut file = vec![0, 0];
    file.extend((voice.len() as u16).to_le_bytes());
    file.extend([2, 0, 2, 0]);
    file.extend(voice);
    file.extend([HLT, HLT].concat());
    file.extend(b"\r\r\r\r\r\0");
    assert!(mus::accept(&file).is_ok());
    file
}

/// Plain notes of several lengths.
fn notes(count: usize) -> Vec<u8> {
    let firsts = [0x10, 0x14, 0x18, 0x14, 0x1C, 0x30, 0x90, 0x08];
    (0..count).flat_map(|i| [firsts[i % 8], 0x94]).collect()
}

/// Three notes to one command.
fn mixed(count: usize) -> Vec<u8> {
    let commands = [
        [0x06, 0x60],
        [0x01, 0xFE],
        [0x16, 0x07],
        [0x03, 0x10],
        [0x12, 0x34],
        [0x01, 0x07],
        [0x56, 0xFF],
        [0x2E, 0x5B],
    ];
    let mut pairs = notes(count);
    for (i, pair) in pairs.chunks_exact_mut(8).enumerate() {
        pair[6..].copy_from_slice(&commands[i % 8]);
    }
    pairs
}

/// HED 240 over HED 66 over 65 notes: 1,029,600 events, and HLT.
fn million() -> Vec<u8> {
    let mut pairs = vec![0x36, 240, 0x36, 66];
    pairs.extend(notes(65));
    pairs.extend([TAL, TAL].concat());
    pairs
}

fn songs() {
    let flat = song(notes(29_999));
    let million = song(million());
    for (what, file) in [
        ("a flat voice of 30,000 pairs, notes", &flat),
        ("the same, three notes to one command", &song(mixed(29_999))),
        ("72 pairs, a million events", &million),
    ] {
        contest(
            &format!("tt_mus_accept, {what}"),
            1,
            &mut [[1; 12]],
            |out| keep(mus::accept_into(black_box(file), black_box(out))),
            |out| {
                keep(apart(|| {
                    plain::mus::accept_into(black_box(file), black_box(out))
                }))
            },
        );
    }
    listing("30,000 pairs, whole", &flat, 0, 30_000);
    listing("30,000 pairs, 16 at the front", &flat, 0, 16);
    listing("30,000 pairs, 16 at the end", &flat, 29_984, 16);
    listing("a million events, whole", &million, 0, 1_029_601);
    listing("a million events, 16 at the front", &million, 0, 16);
    listing("a million events, 16 at the end", &million, 1_029_585, 16);
}

fn listing(what: &str, file: &[u8], first: u64, count: usize) {
    let lists = || (vec![1; count], vec![1; count]);
    contest(
        &format!("tt_mus_list, {what}"),
        1,
        &mut [lists(), lists(), lists(), lists()],
        |(a, b)| {
            let answer = mus::list(black_box(file), 1, black_box(first), a, b);
            assert!(answer == Ok(count));
        },
        |(a, b)| {
            let answer = apart(|| plain::mus::list(black_box(file), 1, black_box(first), a, b));
            assert!(answer == Ok(count));
        },
    );
}

/// The songs whose lengths are asked for; each is accepted first, on all sides.
fn timed_songs() -> [(&'static str, Vec<u8>); 3] {
    [
        ("a flat voice of 30,000 pairs, notes", song(notes(29_999))),
        ("the same, three notes to one command", song(mixed(29_999))),
        ("72 pairs, a million events", song(million())),
    ]
}

/// The plain reader goes by maps too, and plays nothing.
fn lengths() {
    for (what, file) in timed_songs() {
        let file = || black_box(&file[..]);
        let due = plain::mus::length(file(), 1);
        contest(
            &format!("tt_mus_length, {what}"),
            1,
            &mut [()],
            |()| assert!(mus::length(file(), black_box(1)).ok() == due.ok()),
            |()| assert!(apart(|| plain::maps::length(file(), black_box(1))) == due),
        );
    }
}

/// The same time, but for what is less than a jiffy, from the listing: the jiffy of HLT.
fn last_events() {
    for (what, file) in timed_songs() {
        let last = mus::accept(&file).expect("accepted")[0].events as u64 - 1;
        let file = || black_box(&file[..]);
        let due = mus::length(file(), 1).expect("accepted");
        contest(
            what,
            1,
            &mut [([1], [1])],
            |(offset, jiffy)| {
                let count = mus::list(file(), 1, black_box(last), offset, jiffy);
                assert!(count == Ok(1) && u64::from(jiffy[0]) == due / 384);
            },
            |_| assert!(mus::length(file(), black_box(1)) == Ok(due)),
        );
    }
}

/// The parts of a song: two calls that accept it first, and one that does not.
fn parts() {
    let flat = song(notes(29_999));
    let file = || black_box(&flat[..]);
    contest(
        "tt_mus_load, a flat voice of 30,000 pairs, notes",
        1,
        &mut [()],
        |()| keep(mus::load_address(file())),
        |()| keep(apart(|| plain::mus::load(file()))),
    );
    contest(
        "tt_mus_line, the same, line 5",
        1,
        &mut [[1; 2]],
        |out| keep(mus::line_into(file(), black_box(5), black_box(out))),
        |out| {
            keep(apart(|| {
                plain::mus::line_into(file(), black_box(5), black_box(out))
            }))
        },
    );
    contest(
        "tt_mus_voices, the same",
        1,
        &mut [[1; 6]],
        |out| keep(mus::voices_into(file(), black_box(out))),
        |out| keep(apart(|| plain::mus::voices_into(file(), black_box(out)))),
    );
}

fn kinds() {
    for (what, file) in [
        ("a PSID", tune(4_096)),
        ("a song", song(notes(29_999))),
        ("a SAP file of 5000 bytes", atari_file(5_000)),
    ] {
        let file = || black_box(&file[..]);
        contest(
            &format!("tt_kind, {what}"),
            1,
            &mut [()],
            |()| keep(turftangle::kind(file())),
            |()| keep(apart(|| plain::kind(file()))),
        );
    }
}

/// The plain reader has read the document before.
fn phrases() {
    let phrases = plain::reason::Phrases::new();
    let numbers = phrases.numbers();
    contest(
        "tt_reason, all phrases whole, a call",
        numbers.len(),
        &mut [[1; 100]],
        |out| {
            for &number in black_box(&numbers) {
                keep(turftangle::reason_into(number, black_box(out)));
            }
        },
        |out| {
            for &number in black_box(&numbers) {
                keep(apart(|| phrases.reason_into(number, black_box(out))));
            }
        },
    );
}

fn plain_read(first: u8, second: u8) -> u64 {
    match apart(|| plain::code::read(first, second)) {
        Ok(code) => code.into(),
        Err(refusal) => u64::from(refusal.number) << 32,
    }
}

fn plain_write(code: u32) -> u64 {
    match apart(|| plain::code::write(code)) {
        Ok(pair) => pair.into(),
        Err(refusal) => u64::from(refusal.number) << 32,
    }
}

fn plain_half_step(code: u32) -> u64 {
    match apart(|| plain::code::half_step(code)) {
        Ok(value) => value.into(),
        Err(refusal) => u64::from(refusal.number) << 32,
    }
}

fn our_read(first: u8, second: u8) -> u64 {
    match pair::read_code(first, second) {
        Ok(code) => code.into(),
        Err(refusal) => u64::from(refusal.number()) << 32,
    }
}

fn our_write(code: u32) -> u64 {
    match pair::write_code(code) {
        Ok(pair) => u16::from_be_bytes(pair).into(),
        Err(refusal) => u64::from(refusal.number()) << 32,
    }
}

fn our_half_step(code: u32) -> u64 {
    match pair::half_step_of_code(code) {
        Ok(half_step) => (half_step + 1) as u64,
        Err(refusal) => u64::from(refusal.number()) << 32,
    }
}

/// The sum of the answers to all pairs.
fn read_all(read: impl Fn(u8, u8) -> u64) -> u64 {
    let pairs = (0..=0xFFFF_u16).map(u16::to_be_bytes);
    pairs.map(|[first, second]| read(first, second)).sum()
}

fn pairs() {
    assert_eq!(read_all(our_read), read_all(plain_read));
    contest(
        "tt_pair_read, all 65,536 pairs, a call",
        65_536,
        &mut [()],
        |()| keep(read_all(our_read)),
        |()| keep(read_all(plain_read)),
    );
    let pairs = (0..=0xFFFF_u16).map(u16::to_be_bytes);
    let codes = pairs.filter_map(|[first, second]| pair::read_code(first, second).ok());
    let codes: Vec<u32> = codes.collect();
    contest(
        "tt_pair_write, the codes of all pairs, a call",
        codes.len(),
        &mut [()],
        |()| keep(codes.iter().map(|&code| our_write(code)).sum::<u64>()),
        |()| keep(codes.iter().map(|&code| plain_write(code)).sum::<u64>()),
    );
    let all = |half_step: fn(u32) -> u64| codes.iter().map(|&code| half_step(code)).sum::<u64>();
    assert_eq!(all(our_half_step), all(plain_half_step));
    contest(
        "tt_half_step, the codes of all pairs, a call",
        codes.len(),
        &mut [()],
        |()| keep(codes.iter().map(|&code| our_half_step(code)).sum::<u64>()),
        |()| keep(codes.iter().map(|&code| plain_half_step(code)).sum::<u64>()),
    );
}
