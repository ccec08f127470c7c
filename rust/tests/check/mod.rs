//! Holds the library against the plain reader, call by call: the answer as the library gives it, all
//! 64 bits, and every cell of every lent list and of some beside it. Where a call has no list, and for
//! the length of a voice, the wrapper's answer too.

// Each program that includes it uses a part of it.
#![allow(dead_code)]

mod carried;
// The library's functions themselves: the wrappers drop bits that these must not have.
#[path = "../../src/raw.rs"]
mod raw;
mod sixteen;

use crate::make::rng::Rng;
use crate::plain;
use carried::Carried;
use sixteen::Sixteen;
use std::fmt::Write;
use turftangle::Refusal;

/// A value, or number and place.
type Answer = Result<u64, (u32, u32)>;

/// A difference, in words.
pub type Checked = Result<(), String>;

/// An answer of the library taken apart; a value has all its bits.
fn of_library(answer: u64) -> Answer {
    match (answer >> 32) as u32 {
        0 => Ok(answer),
        number => Err((number, answer as u32)),
    }
}

fn of_wrapper<T: Into<u64>>(answer: Result<T, Refusal>) -> Answer {
    let answer = answer.map(T::into);
    answer.map_err(|r| (r.number(), r.place as u32))
}

fn of_plain<T: Into<u64>>(answer: Result<T, plain::Refusal>) -> Answer {
    answer.map(T::into).map_err(|r| (r.number, r.place))
}

/// Cells on both sides of a lent list, which no call may touch.
const GUARD: usize = 4;

/// One list twice, for the library and for the plain reader.
struct Twin<T> {
    library: Vec<T>,
    plain: Vec<T>,
}

impl<T: Copy + PartialEq> Twin<T> {
    fn new() -> Twin<T> {
        let (library, plain) = (Vec::new(), Vec::new());
        Twin { library, plain }
    }

    /// Both lists anew, for a lent part of this length, with the same content.
    fn fill(&mut self, length: usize, cell: impl Fn(usize) -> T) {
        self.library.clear();
        self.library.extend((0..length + 2 * GUARD).map(cell));
        self.plain.clear();
        self.plain.extend_from_slice(&self.library);
    }

    fn lend(&mut self, length: usize) -> (&mut [T], &mut [T]) {
        let lent = GUARD..GUARD + length;
        (&mut self.library[lent.clone()], &mut self.plain[lent])
    }

    fn same(&self) -> bool {
        self.library == self.plain
    }
}

/// Numbers that no call would put into a cell by chance.
fn pattern(salt: u32) -> impl Fn(usize) -> u32 {
    move |i| salt.wrapping_add(i as u32).wrapping_mul(0x9E37_79B1) | 0x8000_0000
}

/// The same for cells of 64 bits, by both halves.
fn wide_pattern(salt: u32) -> impl Fn(usize) -> u64 {
    let (high, low) = (pattern(salt), pattern(!salt));
    move |i| u64::from(high(i)) << 32 | u64::from(low(i))
}

/// Bytes that stand in no phrase.
fn byte_pattern(salt: u32) -> impl Fn(usize) -> u8 {
    let cell = pattern(salt);
    move |i| (cell(i) >> 24) as u8
}

/// The calls, in the order of docs/INTERFACE.md.
#[derive(Clone, Copy, Debug, PartialEq, Eq)]
pub enum Call {
    Kind,
    Reason,
    SidRead,
    SidFields,
    SidLoad,
    SidSpeed,
    MusAccept,
    MusList,
    MusLength,
    MusLoad,
    MusLine,
    MusVoices,
    PairRead,
    PairWrite,
    HalfStep,
    SapRead,
    SapFields,
    SapLoad,
    SapTime,
    SapBlock,
}

impl Call {
    pub const ALL: [Call; 20] = [
        Call::Kind,
        Call::Reason,
        Call::SidRead,
        Call::SidFields,
        Call::SidLoad,
        Call::SidSpeed,
        Call::MusAccept,
        Call::MusList,
        Call::MusLength,
        Call::MusLoad,
        Call::MusLine,
        Call::MusVoices,
        Call::PairRead,
        Call::PairWrite,
        Call::HalfStep,
        Call::SapRead,
        Call::SapFields,
        Call::SapLoad,
        Call::SapTime,
        Call::SapBlock,
    ];

    /// Its name in C.
    pub fn name(self) -> &'static str {
        match self {
            Call::Kind => "tt_kind",
            Call::Reason => "tt_reason",
            Call::SidRead => "tt_sid_read",
            Call::SidFields => "tt_sid_fields",
            Call::SidLoad => "tt_sid_load",
            Call::SidSpeed => "tt_sid_speed",
            Call::MusAccept => "tt_mus_accept",
            Call::MusList => "tt_mus_list",
            Call::MusLength => "tt_mus_length",
            Call::MusLoad => "tt_mus_load",
            Call::MusLine => "tt_mus_line",
            Call::MusVoices => "tt_mus_voices",
            Call::PairRead => "tt_pair_read",
            Call::PairWrite => "tt_pair_write",
            Call::HalfStep => "tt_half_step",
            Call::SapRead => "tt_sap_read",
            Call::SapFields => "tt_sap_fields",
            Call::SapLoad => "tt_sap_load",
            Call::SapTime => "tt_sap_time",
            Call::SapBlock => "tt_sap_block",
        }
    }
}

/// How often a call gave each answer: by the number of the refusal, 0 for a value.
type Tally = [u64; 55];

/// The greatest memory that is lent.
const MOST_MEMORY: usize = 65_536 + 16;

/// The lists that are lent, and how often each refusal came.
pub struct Checker {
    tallies: [Tally; Call::ALL.len()],
    /// How often `tt_kind` gave each kind.
    kinds: [u64; 5],
    /// How often phrase 16 came in the songs of `tt_mus_accept`.
    pub sixteen: Sixteen,
    /// How often a value of the clock was carried in the voices of `tt_mus_length`.
    pub carried: Carried,
    /// A voice with more events is not played for its length: the plain reader goes by maps alone.
    pub most_played: u64,
    phrases: plain::reason::Phrases,
    memory: Twin<u8>,
    bytes: Twin<u8>,
    one: Twin<u32>,
    two: Twin<u32>,
    wide: Twin<u64>,
}

impl Checker {
    pub fn new() -> Checker {
        let mut checker = Checker {
            tallies: [[0; 55]; Call::ALL.len()],
            kinds: [0; 5],
            sixteen: Sixteen::default(),
            carried: Carried::default(),
            most_played: u64::MAX,
            phrases: plain::reason::Phrases::new(),
            memory: Twin::new(),
            bytes: Twin::new(),
            one: Twin::new(),
            two: Twin::new(),
            wide: Twin::new(),
        };
        checker.fill_memory(1);
        checker
    }

    /// Gives the memory a new content. Without it the content is what the loads have left there.
    pub fn fill_memory(&mut self, salt: u32) {
        let cell = pattern(salt);
        self.memory.fill(MOST_MEMORY, |i| (cell(i) >> 16) as u8);
    }

    /// The library's answers, by itself and by the wrapper, and the plain reader's; and whether the
    /// lists are the same. The arguments are put into words where not.
    fn judge<const N: usize>(
        &mut self,
        call: Call,
        arguments: impl Fn() -> String,
        library: [Answer; N],
        plain: Answer,
        lists: bool,
    ) -> Checked {
        let told = || format!("{}{}", call.name(), arguments());
        if library.iter().any(|answer| *answer != plain) {
            return Err(format!("{}: library {library:?}, plain {plain:?}", told()));
        }
        if !lists {
            return Err(format!("{}: lists differ, answer {plain:?}", told()));
        }
        let number = plain.map_or_else(|(number, _)| number as usize, |_| 0);
        self.tallies[call as usize][number] += 1;
        Ok(())
    }

    pub fn kind(&mut self, file: &[u8]) -> Checked {
        let kind = plain::kind(file);
        self.kinds[kind as usize] += 1;
        let wrapper = Ok(turftangle::kind(file).number().into());
        let library = [of_library(raw::kind(file)), wrapper];
        self.judge(Call::Kind, String::new, library, Ok(kind.into()), true)
    }

    pub fn reason(&mut self, number: u32, length: usize, salt: u32) -> Checked {
        self.bytes.fill(length, byte_pattern(salt));
        let (ours, theirs) = self.bytes.lend(length);
        let library = of_library(raw::reason(number, ours));
        let plain = self.phrases.reason_into(number, theirs);
        let arguments = || format!(" of {number} into {length}");
        let lists = self.bytes.same();
        self.judge(Call::Reason, arguments, [library], Ok(plain.into()), lists)
    }

    pub fn sid_read(&mut self, file: &[u8]) -> Checked {
        let wrapper = of_wrapper(turftangle::sid::read(file).map(|()| 0_u64));
        let library = [of_library(raw::sid_read(file)), wrapper];
        let plain = of_plain(plain::sid::read(file).map(|_| 0_u64));
        self.judge(Call::SidRead, String::new, library, plain, true)
    }

    pub fn sid_fields(&mut self, file: &[u8], length: usize, salt: u32) -> Checked {
        self.one.fill(length, pattern(salt));
        let (ours, theirs) = self.one.lend(length);
        let library = of_library(raw::sid_fields(file, ours));
        let plain = of_plain(plain::sid::fields_into(file, theirs));
        let arguments = || format!(" into {length}");
        let lists = self.one.same();
        self.judge(Call::SidFields, arguments, [library], plain, lists)
    }

    pub fn sid_load(&mut self, file: &[u8], length: usize) -> Checked {
        let (ours, theirs) = self.memory.lend(length);
        let library = of_library(raw::sid_load(file, ours));
        let plain = of_plain(plain::sid::load(file, theirs).map(|()| 0_u64));
        let arguments = || format!(" into {length}");
        let lists = self.memory.same();
        self.judge(Call::SidLoad, arguments, [library], plain, lists)
    }

    pub fn sid_speed(&mut self, file: &[u8], song: u32) -> Checked {
        let wrapper = of_wrapper(turftangle::sid::speed(file, song).map(|speed| speed.bit()));
        let library = [of_library(raw::sid_speed(file, song)), wrapper];
        let plain = of_plain(plain::sid::speed(file, song));
        let arguments = || format!(" of {song}");
        self.judge(Call::SidSpeed, arguments, library, plain, true)
    }

    pub fn mus_accept(&mut self, file: &[u8], length: usize, salt: u32) -> Checked {
        self.one.fill(length, pattern(salt));
        let (ours, theirs) = self.one.lend(length);
        let library = of_library(raw::mus_accept(file, ours));
        let plain = of_plain(plain::mus::accept_into(file, theirs));
        let arguments = || format!(" into {length}");
        let lists = self.one.same();
        self.judge(Call::MusAccept, arguments, [library], plain, lists)?;
        self.sixteen.count(file, plain.err());
        Ok(())
    }

    pub fn mus_load(&mut self, file: &[u8]) -> Checked {
        let wrapper = of_wrapper(turftangle::mus::load_address(file));
        let library = [of_library(raw::mus_load(file)), wrapper];
        let plain = of_plain(plain::mus::load(file));
        self.judge(Call::MusLoad, String::new, library, plain, true)
    }

    pub fn mus_line(&mut self, file: &[u8], line: u32, length: usize, salt: u32) -> Checked {
        self.one.fill(length, pattern(salt));
        let (ours, theirs) = self.one.lend(length);
        let library = of_library(raw::mus_line(file, line, ours));
        let plain = of_plain(plain::mus::line_into(file, line, theirs));
        let arguments = || format!(" {line} into {length}");
        let lists = self.one.same();
        self.judge(Call::MusLine, arguments, [library], plain, lists)
    }

    pub fn mus_voices(&mut self, file: &[u8], length: usize, salt: u32) -> Checked {
        self.one.fill(length, pattern(salt));
        let (ours, theirs) = self.one.lend(length);
        let library = of_library(raw::mus_voices(file, ours));
        let plain = of_plain(plain::mus::voices_into(file, theirs));
        let arguments = || format!(" into {length}");
        let lists = self.one.same();
        self.judge(Call::MusVoices, arguments, [library], plain, lists)
    }

    /// What kind a file is, and the parts of a song: some line, into lists of some lengths.
    pub fn parts(&mut self, rng: &mut Rng, file: &[u8], salt: u32) -> Checked {
        self.kind(file)?;
        self.mus_load(file)?;
        let line = match rng.below(16) {
            0 => rng.pick(&[0, 6, 7, 257, 65_537, u32::MAX - 1, u32::MAX]),
            _ => rng.between(1, 5) as u32,
        };
        self.mus_line(file, line, rng.below(5), salt)?;
        self.mus_voices(file, rng.below(10), salt)
    }

    pub fn mus_list(&mut self, file: &[u8], ask: Ask, salt: u32) -> Checked {
        let Ask { voice, first, .. } = ask;
        self.one.fill(ask.offsets, pattern(salt));
        self.two.fill(ask.jiffies, pattern(!salt));
        let (our_one, their_one) = self.one.lend(ask.offsets);
        let (our_two, their_two) = self.two.lend(ask.jiffies);
        let library = of_library(raw::mus_list(file, voice, first, our_one, our_two));
        let plain = plain::mus::list(file, voice, first, their_one, their_two);
        let plain = of_plain(plain.map(|n| n as u64));
        let lists = self.one.same() && self.two.same();
        let arguments = || format!(" {ask:?}");
        self.judge(Call::MusList, arguments, [library], plain, lists)
    }

    /// Whether the voice is to be played for its length; so is one that is not there.
    fn plays(&self, file: &[u8], voice: u32) -> bool {
        let voices = plain::mus::accept(file).ok();
        let voice = voices.and_then(|voices| voices.get(voice.wrapping_sub(1) as usize).copied());
        voice.map_or(true, |voice| voice.events <= self.most_played)
    }

    /// The plain reader plays the voice; its other way, by maps, and the wrapper must agree.
    pub fn mus_length(&mut self, file: &[u8], voice: u32, length: usize, salt: u32) -> Checked {
        let plays = self.plays(file, voice);
        self.wide.fill(length, wide_pattern(salt));
        let (ours, theirs) = self.wide.lend(length);
        let library = of_library(raw::mus_length(file, voice, ours));
        let maps = of_plain(plain::maps::length(file, voice));
        let played = if plays {
            of_plain(plain::mus::length(file, voice))
        } else {
            maps
        };
        // the only number that there is, where a cell is lent for it
        if let (Ok(time), Some(cell)) = (played, theirs.first_mut()) {
            *cell = time;
        }
        let wrapper = of_wrapper(turftangle::mus::length(file, voice));
        let arguments = || format!(" {voice} into {length}");
        if [maps, wrapper] != [played; 2] {
            let told = format!("tt_mus_length{}", arguments());
            return Err(format!(
                "{told}: maps {maps:?}, wrapper {wrapper:?}, played {played:?}"
            ));
        }
        let lists = self.wide.same();
        let plain = played.map(|_| 1);
        self.judge(Call::MusLength, arguments, [library], plain, lists)?;
        if played.is_ok() {
            self.carried.count(file, voice);
        }
        Ok(())
    }

    /// The length of some voice, at times of one that is not there, into a list of some length.
    pub fn some_length(&mut self, rng: &mut Rng, file: &[u8], salt: u32) -> Checked {
        let voice = match rng.below(16) {
            0 => rng.pick(&[0, 4, 257, u32::MAX]),
            _ => rng.between(1, 3) as u32,
        };
        self.mus_length(file, voice, rng.below(4), salt)
    }

    /// The lengths of the three voices, and of voices that are not there.
    pub fn lengths(&mut self, rng: &mut Rng, file: &[u8], salt: u32) -> Checked {
        for voice in [0, 1, 2, 3, 4, u32::MAX] {
            self.mus_length(file, voice, rng.pick(&[0, 1, 3]), salt)?;
        }
        Ok(())
    }

    pub fn pair_read(&mut self, first: u8, second: u8) -> Checked {
        let wrapper = of_wrapper(turftangle::pair::read_code(first, second));
        let library = [of_library(raw::pair_read(first, second)), wrapper];
        let plain = of_plain(plain::code::read(first, second));
        let arguments = || format!(" {first:02X} {second:02X}");
        self.judge(Call::PairRead, arguments, library, plain, true)
    }

    pub fn pair_write(&mut self, code: u32) -> Checked {
        let wrapper = of_wrapper(turftangle::pair::write_code(code).map(u16::from_be_bytes));
        let library = [of_library(raw::pair_write(code)), wrapper];
        let plain = of_plain(plain::code::write(code));
        let arguments = || format!(" {code:08X}");
        self.judge(Call::PairWrite, arguments, library, plain, true)
    }

    pub fn half_step(&mut self, code: u32) -> Checked {
        // the wrapper takes one off
        let wrapper = turftangle::pair::half_step_of_code(code);
        let wrapper = of_wrapper(wrapper.map(|n| i64::from(n).wrapping_add(1) as u64));
        let library = [of_library(raw::half_step(code)), wrapper];
        let plain = of_plain(plain::code::half_step(code));
        let arguments = || format!(" {code:08X}");
        self.judge(Call::HalfStep, arguments, library, plain, true)
    }

    pub fn sap_read(&mut self, file: &[u8]) -> Checked {
        let wrapper = of_wrapper(turftangle::sap::read(file).map(|()| 0_u64));
        let library = [of_library(raw::sap_read(file)), wrapper];
        let plain = of_plain(plain::sap::read(file).map(|_| 0_u64));
        self.judge(Call::SapRead, String::new, library, plain, true)
    }

    pub fn sap_fields(&mut self, file: &[u8], length: usize, salt: u32) -> Checked {
        self.one.fill(length, pattern(salt));
        let (ours, theirs) = self.one.lend(length);
        let library = of_library(raw::sap_fields(file, ours));
        let plain = of_plain(plain::sap::fields_into(file, theirs));
        let arguments = || format!(" into {length}");
        let lists = self.one.same();
        self.judge(Call::SapFields, arguments, [library], plain, lists)
    }

    pub fn sap_load(&mut self, file: &[u8], length: usize) -> Checked {
        let (ours, theirs) = self.memory.lend(length);
        let library = of_library(raw::sap_load(file, ours));
        let plain = of_plain(plain::sap::load(file, theirs).map(|()| 0_u64));
        let arguments = || format!(" into {length}");
        let lists = self.memory.same();
        self.judge(Call::SapLoad, arguments, [library], plain, lists)
    }

    pub fn sap_time(&mut self, file: &[u8], song: u32) -> Checked {
        let wrapper = turftangle::sap::time(file, song);
        let wrapper = of_wrapper(wrapper.map(|time| time.map_or(u32::MAX, |time| time.number())));
        let library = [of_library(raw::sap_time(file, song)), wrapper];
        let plain = of_plain(plain::sap::time(file, song));
        let arguments = || format!(" of {song}");
        self.judge(Call::SapTime, arguments, library, plain, true)
    }

    pub fn sap_block(&mut self, file: &[u8], number: u32, length: usize, salt: u32) -> Checked {
        self.one.fill(length, pattern(salt));
        let (ours, theirs) = self.one.lend(length);
        let library = of_library(raw::sap_block(file, number, ours));
        let plain = of_plain(plain::sap::block_into(file, number, theirs));
        let arguments = || format!(" {number} into {length}");
        let lists = self.one.same();
        self.judge(Call::SapBlock, arguments, [library], plain, lists)
    }

    /// How often each refusal came from a call, 0 counting the values.
    pub fn tally(&self, call: Call) -> &Tally {
        &self.tallies[call as usize]
    }

    /// How often each refusal came, in words, a line for each call that was made.
    pub fn told(&self) -> String {
        let mut told = String::new();
        for call in Call::ALL {
            let tally = self.tally(call);
            if tally.iter().all(|&count| count == 0) {
                continue;
            }
            let _ = write!(told, "{}: values {}", call.name(), tally[0]);
            for (number, count) in tally.iter().enumerate().skip(1) {
                if *count > 0 {
                    let _ = write!(told, ", {number}: {count}");
                }
            }
            told.push('\n');
        }
        if self.tally(Call::MusAccept).iter().any(|&count| count > 0) {
            let _ = writeln!(told, "{}", self.sixteen);
        }
        if self.tally(Call::MusLength)[0] > 0 {
            let _ = writeln!(told, "{}", self.carried);
        }
        told
    }

    /// Fails where one of these refusals never came from the call; 0 stands for a value.
    pub fn came(&self, call: Call, numbers: impl IntoIterator<Item = usize>) {
        for number in numbers {
            let count = self.tally(call)[number];
            assert!(count > 0, "{} {number} never came", call.name());
        }
    }

    /// Fails too where a refusal came that is none of these.
    pub fn came_alone(&self, call: Call, numbers: impl IntoIterator<Item = usize>) {
        let mut tally = *self.tally(call);
        for number in numbers {
            assert!(tally[number] > 0, "{} {number} never came", call.name());
            tally[number] = 0;
        }
        for (number, count) in tally.into_iter().enumerate() {
            assert_eq!(count, 0, "{} {number} came", call.name());
        }
    }

    /// Fails where one of these refusals came less often from the call; 0 stands for a value.
    pub fn came_often(&self, call: Call, least: &[(usize, u64)]) {
        for &(number, least) in least {
            let count = self.tally(call)[number];
            let name = call.name();
            assert!(
                count >= least,
                "{name} {number} came {count} times of {least}"
            );
        }
    }

    /// Fails where `tt_kind` never gave one of these.
    pub fn kinds_came(&self, kinds: &[usize]) {
        for &kind in kinds {
            assert!(self.kinds[kind] > 0, "kind {kind} never came");
        }
    }
}

/// The arguments of a listing.
#[derive(Clone, Copy, Debug)]
pub struct Ask {
    pub voice: u32,
    pub first: u64,
    /// The lengths of the two lists.
    pub offsets: usize,
    pub jiffies: usize,
}

impl Ask {
    /// A voice, a first event and a window in or beside a voice of this many events; at times two
    /// lists of unequal length, or a voice that is not there.
    pub fn some(rng: &mut Rng, events: [u64; 3], most: usize) -> Ask {
        let number = rng.below(3);
        let events = events[number];
        let first = match rng.below(10) {
            0 | 1 => 0,
            2 => events / 2,
            3 => events.saturating_sub(1),
            4 => events,
            5 => events + 1,
            6 => u64::MAX - rng.below(3) as u64,
            7 => (1 << 32) + rng.below(3) as u64,
            _ => rng.below(events as usize + 1) as u64,
        };
        let left = events.saturating_sub(first) as usize;
        let cells = match rng.below(8) {
            0 => 0,
            1 => 1,
            2 => left.min(most),
            3 => (left + rng.below(4)).min(most),
            4 => rng.below(most),
            _ => rng.below(40.min(most)),
        };
        let voice = match rng.below(30) {
            0 => rng.pick(&[0, 4, 257, u32::MAX]),
            _ => number as u32 + 1,
        };
        let other = if rng.one_in(30) { rng.below(40) } else { cells };
        Ask {
            voice,
            first,
            offsets: cells,
            jiffies: other,
        }
    }
}

/// The file's bytes in hex, as many as a message can hold.
pub fn hex(file: &[u8]) -> String {
    let mut text = format!("{} bytes:", file.len());
    for byte in file.iter().take(400) {
        let _ = write!(text, " {byte:02X}");
    }
    if file.len() > 400 {
        text.push_str(" ..");
    }
    text
}

/// The seeds to run: all, or the one that TURFTANGLE_SEED names.
pub fn seeds(count: u64) -> std::ops::Range<u64> {
    match std::env::var("TURFTANGLE_SEED") {
        Err(_) => 0..count,
        Ok(text) => {
            let seed = text.parse().expect("TURFTANGLE_SEED is a number");
            seed..seed + 1
        }
    }
}

/// Whether every seed is run, so that every refusal has to come.
pub fn all_seeds() -> bool {
    std::env::var_os("TURFTANGLE_SEED").is_none()
}
