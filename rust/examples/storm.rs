//! Many short damaged inputs through every call, held against the plain reader:
//! `cargo run --release --example storm -- COUNT SEED`

#[path = "../tests/check/mod.rs"]
mod check;
#[path = "../tests/make/mod.rs"]
mod make;
#[path = "../tests/plain/mod.rs"]
mod plain;

use check::{hex, Ask, Call, Checked, Checker};
use make::rng::Rng;
use make::{damage, mus, sap, sapdamage, sid};
use std::time::Instant;

/// Longer ones are cut: the storm is about many inputs, not about long ones. A SAP file is not cut,
/// since its data comes last.
const LONGEST: usize = 320;

fn main() {
    let mut arguments = std::env::args().skip(1).map(|word| word.parse::<u64>());
    let (Some(Ok(count)), Some(Ok(seed))) = (arguments.next(), arguments.next()) else {
        eprintln!("storm COUNT SEED");
        std::process::exit(2);
    };
    let start = Instant::now();
    let mut storm = Storm::new(seed);
    let mut differences = 0_u64;
    for number in 0..count {
        if let Err(difference) = storm.next() {
            differences += 1;
            if differences <= 20 {
                println!("input {number}: {difference}\n  {}", hex(&storm.file));
            }
        }
    }
    let seconds = start.elapsed().as_secs_f64();
    let calls = Call::ALL.len();
    println!("{count} inputs from seed {seed}, each through {calls} calls, in {seconds:.1} s");
    println!("{differences} differences");
    print!("{}", storm.checker.told());
    std::process::exit(i32::from(differences > 0));
}

struct Storm {
    rng: Rng,
    checker: Checker,
    /// Files that are accepted, PSID/RSID, MUS and SAP in turn; each input is one of them, damaged.
    right: Vec<Vec<u8>>,
    file: Vec<u8>,
}

impl Storm {
    fn new(seed: u64) -> Storm {
        let mut storm = Storm {
            rng: Rng::new(seed),
            checker: Checker::new(),
            right: vec![Vec::new(); 512],
            file: Vec::new(),
        };
        storm.checker.most_played = 500;
        (0..storm.right.len()).for_each(|at| storm.renew(at));
        storm
    }

    /// Puts another file into one place of the stock.
    fn renew(&mut self, at: usize) {
        let file = &mut self.right[at];
        match at % 3 {
            0 => sid::valid(&mut self.rng, 80, file),
            1 => mus::valid(&mut self.rng, 24, file),
            _ => sap::valid(&mut self.rng, 12, file),
        }
    }

    /// Makes an input and runs it.
    fn next(&mut self) -> Checked {
        if self.rng.one_in(16) {
            let at = self.rng.below(self.right.len());
            self.renew(at);
        }
        let at = self.rng.below(self.right.len());
        self.file.clear();
        self.file.extend_from_slice(&self.right[at]);
        for _ in 0..self.rng.pick(&[0, 1, 1, 1, 2, 2, 3, 5]) {
            match at % 3 {
                0 => damage::sid(&mut self.rng, &mut self.file),
                1 => damage::mus(&mut self.rng, &mut self.file),
                _ => sapdamage::damage(&mut self.rng, &mut self.file),
            }
        }
        if at % 3 < 2 {
            self.file.truncate(LONGEST);
        }
        // a copy with no cell to spare: memcheck sees a read past the end of it
        let file = self.file.clone().into_boxed_slice();
        every_call(&mut self.checker, &mut self.rng, &file)
    }
}

fn every_call(checker: &mut Checker, rng: &mut Rng, file: &[u8]) -> Checked {
    let salt = rng.next() as u32;
    checker.sid_read(file)?;
    checker.sid_fields(file, rng.below(26), salt)?;
    let memory = match rng.below(16) {
        0 => rng.pick(&[0, 1, 65_535, 65_537]),
        _ => 65_536,
    };
    checker.sid_load(file, memory)?;
    checker.sid_speed(file, rng.pick(&[0, 1, 2, 31, 32, 33, 256, 257, u32::MAX]))?;
    checker.mus_accept(file, rng.below(17), salt)?;
    checker.parts(rng, file, salt)?;
    let ask = ask(rng, file);
    checker.mus_list(file, ask, salt)?;
    checker.some_length(rng, file, salt)?;
    let number = rng.pick(&[salt, salt >> 25, salt >> 26]);
    checker.reason(number, rng.below(90), salt)?;
    atari(checker, rng, file, salt)?;
    pairs_and_codes(checker, rng)
}

fn atari(checker: &mut Checker, rng: &mut Rng, file: &[u8], salt: u32) -> Checked {
    checker.sap_read(file)?;
    checker.sap_fields(file, rng.below(26), salt)?;
    let memory = match rng.below(16) {
        0 => rng.pick(&[0, 1, 65_535, 65_537]),
        _ => 65_536,
    };
    checker.sap_load(file, memory)?;
    checker.sap_time(file, rng.pick(&[0, 0, 1, 2, 31, 32, 256, u32::MAX]))?;
    let number = rng.pick(&[0, 0, 1, 2, 3, 8, u32::MAX]);
    checker.sap_block(file, number, rng.below(6), salt)
}

fn pairs_and_codes(checker: &mut Checker, rng: &mut Rng) -> Checked {
    let (first, second) = (rng.byte(), rng.byte());
    checker.pair_read(first, second)?;
    // a code that some pair has, mostly with a digit changed
    let any = rng.next() as u32;
    let code = plain::code::read(first, second).unwrap_or(any);
    let change = rng.below(16) as u32;
    let code = code ^ change << (4 * rng.below(8));
    checker.pair_write(code)?;
    checker.half_step(code)
}

/// A window; near the front in a voice that is long when played, which costs the walk up to it.
fn ask(rng: &mut Rng, file: &[u8]) -> Ask {
    let voices = plain::mus::accept(file);
    let events = voices.map_or([3; 3], |voices| voices.map(|voice| voice.events.min(500)));
    Ask::some(rng, events, 24)
}
