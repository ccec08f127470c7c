//! A plain reader of PSID/RSID, MUS and SAP files, written from the papers alone. It shares nothing
//! with the library: the tests hold the two against each other, the benchmark runs both.

// Each program that includes it uses a part of it.
#![allow(dead_code)]

pub mod code;
pub mod maps;
pub mod mus;
pub mod pair;
pub mod reason;
pub mod sap;
pub mod sid;

/// The number and place of document 01.
#[derive(Clone, Copy, Debug, PartialEq, Eq)]
pub struct Refusal {
    pub number: u32,
    pub place: u32,
}

impl Refusal {
    pub fn new(number: u32) -> Refusal {
        Refusal { number, place: 0 }
    }

    pub fn at(number: u32, place: usize) -> Refusal {
        Refusal {
            number,
            place: place as u32,
        }
    }
}

/// What a file is: 1 where it begins like a PSID, 2 like an RSID; 4 where it begins like a SAP file,
/// but 3 where it is an accepted MUS song and no accepted SAP file; else 3 where it has the voices of
/// a MUS song, 0 where it has not.
pub fn kind(file: &[u8]) -> u32 {
    if file.starts_with(b"PSID") {
        1
    } else if file.starts_with(b"RSID") {
        2
    } else if sap::begins(file) {
        if sap::read(file).is_err() && mus::accept(file).is_ok() {
            3
        } else {
            4
        }
    } else if mus::has_voices(file) {
        3
    } else {
        0
    }
}

/// Puts as many of the cells as fit into the front of a list.
fn put<T: Copy>(numbers: &[T], out: &mut [T]) {
    let count = numbers.len().min(out.len());
    out[..count].copy_from_slice(&numbers[..count]);
}
