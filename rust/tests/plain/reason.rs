//! The phrases, as the table of docs/INTERFACE.md has them: no paper gives any.

use super::put;

const DOCUMENT: &str = include_str!("../../../docs/INTERFACE.md");

/// By number; empty where there is none.
pub struct Phrases(Vec<&'static str>);

impl Phrases {
    /// Those of the document.
    pub fn new() -> Phrases {
        let mut phrases = Vec::new();
        for (number, phrase) in rows(DOCUMENT) {
            phrases.resize(phrases.len().max(number + 1), "");
            assert_eq!(phrases[number], "", "{number} stands there twice");
            phrases[number] = phrase;
        }
        Phrases(phrases)
    }

    /// The phrase's length in bytes, 0 where there is none, and as much of it as fits.
    pub fn reason_into(&self, number: u32, out: &mut [u8]) -> u32 {
        let phrase = self.0.get(number as usize).map_or("", |phrase| phrase);
        put(phrase.as_bytes(), out);
        phrase.len() as u32
    }

    /// The numbers that have a phrase, in order.
    pub fn numbers(&self) -> Vec<u32> {
        let numbered = (0..).zip(&self.0);
        let spoken = numbered.filter(|(_, phrase)| !phrase.is_empty());
        spoken.map(|(number, _)| number).collect()
    }
}

/// The rows `| number | phrase |` of the section 'The phrases', below its head.
fn rows(document: &'static str) -> impl Iterator<Item = (usize, &'static str)> {
    let section = document
        .lines()
        .skip_while(|&line| line != "## The phrases");
    let section = section.skip(1).take_while(|line| !line.starts_with("## "));
    let rows = section.filter(|line| line.starts_with('|')).skip(2);
    rows.map(|row| {
        let cells: Vec<&str> = row.split('|').map(str::trim).collect();
        match cells[..] {
            ["", number, phrase, ""] => (number.parse().expect("a number"), phrase),
            _ => panic!("a row of the phrases has two cells: {row}"),
        }
    })
}
