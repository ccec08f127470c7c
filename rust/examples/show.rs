//! Says what the library says of files: `cargo run --release --example show -- FILE..`

use std::{env, fs};
use turftangle::{kind, latin1, mus, pair, sap, sid, Kind, Reason, Refusal, Span};

fn main() {
    for name in env::args().skip(1) {
        match fs::read(&name) {
            Err(error) => println!("{name}: {error}"),
            Ok(file) => show(&name, &file),
        }
    }
}

/// A file by its kind.
fn show(name: &str, file: &[u8]) {
    let kind = kind(file);
    let shown = match kind {
        Kind::Psid | Kind::Rsid => tune(name, file),
        Kind::Sap => atari(name, file),
        _ => song(name, file),
    };
    if let Err(refusal) = shown {
        println!("{name}: {kind}, {refusal}");
        match (mus::pair_at(file, refusal.place), refusal.reason) {
            (Ok(Some((voice, _))), Reason::TooDeep | Reason::TooLong) => {
                println!("  that is voice {voice}");
            }
            (Ok(Some((voice, number))), _) => {
                println!("  that is pair {number} of voice {voice}, counted from 0");
            }
            _ => {}
        }
    }
}

/// A part of the file as text.
fn text(file: &[u8], span: Span) -> String {
    span.of(file).map(latin1).unwrap_or_default()
}

/// A PSID or RSID tune.
fn tune(name: &str, file: &[u8]) -> Result<(), Refusal> {
    let header = sid::header(file)?;
    println!("{name}: {} version {}", header.format, header.version);
    println!("  title: {}", text(file, header.title));
    println!("  author: {}", text(file, header.author));
    println!("  released: {}", text(file, header.released));
    println!(
        "  load ${:04X}, init ${:04X}, play ${:04X}, payload of {} bytes",
        header.load, header.init, header.play, header.payload.length
    );
    println!("  clock {}, model {}", header.clock, header.model);
    println!("  songs: {}, starts with {}", header.songs, header.start);
    for song in 1..=header.songs.min(4) {
        println!("    song {song}: {}", sid::speed(file, song)?);
    }
    Ok(())
}

/// A SAP song: its texts, how it is played, its times and its blocks.
fn atari(name: &str, file: &[u8]) -> Result<(), Refusal> {
    let header = sap::header(file)?;
    println!("{name}: SAP, {}", header.player);
    let texts = [
        ("author", header.author),
        ("name", header.name),
        ("date", header.date),
    ];
    for (what, span) in texts {
        if let Some(span) = span {
            println!("  {what}: {}", text(file, span));
        }
    }
    match header.player {
        sap::Player::B { init, player } => println!("  init ${init:04X}, player ${player:04X}"),
        sap::Player::C { music, player } => println!("  music ${music:04X}, player ${player:04X}"),
        sap::Player::D {
            init,
            player: Some(player),
        } => println!("  init ${init:04X}, player ${player:04X}"),
        sap::Player::D { init, player: None } | sap::Player::S { init } => {
            println!("  init ${init:04X}");
        }
    }
    let machine = if header.ntsc { "NTSC" } else { "PAL" };
    println!("  {machine}, every {} scanlines", header.fastplay);
    println!(
        "  songs: {}, starts with {}",
        header.songs, header.default_song
    );
    for song in 0..header.songs {
        match sap::time(file, song)? {
            Some(time) => println!("    song {song}: {time}"),
            None => println!("    song {song}: time unknown"),
        }
    }
    for number in 0.. {
        let Some(block) = sap::block(file, number)? else {
            break;
        };
        let sap::Block {
            start, end, offset, ..
        } = block;
        println!("  block {number} at {offset}: ${start:04X}-${end:04X}");
    }
    Ok(())
}

/// A MUS song: its lines, each voice's counts, its length and its first events.
fn song(name: &str, file: &[u8]) -> Result<(), Refusal> {
    let voices = mus::accept(file)?;
    println!("{name}: MUS, load ${:04X}", mus::load_address(file)?);
    for number in 1..=5 {
        let line = mus::line(file, number)?.unwrap_or_default();
        println!("  line {number}: {}", text(file, line));
    }
    for (number, voice) in (1..).zip(voices) {
        println!(
            "  voice {number}: offset {}, pairs {}, events {}, pairs walked {}",
            voice.offset, voice.pairs, voice.events, voice.walked
        );
        let length = mus::length(file, number)?;
        println!(
            "    length: {} jiffies and {}/384",
            length / 384,
            length % 384
        );
        for event in mus::events(file, number)?.take(8) {
            let at = event.offset;
            let meaning = pair::read(file[at], file[at + 1])?;
            println!(
                "    event {} at {}, jiffy {}: {meaning}",
                event.number, event.offset, event.jiffy
            );
        }
    }
    Ok(())
}
