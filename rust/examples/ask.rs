//! Says the title of a tune, the name of an Atari song or the first line of a MUS song, or why the
//! file is refused:
//! `cargo run --release --example ask -- FILE`

use std::{env, error, fs};
use turftangle::{kind, latin1, mus, sap, sid, Kind};

fn main() -> Result<(), Box<dyn error::Error>> {
    let name = env::args_os().nth(1).ok_or("name a file")?;
    let file = fs::read(name)?;
    let span = match kind(&file) {
        Kind::Psid | Kind::Rsid => sid::header(&file)?.title,
        Kind::Mus => mus::line(&file, 1)?.unwrap_or_default(),
        Kind::Sap => sap::header(&file)?.name.unwrap_or_default(),
        other => return Err(other.to_string().into()),
    };
    println!("{}", span.of(&file).map(latin1).unwrap_or_default());
    Ok(())
}
