//! Turftangle for Rust: reads PSID/RSID tunes, Sidplayer MUS songs and Atari SAP songs.
//!
//! Safe wrappers over the twenty functions of the proved library (`include/turftangle.h`,
//! `docs/INTERFACE.md`). Every file of every length and every number gets an answer. What the
//! library cannot take is a [`Refusal`], and a refusal leaves every lent list as it was.
//!
//! * [`sid`]: PSID and RSID tunes
//! * [`mus`]: Sidplayer MUS songs
//! * [`pair`]: one pair of a MUS voice, read and written
//! * [`sap`]: SAP songs of the Atari
//! * [`kind`] says which of them a file is
//!
//! [`mus::list`] and the functions whose names end in `_into` or `_code` take and hand out numbers and
//! lists, as the C calls do, for callers that want no types of ours.
//!
//! Offsets, lengths of parts and counts are `usize`, addresses `u16`, the numbers of voices, lines,
//! songs and blocks `u32`, those of events and of 384ths of a jiffy `u64`.
//!
//! ```
//! use turftangle::{kind, latin1, mus, sap, sid, Kind, Refusal};
//!
//! /// The title of a tune, the name of an Atari song, or the first line of a MUS song.
//! fn title(file: &[u8]) -> Result<String, Refusal> {
//!     let span = match kind(file) {
//!         Kind::Psid | Kind::Rsid => sid::header(file)?.title,
//!         Kind::Sap => sap::header(file)?.name.unwrap_or_default(),
//!         _ => mus::line(file, 1)?.unwrap_or_default(),
//!     };
//!     Ok(span.of(file).map(latin1).unwrap_or_default())
//! }
//!
//! # let tune = include_bytes!(concat!(env!("CARGO_MANIFEST_DIR"), "/../crates/sidinfo/stdin"));
//! # let song = include_bytes!(concat!(env!("CARGO_MANIFEST_DIR"), "/../crates/muscheck/stdin"));
//! assert_eq!(title(tune)?, "Scale");
//! assert_eq!(title(song)?, "TURFTANGLE REEL");
//! # let atari = include_bytes!(concat!(env!("CARGO_MANIFEST_DIR"), "/tests/data/inside.sap"));
//! assert_eq!(title(atari)?, "Inside");
//! let refusal = title(&song[..30]).unwrap_err();
//! assert_eq!(refusal.number(), 24);
//! println!("{refusal}"); // the number, and a phrase that tells a person what is wrong
//! # Ok::<(), Refusal>(())
//! ```

#![deny(missing_docs)]
#![deny(unsafe_code)]

mod kind;
pub mod mus;
pub mod pair;
#[allow(unsafe_code)]
mod raw;
mod refusal;
pub mod sap;
pub mod sid;
mod span;

pub use kind::{kind, Kind};
pub use refusal::{reason_into, Reason, Refusal, PHRASE_MOST};
pub use span::{latin1, Span};

/// The Rust blocks of the documents, run as doctests.
#[cfg(doctest)]
mod documents {
    #[doc = include_str!("../../README.md")]
    struct Readme;

    #[doc = include_str!("../../docs/INTERFACE.md")]
    struct Interface;
}
