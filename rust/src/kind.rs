//! What a file is.

use crate::raw;
use std::fmt;

/// What a file is, found from its content.
///
/// A later release may add kinds.
#[derive(Clone, Copy, Debug, PartialEq, Eq, Hash)]
#[non_exhaustive]
#[repr(u8)]
pub enum Kind {
    /// It begins with neither PSID, RSID nor SAP, and a MUS reader refuses it with 21 to 24.
    Neither = 0,
    /// It begins with PSID.
    Psid = 1,
    /// It begins with RSID.
    Rsid = 2,
    /// A MUS song: it has none of the faults 21 to 24. Where it begins like a SAP file it is an accepted
    /// song, and no accepted SAP file.
    Mus = 3,
    /// Its first line is SAP, and it is not [`Kind::Mus`].
    Sap = 4,
}

impl Kind {
    /// The library's number, 0 to 4.
    ///
    /// ```
    /// assert_eq!(turftangle::Kind::Mus.number(), 3);
    /// ```
    #[must_use]
    pub fn number(self) -> u32 {
        self as u32
    }
}

impl fmt::Display for Kind {
    fn fmt(&self, f: &mut fmt::Formatter<'_>) -> fmt::Result {
        f.pad(match self {
            Kind::Neither => "neither PSID, RSID, MUS nor SAP",
            Kind::Psid => "PSID",
            Kind::Rsid => "RSID",
            Kind::Mus => "MUS",
            Kind::Sap => "SAP",
        })
    }
}

/// What a file is, accepted or not. It refuses no file.
///
/// ```
/// use turftangle::{kind, Kind};
///
/// assert_eq!(kind(b"PSID, and nothing after it"), Kind::Psid);
/// assert_eq!(kind(b"SAP\r\n, and nothing after it"), Kind::Sap);
/// assert_eq!(kind(b"a letter"), Kind::Neither);
/// assert_eq!(kind(b"\x00\x09\x02\x00\x02\x00\x02\x00six bytes, and more"), Kind::Mus);
/// ```
#[must_use]
pub fn kind(file: &[u8]) -> Kind {
    match raw::kind(file) {
        0 => Kind::Neither,
        1 => Kind::Psid,
        2 => Kind::Rsid,
        3 => Kind::Mus,
        4 => Kind::Sap,
        // A test holds the archive's kinds to these.
        number => unreachable!("the library has a kind {number} that this package has not"),
    }
}
