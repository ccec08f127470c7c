//! The commands' names.

use std::fmt;

/// The commands of source document 004; the number is the front of the code.
#[derive(Clone, Copy, Debug, PartialEq, Eq, Hash)]
#[repr(u16)]
pub enum Name {
    /// `P-W`: 0 to 4,095.
    PW = 0x202,
    /// `POR`: 0 to 16,383.
    Por = 0x203,
    /// `TEM`: 1 to 256.
    Tem = 0x206,
    /// `DTN`: -2,048 to 2,047.
    Dtn = 0x20A,
    /// `F-C`: 0 to 255.
    FC = 0x20E,
    /// `UTL`: 0 to 255.
    Utl = 0x216,
    /// `MS#`: 0 to 1,023.
    Ms = 0x21E,
    /// `PNT`: 0 to 255.
    Pnt = 0x226,
    /// `RTP`: -47 to 47.
    Rtp = 0x22E,
    /// `HED`: 0 to 255.
    Hed = 0x236,
    /// `JIF`: -200 to 757.
    Jif = 0x23E,
    /// `FLG`: 0 to 255.
    Flg = 0x246,
    /// `HLD`: 0 to 255.
    Hld = 0x24E,
    /// `P-S`: -128 to 127.
    PS = 0x256,
    /// `F-S`: -128 to 127.
    FS = 0x266,
    /// `SCA`: -7 to 7.
    Sca = 0x26E,
    /// `VDP`: 0 to 127.
    Vdp = 0x276,
    /// `VRT`: 0 to 255.
    Vrt = 0x286,
    /// `AUT`: -128 to 127.
    Aut = 0x296,
    /// `TPS`: -95 to 95.
    Tps = 0x2A6,
    /// `AUX`: 0 to 255.
    Aux = 0x2B6,
    /// `PVD`: 0 to 127.
    Pvd = 0x2C6,
    /// `PVR`: 0 to 127.
    Pvr = 0x2D6,
    /// `MAX`: 0 to 255.
    Max = 0x2E6,
    /// `UTV`: 0 to 255.
    Utv = 0x2F6,
    /// `DCY`: 0 to 15.
    Dcy = 0x300,
    /// `RUP`: 0 to 31.
    Rup = 0x301,
    /// `CAL`: 0 to 23.
    Cal = 0x302,
    /// `BMP`: 0 is UP, 1 DN.
    Bmp = 0x303,
    /// `ATK`: 0 to 15.
    Atk = 0x304,
    /// `RDN`: 0 to 31.
    Rdn = 0x305,
    /// `DEF`: 0 to 23.
    Def = 0x306,
    /// `WAV`: 0 to 7.
    Wav = 0x307,
    /// `RLS`: 0 to 15.
    Rls = 0x308,
    /// `RES`: 0 to 15.
    Res = 0x30A,
    /// `VOL`: 0 to 15.
    Vol = 0x30E,
    /// `TAL`, without a value.
    Tal = 0x30F,
    /// `FLT`: 0 is NO, 1 YES.
    Flt = 0x313,
    /// `F-M`: 0 to 7.
    FM = 0x317,
    /// `SRC`: 0 to 2.
    Src = 0x31F,
    /// `RNG`: 0 is NO, 1 YES.
    Rng = 0x323,
    /// `END`, without a value.
    End = 0x32F,
    /// `SNC`: 0 is NO, 1 YES.
    Snc = 0x333,
    /// `F-X`: 0 is NO, 1 YES.
    FX = 0x343,
    /// `HLT`, without a value.
    Hlt = 0x34F,
    /// `3-0`: 1 is YES.
    ThreeOff = 0x35B,
    /// `LFO`: 0 or 1.
    Lfo = 0x363,
    /// `P&V`: 0 is NO, 1 YES.
    PV = 0x373,
    /// `SUS`: 0 to 15.
    Sus = 0x384,
    /// `DST`: 0 to 3.
    Dst = 0x38F,
}

/// Every command with its abbreviation, in the order of their numbers.
const NAMES: [(Name, &str); 50] = [
    (Name::PW, "P-W"),
    (Name::Por, "POR"),
    (Name::Tem, "TEM"),
    (Name::Dtn, "DTN"),
    (Name::FC, "F-C"),
    (Name::Utl, "UTL"),
    (Name::Ms, "MS#"),
    (Name::Pnt, "PNT"),
    (Name::Rtp, "RTP"),
    (Name::Hed, "HED"),
    (Name::Jif, "JIF"),
    (Name::Flg, "FLG"),
    (Name::Hld, "HLD"),
    (Name::PS, "P-S"),
    (Name::FS, "F-S"),
    (Name::Sca, "SCA"),
    (Name::Vdp, "VDP"),
    (Name::Vrt, "VRT"),
    (Name::Aut, "AUT"),
    (Name::Tps, "TPS"),
    (Name::Aux, "AUX"),
    (Name::Pvd, "PVD"),
    (Name::Pvr, "PVR"),
    (Name::Max, "MAX"),
    (Name::Utv, "UTV"),
    (Name::Dcy, "DCY"),
    (Name::Rup, "RUP"),
    (Name::Cal, "CAL"),
    (Name::Bmp, "BMP"),
    (Name::Atk, "ATK"),
    (Name::Rdn, "RDN"),
    (Name::Def, "DEF"),
    (Name::Wav, "WAV"),
    (Name::Rls, "RLS"),
    (Name::Res, "RES"),
    (Name::Vol, "VOL"),
    (Name::Tal, "TAL"),
    (Name::Flt, "FLT"),
    (Name::FM, "F-M"),
    (Name::Src, "SRC"),
    (Name::Rng, "RNG"),
    (Name::End, "END"),
    (Name::Snc, "SNC"),
    (Name::FX, "F-X"),
    (Name::Hlt, "HLT"),
    (Name::ThreeOff, "3-0"),
    (Name::Lfo, "LFO"),
    (Name::PV, "P&V"),
    (Name::Sus, "SUS"),
    (Name::Dst, "DST"),
];

impl Name {
    /// The first three digits of the command's codes.
    ///
    /// ```
    /// assert_eq!(turftangle::pair::Name::Hed.number(), 0x236);
    /// ```
    #[must_use]
    pub fn number(self) -> u32 {
        self as u32
    }

    /// The command with this number; None where there is none.
    ///
    /// ```
    /// use turftangle::pair::Name;
    ///
    /// assert_eq!(Name::from_number(0x30F), Some(Name::Tal));
    /// assert_eq!(Name::from_number(0x30D), None);
    /// ```
    #[must_use]
    pub fn from_number(number: u32) -> Option<Name> {
        let at = NAMES.binary_search_by_key(&number, |(name, _)| name.number());
        at.ok().map(|at| NAMES[at].0)
    }

    /// Document 004's abbreviation.
    ///
    /// ```
    /// assert_eq!(turftangle::pair::Name::PS.abbreviation(), "P-S");
    /// ```
    #[must_use]
    pub fn abbreviation(self) -> &'static str {
        let row = NAMES.iter().find(|(name, _)| *name == self);
        row.map_or("", |(_, text)| text)
    }
}

impl fmt::Display for Name {
    fn fmt(&self, f: &mut fmt::Formatter<'_>) -> fmt::Result {
        f.pad(self.abbreviation())
    }
}
