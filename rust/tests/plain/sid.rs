//! PSID and RSID, versions 1 and 2.

use super::{put, Refusal};

/// A part of the file.
#[derive(Clone, Copy)]
pub struct Span {
    pub offset: usize,
    pub length: usize,
}

pub struct Header {
    pub rsid: bool,
    pub version: u16,
    pub load: u16,
    /// As it stands in the file; 0 means the load address.
    pub init_field: u16,
    pub play: u16,
    pub songs: u16,
    pub start: u16,
    pub speed: u32,
    pub flags: u16,
    pub start_page: u8,
    pub page_length: u8,
    pub title: Span,
    pub author: Span,
    pub released: Span,
    pub payload: Span,
}

impl Header {
    /// The effective init address.
    pub fn init(&self) -> u16 {
        if self.init_field == 0 {
            self.load
        } else {
            self.init_field
        }
    }

    /// Flag bit 1: BASIC in an RSID.
    pub fn basic(&self) -> bool {
        self.flags & 2 != 0
    }
}

const MEMORY: usize = 65_536;
/// The lowest place that an RSID may be loaded to or begin at.
const LOWEST: u16 = 0x07E8;

fn word(file: &[u8], at: usize) -> u16 {
    u16::from_be_bytes([file[at], file[at + 1]])
}

fn long(file: &[u8], at: usize) -> u32 {
    u32::from_be_bytes([file[at], file[at + 1], file[at + 2], file[at + 3]])
}

/// The first 31 bytes, cut before the first zero.
fn text(file: &[u8], offset: usize) -> Span {
    let field = &file[offset..offset + 31];
    let length = field.iter().position(|&b| b == 0).unwrap_or(31);
    Span { offset, length }
}

/// The header of an accepted file, or the first of 1 to 13 that applies.
pub fn read(file: &[u8]) -> Result<Header, Refusal> {
    let (rsid, version) = format(file)?;
    let header = fields(file, rsid, version)?;
    place(&header)?;
    pages(&header)?;
    Ok(header)
}

/// Refusals 1 to 4: whether it is an RSID, and its version.
fn format(file: &[u8]) -> Result<(bool, u16), Refusal> {
    if file.len() < 0x76 {
        return Err(Refusal::new(1));
    }
    let rsid = match &file[..4] {
        b"PSID" => false,
        b"RSID" => true,
        _ => return Err(Refusal::new(2)),
    };
    let version = word(file, 4);
    if version != 2 && (rsid || version != 1) {
        return Err(Refusal::new(3));
    }
    if version == 2 && file.len() < 0x7C {
        return Err(Refusal::new(1));
    }
    let data_offset = if version == 1 { 0x76 } else { 0x7C };
    if word(file, 6) != data_offset {
        return Err(Refusal::new(4));
    }
    Ok((rsid, version))
}

/// Refusals 5 to 9, and the fields.
fn fields(file: &[u8], rsid: bool, version: u16) -> Result<Header, Refusal> {
    let (load_field, play) = (word(file, 8), word(file, 12));
    let (songs, start, speed) = (word(file, 14), word(file, 16), long(file, 18));
    if rsid && (load_field != 0 || play != 0 || speed != 0) {
        return Err(Refusal::new(5));
    }
    if songs == 0 || songs > 256 || start > songs {
        return Err(Refusal::new(6));
    }
    let (flags, start_page, page_length, reserved) = match version {
        1 => (0, 0, 0, 0),
        _ => (word(file, 0x76), file[0x78], file[0x79], word(file, 0x7A)),
    };
    if flags & 0xFFC0 != 0 || reserved != 0 {
        return Err(Refusal::new(7));
    }
    if flags & 1 != 0 {
        return Err(Refusal::new(8));
    }
    let (load, payload) = payload(file, version, load_field)?;
    Ok(Header {
        rsid,
        version,
        load,
        init_field: word(file, 10),
        play,
        songs,
        start: start.max(1),
        speed,
        flags,
        start_page,
        page_length,
        title: text(file, 0x16),
        author: text(file, 0x36),
        released: text(file, 0x56),
        payload,
    })
}

/// Refusal 9; the effective load address and the payload.
fn payload(file: &[u8], version: u16, load_field: u16) -> Result<(u16, Span), Refusal> {
    let data = if version == 1 { 0x76 } else { 0x7C };
    let in_data = load_field == 0;
    let offset = if in_data { data + 2 } else { data };
    if file.len() <= offset {
        return Err(Refusal::new(9));
    }
    let load = if in_data {
        u16::from_le_bytes([file[data], file[data + 1]])
    } else {
        load_field
    };
    let length = file.len() - offset;
    Ok((load, Span { offset, length }))
}

/// Refusals 10 to 12.
fn place(header: &Header) -> Result<(), Refusal> {
    if header.load as usize + header.payload.length > MEMORY {
        return Err(Refusal::new(10));
    }
    if !header.rsid {
        return Ok(());
    }
    if header.load < LOWEST {
        return Err(Refusal::new(11));
    }
    let barred = if header.basic() {
        header.init_field != 0
    } else {
        matches!(header.init(), 0..=0x07E7 | 0xA000..=0xBFFF | 0xD000..=0xFFFF)
    };
    if barred {
        return Err(Refusal::new(12));
    }
    Ok(())
}

/// Refusal 13.
fn pages(header: &Header) -> Result<(), Refusal> {
    let (start, length) = (header.start_page as usize, header.page_length as usize);
    let wrong = match start {
        0 | 0xFF => length != 0,
        _ => length == 0 || start + length > 256 || !free(header, start, start + length - 1),
    };
    if wrong {
        return Err(Refusal::new(13));
    }
    Ok(())
}

/// Whether no page from `first` to `last` is touched by the payload or, in an RSID, reserved.
fn free(header: &Header, first: usize, last: usize) -> bool {
    let meets = |from: usize, to: usize| first <= to && from <= last;
    let load = header.load as usize;
    let payload = meets(load / 256, (load + header.payload.length - 1) / 256);
    let reserved = meets(0x00, 0x03) || meets(0xA0, 0xBF) || meets(0xD0, 0xFF);
    !(payload || header.rsid && reserved)
}

/// The 21 fields in the order of docs/INTERFACE.md, as many as fit.
pub fn fields_into(file: &[u8], out: &mut [u32]) -> Result<u32, Refusal> {
    let h = read(file)?;
    let mut cells = [0u32; 21];
    cells[..13].copy_from_slice(&[
        h.rsid.into(),
        h.version.into(),
        h.load.into(),
        h.init().into(),
        h.play.into(),
        h.songs.into(),
        h.start.into(),
        h.speed,
        h.basic().into(),
        (h.flags >> 2 & 3).into(),
        (h.flags >> 4 & 3).into(),
        h.start_page.into(),
        h.page_length.into(),
    ]);
    for (i, span) in [h.title, h.author, h.released, h.payload]
        .iter()
        .enumerate()
    {
        cells[13 + 2 * i] = span.offset as u32;
        cells[14 + 2 * i] = span.length as u32;
    }
    put(&cells, out);
    Ok(21)
}

/// Puts the payload into its place in memory.
pub fn load(file: &[u8], memory: &mut [u8]) -> Result<(), Refusal> {
    if memory.len() != MEMORY {
        return Err(Refusal::new(40));
    }
    let header = read(file)?;
    let Span { offset, length } = header.payload;
    let load = header.load as usize;
    memory[load..load + length].copy_from_slice(&file[offset..offset + length]);
    Ok(())
}

/// The song's bit of the speed field; songs above 32 share bit 31.
pub fn speed(file: &[u8], song: u32) -> Result<u32, Refusal> {
    let header = read(file)?;
    if song == 0 || song > header.songs.into() {
        return Err(Refusal::new(44));
    }
    Ok(header.speed >> (song - 1).min(31) & 1)
}
