//! A part of a file, and its bytes as text.

/// A part of a file.
#[derive(Clone, Copy, Debug, Default, PartialEq, Eq, Hash)]
pub struct Span {
    /// The file offset of its first byte.
    pub offset: usize,
    /// How many bytes it has.
    pub length: usize,
}

impl Span {
    /// The bytes of it; None where it does not lie in the file. It lies in the file that it was
    /// read from.
    ///
    /// ```
    /// use turftangle::Span;
    ///
    /// let span = Span { offset: 2, length: 3 };
    /// assert_eq!(span.of(b"A tune"), Some(&b"tun"[..]));
    /// assert_eq!(span.of(b"A tu"), None);
    /// ```
    #[must_use]
    pub fn of(self, file: &[u8]) -> Option<&[u8]> {
        file.get(self.offset..)?.get(..self.length)
    }
}

/// Bytes of ISO 8859-1 as a String: each byte is the code point of its number. The texts of a tune
/// are ISO 8859-1, those of a SAP file ASCII, which is a part of it; of the lines of a song, which are
/// PETSCII, capital letters and digits come out right.
///
/// ```
/// assert_eq!(turftangle::latin1(b"Fr\xE8re Jacques"), "Frère Jacques");
/// ```
#[must_use]
pub fn latin1(bytes: &[u8]) -> String {
    bytes.iter().map(|&byte| char::from(byte)).collect()
}
