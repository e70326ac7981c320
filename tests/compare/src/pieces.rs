//! The line's bytes cut into frames, whoever they are for: paper 02, E1.

use crate::receiver::{END, START};

/// What stands on the line from a byte on that begins a frame.
#[derive(Clone, Copy, Debug, PartialEq, Eq)]
pub enum Piece<'a> {
    /// From `/` to its CR.
    Plain(&'a [u8]),
    /// From 02 to its checksum, right or wrong.
    Oem(&'a [u8]),
    /// One that was dropped, or is not finished.
    Dropped(&'a [u8]),
}

impl<'a> Piece<'a> {
    /// Its bytes.
    pub fn bytes(self) -> &'a [u8] {
        let (Piece::Plain(bytes) | Piece::Oem(bytes) | Piece::Dropped(bytes)) = self;
        bytes
    }
}

/// The pieces of some bytes, one after another. "Bytes outside a frame, LF
/// included, are skipped."
#[derive(Clone, Debug)]
pub struct Pieces<'a> {
    rest: &'a [u8],
}

impl<'a> Pieces<'a> {
    /// The pieces of these bytes.
    pub fn of(bytes: &'a [u8]) -> Self {
        Pieces { rest: bytes }
    }
}

impl<'a> Iterator for Pieces<'a> {
    type Item = Piece<'a>;

    fn next(&mut self) -> Option<Piece<'a>> {
        let begin = self.rest.iter().position(begins)?;
        let piece = first(&self.rest[begin..]);
        self.rest = &self.rest[begin + piece.bytes().len()..];
        Some(piece)
    }
}

/// "02 or `/` begins a new frame everywhere but in the checksum place"
fn begins(byte: &u8) -> bool {
    matches!(*byte, b'/' | START)
}

/// The piece at the head of bytes that begin a frame.
fn first(bytes: &[u8]) -> Piece<'_> {
    let end = if bytes[0] == START { END } else { b'\r' };
    let Some(after) = bytes[1..].iter().position(|byte| *byte == end || begins(byte)) else {
        return Piece::Dropped(bytes);
    };
    let stop = after + 1;
    match bytes[stop] {
        b'\r' => Piece::Plain(&bytes[..=stop]),
        // "03 as address or sequence byte drops the frame."
        END if stop < 3 => Piece::Dropped(&bytes[..=stop]),
        END => bytes.get(..stop + 2).map_or(Piece::Dropped(bytes), Piece::Oem),
        _ => Piece::Dropped(&bytes[..stop]),
    }
}

#[cfg(test)]
mod tests {
    use super::*;
    use Piece::{Dropped, Oem, Plain};

    #[track_caller]
    fn check(bytes: &[u8], expected: &[Piece]) {
        assert_eq!(Pieces::of(bytes).collect::<Vec<_>>(), expected, "{}", bytes.escape_ascii());
    }

    #[test]
    fn whole_ones() {
        check(b"", &[]);
        check(b"1Q\r\n\x03", &[]);
        check(b"x/1Q\r\n/0\x60\x03\r\n", &[Plain(b"/1Q\r"), Plain(b"/0\x60\x03\r")]);
        check(
            b"\x0211Q\r\n\x03\x50\r\x020\x60\x03\x51",
            &[Oem(b"\x0211Q\r\n\x03\x50"), Oem(b"\x020\x60\x03\x51")],
        );
    }

    #[test]
    fn dropped_ones() {
        check(b"/1/1Q\r", &[Dropped(b"/1"), Plain(b"/1Q\r")]);
        check(b"/1\x02/\x02\x0211/", &[b"/1", &b"\x02"[..], b"/", b"\x02", b"\x0211", b"/"].map(Dropped));
        check(b"/1Q", &[Dropped(b"/1Q")]);
        check(b"\x0211Q\x03", &[Dropped(b"\x0211Q\x03")]);
    }

    #[test]
    fn the_address_and_the_sequence_place() {
        check(b"/\r1Q\r", &[Plain(b"/\r")]);
        check(b"\x02\x03/1\r", &[Dropped(b"\x02\x03"), Plain(b"/1\r")]);
        check(b"\x021\x03/1\r", &[Dropped(b"\x021\x03"), Plain(b"/1\r")]);
        check(b"\x02\r\r\x03/1\r", &[Oem(b"\x02\r\r\x03/")]);
    }

    #[test]
    fn the_checksum_place() {
        for sum in *b"/\x02\x03\r" {
            let bytes = [0x02, b'1', b'1', 0x03, sum, b'1', b'Q', b'\r'];
            check(&bytes, &[Oem(&bytes[..5])]);
        }
    }
}
