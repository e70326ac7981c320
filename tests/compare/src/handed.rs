//! What an operation hands over to be judged, for the kinds.

use crate::bench::read_hex_field;

/// A body, alone in its operation.
#[derive(Clone, Debug, PartialEq, Eq)]
pub struct Handed {
    /// `line` or `frame`.
    pub word: &'static str,
    /// The sequence byte of an OEM frame.
    pub sequence: Option<u8>,
    /// The body.
    pub body: Vec<u8>,
}

impl Handed {
    /// The body of `line`, of a line as it is typed, of an OEM frame, or of a
    /// feed that is one frame.
    pub fn of(operation: &[u8]) -> Option<Handed> {
        let operation = operation.strip_suffix(b"\r").unwrap_or(operation);
        if let Some(hex) = operation.strip_prefix(b"line ") {
            return Some(Handed { word: "line", sequence: None, body: read_hex_field(hex)? });
        }
        let (sequence, body) = if let Some(hex) = operation.strip_prefix(b"feed ") {
            match &read_hex_field(hex)?[..] {
                [b'/', _, body @ .., b'\r'] => (None, body.to_vec()),
                [0x02, _, sequence, body @ .., 0x03, _] => (Some(*sequence), body.to_vec()),
                _ => return None,
            }
        } else if let Some(fields) = operation.strip_prefix(b"oem ") {
            let (sequence, body) = (fields.get(..2)?, fields.get(3..)?);
            (Some(read_hex_field(sequence)?[0]), body.to_vec())
        } else {
            (None, operation.strip_prefix(b"/")?.get(1..)?.to_vec())
        };
        let alone = !body.iter().any(|byte| b"/\r\x02\x03".contains(byte));
        alone.then_some(Handed { word: "frame", sequence, body })
    }
}

#[cfg(test)]
mod tests {
    use super::*;

    #[test]
    fn bodies() {
        let of = |operation: &str| Handed::of(operation.as_bytes());
        let found = |word, sequence, body: &[u8]| Some(Handed { word, sequence, body: body.to_vec() });
        assert_eq!(of("line 41\r"), found("line", None, b"A"));
        assert_eq!(of("/1A5R"), found("frame", None, b"A5R"));
        assert_eq!(of("oem 3a A5R"), found("frame", Some(0x3a), b"A5R"));
        assert_eq!(of("feed 2f3141350d"), found("frame", None, b"A5"));
        assert_eq!(of("feed 023139410300"), found("frame", Some(0x39), b"A"));
        for none in ["feed 2f3141", "feed 2f312f310d", "/1/1", "unit", "line 4", "/", "oem 3g Q", "oem 31"] {
            assert_eq!(of(none), None, "{none}");
        }
    }
}
