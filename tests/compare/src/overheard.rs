//! What occurs in the bytes that `listen` is given, by name, so that a
//! comparison can say that all of it occurred: paper 02, E10.

use crate::address::{alone, reach};
use crate::listen::{heard, Heard, UNITS};
use crate::packet::checksum;
use crate::pieces::{Piece, Pieces};
use crate::BODY;

/// Every name that [`names`] gives.
pub const NAMES: &[&str] = &[
    "nothing",
    "plain frame",
    "plain frame: empty",
    "plain frame: over-long",
    "plain group frame",
    "plain frame to nobody",
    "plain answer",
    "plain answer: 256 bytes",
    "plain answer: no frame before it",
    "plain answer: status refused",
    "plain answer: data refused",
    "plain answer: too long",
    "OEM frame",
    "OEM frame: empty",
    "OEM frame: over-long",
    "OEM frame: wrong checksum",
    "OEM frame: bad sequence byte",
    "OEM group frame",
    "OEM frame to nobody",
    "OEM answer",
    "OEM answer: 256 bytes",
    "OEM answer: no frame before it",
    "OEM answer: wrong checksum",
    "OEM answer: status refused",
    "OEM answer: data refused",
    "OEM answer: too long",
    "CR in the address place",
    "checksum of 2F",
    "checksum of 02",
    "03 too early",
    "dropped",
];

/// The names of what occurs in these bytes, each once.
pub fn names(bytes: &[u8]) -> Vec<&'static str> {
    let mut found = vec![];
    let mut spoken = false;
    for piece in Pieces::of(bytes) {
        found.extend(of_piece(piece, spoken));
        spoken |= matches!(heard(piece), Heard::Frame(_));
    }
    if found.is_empty() {
        found.push("nothing".to_string());
    }
    NAMES.iter().copied().filter(|name| found.iter().any(|made| made == name)).collect()
}

/// The names of one piece; whether a frame was heard before it.
fn of_piece(piece: Piece, spoken: bool) -> Vec<String> {
    match piece {
        Piece::Plain(b"/\r") => vec!["CR in the address place".to_string()],
        Piece::Plain([_, b'0', status, data @ .., 0x03, _]) => answer("plain", *status, data, spoken, true),
        Piece::Plain([_, address, body @ .., _]) => frame("plain", *address, body, None),
        Piece::Oem([_, b'0', status, data @ .., 0x03, sum]) => {
            let right = *sum == checksum(&piece.bytes()[..data.len() + 4]);
            let names = answer("OEM", *status, data, spoken, right);
            names.into_iter().chain(place(*sum)).collect()
        }
        Piece::Oem([_, address, sequence, body @ .., 0x03, sum]) => {
            let right = *sum == checksum(&piece.bytes()[..body.len() + 4]);
            let fault = if right { "bad sequence byte" } else { "wrong checksum" };
            let skipped = (!right || sequence & 0xf0 != 0x30).then_some(fault);
            let names = frame("OEM", *address, body, skipped);
            names.into_iter().chain(place(*sum)).collect()
        }
        Piece::Dropped([0x02, .., 0x03]) if piece.bytes().len() < 4 => vec!["03 too early".to_string()],
        _ => vec!["dropped".to_string()],
    }
}

fn frame(framing: &str, address: u8, body: &[u8], skipped: Option<&str>) -> Vec<String> {
    if let Some(fault) = skipped {
        return vec![format!("{framing} frame: {fault}")];
    }
    if alone(address).is_none() {
        let group = (1..=UNITS as u8).any(|unit| reach(address, unit).is_some());
        return vec![format!("{framing} {}", if group { "group frame" } else { "frame to nobody" })];
    }
    let more = match body.len() {
        0 => Some(format!("{framing} frame: empty")),
        1..=BODY => None,
        _ => Some(format!("{framing} frame: over-long")),
    };
    [format!("{framing} frame")].into_iter().chain(more).collect()
}

fn answer(framing: &str, status: u8, data: &[u8], spoken: bool, right: bool) -> Vec<String> {
    let told = match data.len() {
        _ if !right => ": wrong checksum",
        _ if status & 0xd0 != 0x40 => ": status refused",
        _ if !data.iter().all(|byte| (0x20..=0x7e).contains(byte)) => ": data refused",
        257.. => ": too long",
        _ if !spoken => ": no frame before it",
        BODY => ": 256 bytes",
        _ => "",
    };
    vec![format!("{framing} answer{told}")]
}

/// What stands in the checksum place, where it would begin a frame elsewhere.
fn place(sum: u8) -> Option<String> {
    match sum {
        b'/' | 0x02 => Some(format!("checksum of {sum:02X}")),
        _ => None,
    }
}

#[cfg(test)]
mod tests {
    use super::*;

    #[test]
    fn of_bytes() {
        for (bytes, expected) in [
            (&b"1Q\r"[..], &["nothing"][..]),
            (b"/1Q\r/0\x60\x03\r", &["plain frame", "plain answer"]),
            (b"/0\x60\x03\r/1\r", &["plain frame", "plain frame: empty", "plain answer: no frame before it"]),
            (b"/_\r/0Q\r/\r", &["plain group frame", "plain frame to nobody", "CR in the address place"]),
            (b"\x0211.\x03/", &["OEM frame", "checksum of 2F"]),
            (b"\x021@Q\x03\x21\x021\x03", &["OEM frame: bad sequence byte", "03 too early"]),
            (b"\x020\x70\x03\x41/1", &["OEM answer: status refused", "dropped"]),
            (b"\x020\x70\x03\x02", &["OEM answer: wrong checksum", "checksum of 02"]),
        ] {
            assert_eq!(names(bytes), expected, "{}", bytes.escape_ascii());
        }
    }
}
