//! The receiver: bytes in, frames out.

use crate::address::{reach, Reach};
use crate::BODY;

/// How a frame is framed.
#[derive(Clone, Copy, Debug, PartialEq, Eq)]
pub enum Framing {
    /// `/`, address, body, CR.
    Plain,
    /// "02, address, sequence byte, body, 03, then the exclusive-or of all
    /// bytes from 02 to 03". "The sequence byte is 30 hex plus a number in its
    /// low three bits, with bit 3 for a repeat."
    Oem {
        /// The number.
        number: u8,
        /// The repeat bit.
        repeat: bool,
    },
}

/// Begins an OEM frame.
pub(crate) const START: u8 = 0x02;
/// Ends the body of an OEM frame.
pub(crate) const END: u8 = 0x03;

/// A frame for this unit that was ended: how it came, and how it was framed.
pub type Frame = (Reach, Framing);

/// Where the next byte falls.
#[derive(Clone, Copy, Debug, PartialEq, Eq)]
enum Place {
    /// Outside a frame, or in one for somebody else.
    Outside,
    /// In the address place.
    Address,
    /// In the body of a frame for this unit.
    Body(Reach),
    /// In the address place of an OEM frame.
    OemAddress,
    /// In its sequence place.
    OemSequence(Option<Reach>),
    /// In its body; of a frame for this unit with a good sequence byte, what
    /// it will be.
    OemBody(Option<Frame>),
    /// In its checksum place.
    OemSum(Option<Frame>),
}

/// What the unit keeps of an unfinished frame.
#[derive(Clone, Debug)]
pub struct Receiver {
    unit: u8,
    place: Place,
    bytes: [u8; BODY],
    /// How many bytes the body has; `BODY + 1` stands for all longer ones.
    length: usize,
    /// The exclusive-or of the bytes of an OEM frame so far.
    sum: u8,
}

impl Receiver {
    /// The receiver of a unit, outside a frame.
    pub fn new(unit: u8) -> Self {
        Receiver { unit, place: Place::Outside, bytes: [0; BODY], length: 0, sum: 0 }
    }

    /// The unit's number.
    pub fn unit(&self) -> u8 {
        self.unit
    }

    /// Takes bytes "up to and with the CR of the first frame for this unit or
    /// its groups", or its checksum, "else all it was given": how many, and
    /// that frame.
    pub fn take(&mut self, bytes: &[u8]) -> (usize, Option<Frame>) {
        for (place, &byte) in bytes.iter().enumerate() {
            if let Some(frame) = self.push(byte) {
                return (place + 1, Some(frame));
            }
        }
        (bytes.len(), None)
    }

    /// One byte; the frame when this byte ended one for this unit.
    fn push(&mut self, byte: u8) -> Option<Frame> {
        let before = self.place;
        let sum = self.sum;
        self.sum ^= byte;
        match (before, byte) {
            // "a wrong checksum [..] makes the feed skip the frame"
            (Place::OemSum(frame), checksum) => {
                self.place = Place::Outside;
                return frame.filter(|_| checksum == sum);
            }
            // "02 or `/` begins a new frame everywhere but in the checksum
            // place"
            (_, b'/') => self.place = Place::Address,
            (_, START) => {
                self.place = Place::OemAddress;
                self.sum = START;
            }
            // "03 as address or sequence byte drops the frame."
            (Place::OemAddress | Place::OemSequence(_), END) => self.place = Place::Outside,
            (Place::OemAddress, address) => self.place = Place::OemSequence(reach(address, self.unit)),
            (Place::OemSequence(reach), byte) => {
                let good = byte & 0xf0 == 0x30;
                let framing = Framing::Oem { number: byte & 7, repeat: byte & 8 != 0 };
                self.length = 0;
                self.place = Place::OemBody(reach.filter(|_| good).map(|reach| (reach, framing)));
            }
            (Place::OemBody(frame), END) => self.place = Place::OemSum(frame),
            (Place::OemBody(_), byte) => self.keep(byte),
            // "Bytes outside a frame, LF included, are skipped."
            (Place::Outside, _) => {}
            // "A CR in the address place ends the frame with no effect."
            (Place::Address, b'\r') => self.place = Place::Outside,
            (Place::Address, address) => {
                self.length = 0;
                self.place = reach(address, self.unit).map_or(Place::Outside, Place::Body);
            }
            (Place::Body(reach), b'\r') => {
                self.place = Place::Outside;
                return Some((reach, Framing::Plain));
            }
            (Place::Body(_), byte) => self.keep(byte),
        }
        None
    }

    fn keep(&mut self, byte: u8) {
        if let Some(free) = self.bytes.get_mut(self.length) {
            *free = byte;
        }
        self.length = (self.length + 1).min(BODY + 1);
    }

    /// The body of the frame that was just ended; none when it is over 256
    /// bytes.
    pub fn body(&self) -> Option<&[u8]> {
        self.bytes.get(..self.length)
    }
}

#[cfg(test)]
mod tests {
    use super::*;

    fn bodies(unit: u8, bytes: &[u8]) -> Vec<Option<Vec<u8>>> {
        let mut receiver = Receiver::new(unit);
        let mut rest = bytes;
        let mut found = Vec::new();
        while !rest.is_empty() {
            let (consumed, frame) = receiver.take(rest);
            if frame.is_some() {
                found.push(receiver.body().map(<[u8]>::to_vec));
            }
            rest = &rest[consumed..];
        }
        found
    }

    #[test]
    fn a_slash_drops_what_was_begun() {
        assert_eq!(bodies(1, b"/1/1Q\r"), [Some(b"Q".to_vec())]);
        assert_eq!(bodies(1, b"/1A5//1\r"), [Some(vec![])]);
        assert_eq!(bodies(1, b"/2A5/1Q\rQ\r"), [Some(b"Q".to_vec())]);
    }

    #[test]
    fn carriage_return_in_the_address_place() {
        assert_eq!(bodies(1, b"/\r1Q\r"), []);
        assert_eq!(bodies(1, b"/\r/1Q\r"), [Some(b"Q".to_vec())]);
    }

    #[test]
    fn bytes_outside_a_frame() {
        assert_eq!(bodies(1, b"\n1Q\r\n/1\n\r\nQ\r"), [Some(b"\n".to_vec())]);
    }

    #[test]
    fn consumed_is_the_place_of_the_first_end() {
        let mut receiver = Receiver::new(3);
        let alone = Some((Reach::Alone, Framing::Plain));
        assert_eq!(receiver.take(b"x/1Q\r/3Q\r/3Q\r"), (9, alone));
        assert_eq!(receiver.take(b"/3Q"), (3, None));
        assert_eq!(receiver.take(b"\r\r"), (1, alone));
        assert_eq!(receiver.take(b"/CQ\r."), (4, Some((Reach::Group, Framing::Plain))));
        assert_eq!(receiver.take(b""), (0, None));
    }

    #[test]
    fn the_examples_of_the_older_manual() {
        let oem = |number| Some((Reach::Alone, Framing::Oem { number, repeat: false }));
        let mut receiver = Receiver::new(1);
        assert_eq!(receiver.take(b"\x0211A12345R\x03\x23\r"), (12, oem(1)));
        assert_eq!(receiver.body(), Some(&b"A12345R"[..]));
        assert_eq!(receiver.take(b"\x0211gA1000M500A0M500G10R\x03\x43"), (25, oem(1)));
        assert_eq!(receiver.body(), Some(&b"gA1000M500A0M500G10R"[..]));
    }

    #[test]
    fn oem_frames_that_are_skipped() {
        // A wrong checksum, a sequence byte over 3F, 03 too early, `/` within.
        assert_eq!(bodies(1, b"\x0211A12345R\x03\x24/1Q\r"), [Some(b"Q".to_vec())]);
        assert_eq!(bodies(1, b"\x021\x40Q\x03\x21/1R\r"), [Some(b"R".to_vec())]);
        assert_eq!(bodies(1, b"\x02\x03\x021\x03/1R\r"), [Some(b"R".to_vec())]);
        assert_eq!(bodies(1, b"\x0211P5/1R\r"), [Some(b"R".to_vec())]);
        // 2F in the checksum place of a frame for another unit.
        assert_eq!(bodies(1, b"\x0221-\x03/1Q\r"), []);
    }

    #[test]
    fn body_of_256_and_257_bytes() {
        let mut bytes = b"/1".to_vec();
        bytes.extend([b'R'; 256]);
        bytes.push(b'\r');
        assert_eq!(bodies(1, &bytes), [Some(vec![b'R'; 256])]);
        bytes.insert(2, b'R');
        assert_eq!(bodies(1, &bytes), [None]);
        bytes.splice(2..2, [b'R'; 1000]);
        assert_eq!(bodies(1, &bytes), [None]);
    }
}
