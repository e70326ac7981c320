//! Feed and turn again and again, to time them: the modes, and the digest of all that is answered.
//!
//! The proved program `pace` takes the same input and must write the same digest.

use crate::image::{self, Image};
use crate::packet::PACKET;
use crate::turn::Action;
use crate::unit::Unit;

/// Where the status of an answer stands.
const STATUS_AT: usize = 2;

/// Frames of 5 to 10 bytes: immediate ones, lines without `R`, groups, and frames for other units.
const SHORT: &[u8] =
    b"/1?0\r/2A1000R\r/1V305175\r/5gP5G3R\r/1M100\r/AL1000\r/3?2\r/1?2\r/1z12345\r/4D77R\r/_m25\r/1P5D5\r";
/// One frame with a line of 200 bytes, which is checked and loaded.
const LONG: &[u8] =
    b"/1gA1000P200D300M50S01z0G10gA1000P200D300M50S01z0G10gA1000P200D300M50S01z0G10gA1000P200D300M50S01z0G10\
    gA1000P200D300M50S01z0G10gA1000P200D300M50S01z0G10gA1000P200D300M50S01z0G10gA1000P200D300M50S01z0G10\r";

/// The frames of `SHORT` as OEM frames, and that of `LONG`.
const SHORT_OEM: &[u8] = b"\x0211?0\x03\x0e\
    \x0222A1000R\x03\x13\
    \x0213V305175\x03P\
    \x0254gP5G3R\x03$\
    \x0215M100\x03y\
    \x02A6L1000\x03;\
    \x0237?2\x03\x08\
    \x0211?2\x03\x0c\
    \x0212z12345\x03I\
    \x0243D77R\x03\x10\
    \x02_4m25\x03\x00\
    \x0215P5D5\x03\x11";
const LONG_OEM: &[u8] = b"\x0211gA1000P200D300M50S01z0G10gA1000P200D300M50S01z0G10gA1000P200D300M50S01z0G10gA1000P200D300M50S01z0G10\
    gA1000P200D300M50S01z0G10gA1000P200D300M50S01z0G10gA1000P200D300M50S01z0G10gA1000P200D300M50S01z0G10\x03\x01";

/// A line that leads to a position of ten digits, and the turns that serve it.
const FAR: &[u8] = b"/1z2147483647R\r";
const SERVED: u32 = 2;
/// What asks for it.
const ASKS: &[u8] = b"/1?0\r";

/// What is repeated.
#[derive(Clone, Copy, Debug, PartialEq, Eq)]
pub enum Call {
    /// The stream is fed in calls of at most so many bytes.
    Feed(usize),
    /// The same, from a position of ten digits.
    Asks(usize),
    /// The stream is fed once; then in each turn at most so many steps are reported.
    Turn(u32),
}

/// A call and its stream.
#[derive(Clone, Copy, Debug)]
pub struct Mode {
    pub name: &'static str,
    pub call: Call,
    pub stream: &'static [u8],
}

/// All that is timed.
pub const MODES: [Mode; 18] = [
    Mode { name: "feed, short frames, 1 byte a call", call: Call::Feed(1), stream: SHORT },
    Mode { name: "feed, short frames, 16 bytes a call", call: Call::Feed(16), stream: SHORT },
    Mode { name: "feed, short frames, 256 bytes a call", call: Call::Feed(256), stream: SHORT },
    Mode { name: "feed, 200-byte bodies, 1 byte a call", call: Call::Feed(1), stream: LONG },
    Mode { name: "feed, 200-byte bodies, 16 bytes a call", call: Call::Feed(16), stream: LONG },
    Mode { name: "feed, 200-byte bodies, 256 bytes a call", call: Call::Feed(256), stream: LONG },
    Mode { name: "feed, short OEM frames, 1 byte a call", call: Call::Feed(1), stream: SHORT_OEM },
    Mode { name: "feed, short OEM frames, 16 bytes a call", call: Call::Feed(16), stream: SHORT_OEM },
    Mode { name: "feed, short OEM frames, 256 bytes a call", call: Call::Feed(256), stream: SHORT_OEM },
    Mode { name: "feed, 200-byte OEM bodies, 1 byte a call", call: Call::Feed(1), stream: LONG_OEM },
    Mode { name: "feed, 200-byte OEM bodies, 16 bytes a call", call: Call::Feed(16), stream: LONG_OEM },
    Mode { name: "feed, 200-byte OEM bodies, 256 bytes a call", call: Call::Feed(256), stream: LONG_OEM },
    Mode { name: "feed, ten-digit answers, 1 byte a call", call: Call::Asks(1), stream: ASKS },
    Mode { name: "feed, ten-digit answers, a frame a call", call: Call::Asks(5), stream: ASKS },
    Mode { name: "turn, idle", call: Call::Turn(0), stream: b"" },
    Mode { name: "turn, in a move", call: Call::Turn(1), stream: b"/1P2147483647R\r" },
    Mode {
        name: "turn, a command taken",
        call: Call::Turn(0),
        stream: b"/1gz0V1000L100m5J1h7o1500b9600G0R\r",
    },
    Mode {
        name: "turn, a jump",
        call: Call::Turn(0),
        stream: b"/1s0e1A1000P200D300M50S01z0V1000L50R\r/1s1e0R\r/1e0R\r",
    },
];

impl Mode {
    /// The input of `pace`: a line, then the stream.
    pub fn input(&self, times: u32) -> Vec<u8> {
        let line = match self.call {
            Call::Feed(most) => format!("feed {most} {times}\n"),
            Call::Asks(most) => format!("asks {most} {times}\n"),
            Call::Turn(steps) => format!("turn {steps} {times}\n"),
        };
        [line.as_bytes(), self.stream].concat()
    }

    /// Bytes or turns of one time.
    pub fn items(&self) -> usize {
        match self.call {
            Call::Feed(_) | Call::Asks(_) => self.stream.len(),
            Call::Turn(_) => 1,
        }
    }
}

/// A unit with all that is lent to it, and the digest of what it has answered.
struct Paced {
    unit: Unit,
    image: Image,
    buffer: [u8; PACKET],
    sum: u32,
}

/// The digest of what an input asks for; none where it cannot be read.
pub fn digest(input: &[u8]) -> Option<u32> {
    let end = input.iter().position(|&byte| byte == b'\n')?;
    let (line, stream) = (std::str::from_utf8(&input[..end]).ok()?, &input[end + 1..]);
    let mut words = line.split(' ');
    let (call, number, times) = (words.next()?, words.next()?, words.next()?.parse().ok()?);
    let image = image::empty();
    let unit = Unit::start(1, &image).ok()?;
    let mut paced = Paced { unit, image, buffer: [0; PACKET], sum: 0 };
    match call {
        "feed" => paced.feed_times(stream, number.parse().ok()?, times),
        "asks" => {
            paced.feed(FAR, PACKET);
            paced.turns(0, SERVED);
            paced.sum = 0;
            paced.feed_times(stream, number.parse().ok()?, times)
        }
        "turn" => paced.turn_times(stream, number.parse().ok()?, times),
        _ => return None,
    }
    Some(paced.sum)
}

impl Paced {
    fn add(&mut self, number: u32) {
        self.sum = self.sum.wrapping_add(number);
    }

    fn feed_times(&mut self, stream: &[u8], most: usize, times: u32) {
        for _ in 0..times {
            self.feed(stream, most);
        }
    }

    /// The stream fed once, in calls of at most so many bytes.
    fn feed(&mut self, stream: &[u8], most: usize) {
        let mut rest = stream;
        while !rest.is_empty() {
            let piece = &rest[..most.min(rest.len())];
            let Ok(fed) = self.unit.feed(piece, &mut self.image, &mut self.buffer) else {
                return;
            };
            if fed.answered > 0 {
                self.add(fed.answered as u32);
                self.add(self.buffer[STATUS_AT].into());
            }
            self.add(fed.consumed as u32);
            if fed.consumed == 0 {
                return;
            }
            rest = &rest[fed.consumed..];
        }
    }

    /// The stream fed once, then a turn again and again.
    fn turn_times(&mut self, stream: &[u8], steps: u32, times: u32) {
        self.feed(stream, stream.len());
        self.turns(steps, times);
        self.add(self.unit.position().number);
    }

    /// A turn again and again.
    fn turns(&mut self, steps: u32, times: u32) {
        let mut number = 0;
        for i in 0..times {
            let (told, code) = match self.unit.turn(&self.image, (i % 16) as u8, 1, steps.min(number)) {
                Ok(Action::Up(n)) => (n, n),
                Ok(Action::Down(n)) => (n, n.wrapping_add(1)),
                Ok(Action::None) | Err(_) => (0, 7),
            };
            number = told;
            self.add(code);
        }
    }
}

#[cfg(test)]
mod tests {
    use super::*;
    use crate::packet::checksum;

    #[test]
    fn what_is_asked() {
        assert_eq!(digest(b"feed 16 3\n/1?0\r/2A1000R\r/1V305175\r"), Some(687));
        assert_eq!(digest(b"feed 16 0\n/1?0\r"), Some(0));
        // An answer of ten digits is longer by nine.
        assert_eq!(digest(b"asks 16 2\n/1?0\r"), digest(b"feed 16 2\n/1?0\r").map(|sum| sum + 2 * 9));
        assert_eq!(digest(b"turn 0 3\n"), Some(21));
        for bad in [&b""[..], b"feed 16 3", b"feed x 3\n", b"fed 16 3\n", b"turn 16\n"] {
            assert_eq!(digest(bad), None);
        }
    }

    #[test]
    fn the_long_body_has_200_bytes() {
        assert_eq!(LONG.len(), 2 + 200 + 1);
        assert_eq!(crate::line::check_idle(&LONG[2..202]), Ok(()));
    }

    /// The bodies of plain frames, and of OEM frames whose checksums are right, each with its address.
    #[test]
    fn the_oem_frames_are_the_plain_ones() {
        let plain = |stream: &[u8]| {
            stream
                .split_inclusive(|&byte| byte == b'\r')
                .map(|frame| frame[1..frame.len() - 1].to_vec())
                .collect::<Vec<_>>()
        };
        let oem = |stream: &[u8]| {
            let (mut rest, mut found) = (stream, Vec::new());
            while let Some(end) = rest.iter().position(|&byte| byte == 3) {
                assert_eq!(rest[end + 1], checksum(&rest[..=end]));
                found.push([&rest[1..2], &rest[3..end]].concat());
                rest = &rest[end + 2..];
            }
            found
        };
        assert_eq!(oem(SHORT_OEM), plain(SHORT));
        assert_eq!(oem(LONG_OEM), plain(LONG));
    }
}
