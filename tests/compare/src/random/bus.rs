//! Random bytes of a bus, commands and answers together, for `listen`: paper
//! 02, E10.

use crate::bench::with_hex;
use crate::packet::checksum;
use crate::random::Random;

/// `listen` with bytes that cannot be read.
const UNREADABLE: &[&str] =
    &["listen", "listen ", "listen 2", "listen 2f3", "listen zz", "listen 2f 31", "listen --", "listen - -"];

/// Bytes that matter somewhere on the line.
const MARKS: &[u8] = b"/\x02\x03\r\n01@A_\x00\x1f \x7e\x7f\x80\xff";

/// How long a stream may get before another piece is added.
const LONG: usize = 3000;

/// Writes what a listener hears. The numbers are the bus's own, so that the
/// scripts beside it do not change with it.
#[derive(Clone, Debug)]
pub struct Bus {
    random: Random,
}

impl Bus {
    /// The bus of a seed.
    pub fn new(seed: u64) -> Self {
        Bus { random: Random::new(!seed) }
    }

    /// At times an operation that listens: two in a hundred.
    pub fn overheard(&mut self) -> Option<Vec<u8>> {
        if !self.random.chance(2) {
            return None;
        }
        if self.random.chance(2) {
            return Some(self.random.pick(UNREADABLE).as_bytes().to_vec());
        }
        let mut operation = with_hex("listen", &self.stream());
        match self.random.below(50) {
            0 => operation.push(b'\r'),
            1 => operation[b"listen".len()..].make_ascii_uppercase(),
            _ => {}
        }
        Some(operation)
    }

    /// The bytes of one operation: mostly short, at times thousands.
    fn stream(&mut self) -> Vec<u8> {
        let pieces = match self.random.below(100) {
            0 => 0,
            1..=3 => 20 + self.random.under(200),
            4 => return self.repeated(),
            _ => 1 + self.random.under(9),
        };
        // The first and the second unit of a stream are spoken to most.
        let units = [self.unit(), self.unit()];
        let mut bytes = Vec::new();
        for _ in 0..pieces {
            if bytes.len() < LONG {
                bytes.extend(self.piece(units));
            }
        }
        if self.random.chance(10) {
            bytes.truncate(self.random.under(bytes.len() + 1));
        }
        bytes
    }

    /// One frame and one answer, hundreds of times.
    fn repeated(&mut self) -> Vec<u8> {
        let unit = self.unit();
        let both = [self.frame(unit, b""), self.answer(0x60, b"")].concat();
        both.repeat(250 + self.random.under(20))
    }

    fn unit(&mut self) -> u8 {
        0x31 + self.random.below(16) as u8
    }

    /// A frame, an answer, both, or what is neither.
    fn piece(&mut self, units: [u8; 2]) -> Vec<u8> {
        let address = self.address(units);
        match self.random.below(21) {
            0..=5 => self.any_frame(address),
            6..=10 => self.any_answer(),
            11..=14 => [self.any_frame(address), self.any_answer()].concat(),
            15 => self.cut(address),
            16..=17 => self.swallowed(address),
            18 => self.too_early(address),
            19 => vec![self.random.pick(MARKS); 1 + self.random.under(3)],
            _ => self.noise(),
        }
    }

    /// Mostly a unit's address, at times that of a group or of nobody.
    fn address(&mut self, units: [u8; 2]) -> u8 {
        match self.random.below(20) {
            0..=1 => self.random.pick(b"ACEGIKMOQUY]_"),
            2 => self.random.pick(b"0B\x41\xb1\xc0\xdf\x2e\x03\r\n"),
            3 => self.random.bits() as u8,
            4..=5 => self.unit(),
            6..=9 => units[1],
            _ => units[0],
        }
    }

    /// A frame of any body, in either framing, right or not.
    fn any_frame(&mut self, address: u8) -> Vec<u8> {
        let body = match self.random.below(20) {
            0..=3 => Vec::new(),
            4 => vec![b'R'; self.random.pick(&[255, 256, 257, 300])],
            5..=6 => self.noise(),
            _ => self.random.pick(&["Q", "A100R", "?0", "TR", "s1P5R", "nonsense", "\r", "\n"]).into(),
        };
        let mut frame = self.frame(address, &body);
        let end = frame.len() - 1;
        if frame[0] == 0x02 && self.random.chance(15) {
            frame[end] = match self.random.below(2) {
                0 => self.random.pick(b"/\x02\x03\r"),
                _ => frame[end] ^ 1 << self.random.below(8),
            };
        }
        frame
    }

    /// A frame of either framing, at times with a byte that is no sequence
    /// byte.
    fn frame(&mut self, address: u8, body: &[u8]) -> Vec<u8> {
        if self.random.chance(50) {
            return [&[b'/', address], body, b"\r"].concat();
        }
        let sequence = match self.random.below(20) {
            0 => self.random.pick(b"\x2f\x40\x02\x03\r\xb1\x60"),
            1 => self.random.bits() as u8,
            _ => 0x30 + self.random.below(16) as u8,
        };
        summed([&[0x02, address, sequence], body, &[0x03]].concat())
    }

    /// An answer of any status and data, in either framing, right or not.
    fn any_answer(&mut self) -> Vec<u8> {
        let good = self.random.pick(&[0x40, 0x60]) | self.random.below(16) as u8;
        let status = match self.random.below(20) {
            0..=1 => good ^ 1 << self.random.below(8),
            2 => self.random.bits() as u8,
            _ => good,
        };
        let data = self.data();
        let mut answer = self.answer(status, &data);
        let end = answer.len() - 1;
        if answer[0] == 0x02 && self.random.chance(10) {
            answer[end] = self.random.pick(&[b'/', 0x02, 0x03, answer[end] ^ 1, answer[end] ^ 0x80]);
        }
        answer
    }

    /// Data as the host takes it, at times with a byte that it does not take.
    fn data(&mut self) -> Vec<u8> {
        let length = match self.random.below(20) {
            0..=7 => 0,
            8..=9 => 1,
            10..=12 => self.random.pick(&[255, 256, 257]),
            13 => self.random.pick(&[254, 258, 259, 300, 513]),
            _ => self.random.under(12),
        };
        // Without `/`, which begins a frame.
        let mut data: Vec<u8> = (0..length).map(|_| 0x30 + self.random.below(0x4f) as u8).collect();
        if length > 0 && self.random.chance(25) {
            let place = self.random.pick(&[0, length - 1, self.random.clone().under(length)]);
            data[place] = self.random.pick(MARKS);
        }
        data
    }

    /// An answer of either framing; a plain one at times with another end.
    fn answer(&mut self, status: u8, data: &[u8]) -> Vec<u8> {
        if self.random.chance(50) {
            return summed([&[0x02, b'0', status], data, &[0x03]].concat());
        }
        let tail = match self.random.below(10) {
            0..=5 => "\x03\r\n",
            6..=7 => "\x03\r",
            _ => self.random.pick(&["\x03", "\r\n", "\x03\n\r", "\x03\x03\r", "\x03 \r", "\x03\x02\r", ""]),
        };
        [&[b'/', b'0', status], data, tail.as_bytes()].concat()
    }

    /// A frame or an answer that lacks its end, its beginning or a byte.
    fn cut(&mut self, address: u8) -> Vec<u8> {
        let mut piece = if self.random.chance(50) { self.any_frame(address) } else { self.any_answer() };
        let place = self.random.under(piece.len());
        match self.random.below(4) {
            0 => piece.truncate(place),
            1 => drop(piece.drain(..place)),
            2 => drop(piece.remove(place)),
            _ => piece[place] = self.random.pick(MARKS),
        }
        piece
    }

    /// An OEM frame or answer with a checksum of 2F or 02, mostly right, and
    /// behind it what would count if that began a frame.
    fn swallowed(&mut self, address: u8) -> Vec<u8> {
        let sum = self.random.pick(b"/\x02");
        let sequence = if self.random.chance(70) { 0x31 } else { 0x60 };
        let first = self.random.pick(&[address, b'0']);
        let mut frame = vec![0x02, first, sequence, b'5'];
        // The last byte of the body makes the checksum what it is to be.
        frame.push(checksum(&frame) ^ 0x03 ^ sum);
        frame.extend([0x03, sum]);
        let behind = match (sum, self.random.chance(50)) {
            (b'/', true) => [&[address], &b"Q\r"[..]].concat(),
            (b'/', false) => b"0\x60\x03\r".to_vec(),
            (_, true) => summed(vec![0x02, address, b'1', b'Q', 0x03])[1..].to_vec(),
            (_, false) => summed(b"\x020\x60\x03".to_vec())[1..].to_vec(),
        };
        [frame, behind].concat()
    }

    /// What ends a frame in its address or sequence place, and behind it
    /// another one, whole or without its first byte.
    fn too_early(&mut self, address: u8) -> Vec<u8> {
        let begun = match self.random.below(4) {
            0 => b"/\r".to_vec(),
            1 => vec![0x02, 0x03],
            _ => vec![0x02, self.random.pick(&[address, b'0']), 0x03],
        };
        let next = if self.random.chance(50) { self.any_frame(address) } else { self.any_answer() };
        [&begun, &next[self.random.under(2)..]].concat()
    }

    fn noise(&mut self) -> Vec<u8> {
        let length = 1 + self.random.under(8);
        let byte = |random: &mut Random| match random.below(3) {
            0 => random.pick(MARKS),
            1 => random.bits() as u8,
            _ => 0x30 + random.below(0x10) as u8,
        };
        (0..length).map(|_| byte(&mut self.random)).collect()
    }
}

/// Bytes from 02 to 03, with their checksum.
fn summed(mut bytes: Vec<u8>) -> Vec<u8> {
    bytes.push(checksum(&bytes));
    bytes
}

#[cfg(test)]
mod tests {
    use super::*;
    use crate::address::Reach;
    use crate::bench::Bench;
    use crate::listen::Table;
    use crate::receiver::Receiver;

    #[test]
    fn operations() {
        let mut bus = Bus::new(1);
        let mut longest = 0;
        for _ in 0..50_000 {
            let Some(operation) = bus.overheard() else { continue };
            assert!(operation.starts_with(b"listen") && !operation.contains(&b'\n'));
            longest = longest.max(operation.len() / 2);
        }
        assert!((2000..4000).contains(&longest), "{longest}");
    }

    /// How many frames a drive takes from these bytes as its own.
    fn taken(unit: u8, mut bytes: &[u8]) -> u32 {
        let mut receiver = Receiver::new(unit);
        let mut count = 0;
        while !bytes.is_empty() {
            let (consumed, frame) = receiver.take(bytes);
            count += u32::from(matches!(frame, Some((Reach::Alone, _))));
            bytes = &bytes[consumed..];
        }
        count
    }

    #[test]
    fn a_listener_counts_the_frames_that_the_drives_take() {
        let mut bus = Bus::new(2);
        for _ in 0..2000 {
            let bytes = bus.stream();
            let heard = Table::of(&bytes).records().map(|record| record.frames);
            let drives: Vec<u32> = (1..=16).map(|unit| taken(unit, &bytes)).collect();
            assert_eq!(heard[..], drives, "{}", bytes.escape_ascii());
        }
    }

    #[test]
    fn what_cannot_be_read_is_told_so() {
        for line in UNREADABLE {
            let mut answer = Vec::new();
            Bench::new().answer(line.as_bytes(), &mut answer);
            assert!(answer.starts_with(b"? "), "{line}");
        }
    }
}
