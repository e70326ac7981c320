//! Answer packets: written by the drive, read by the host.
//!
//! "Packet: `/`, `0`, status, data, 03, CR, LF."

use crate::{Code, BODY};

/// What stands before the status.
const HEAD: [u8; 2] = *b"/0";
/// What stands after the data.
const TAIL: [u8; 3] = [0x03, b'\r', b'\n'];
/// The longest packet, and the least answer buffer that is taken.
pub const PACKET: usize = HEAD.len() + 1 + BODY + TAIL.len();

/// "Status: bit 6 set, bit 5 set when idle after the frame, low four bits the
/// code."
pub fn status(idle: bool, code: Code) -> u8 {
    0x40 | u8::from(idle) << 5 | code as u8
}

/// Writes a packet at the head of a buffer that has room for it; its length.
/// "Answer bytes past the packet are unchanged".
pub fn write(buffer: &mut [u8], status: u8, data: &[u8]) -> usize {
    let (head, rest) = buffer.split_at_mut(HEAD.len() + 1);
    head.copy_from_slice(&[HEAD[0], HEAD[1], status]);
    rest[..data.len()].copy_from_slice(data);
    rest[data.len()..][..TAIL.len()].copy_from_slice(&TAIL);
    head.len() + data.len() + TAIL.len()
}

/// What stands before the status of an OEM answer.
const OEM_HEAD: [u8; 2] = [0x02, b'0'];

/// "The answer is 02, `0`, status, data, 03 and its checksum."
pub fn write_oem(buffer: &mut [u8], status: u8, data: &[u8]) -> usize {
    let mut packet = [&OEM_HEAD[..], &[status], data, &[0x03]].concat();
    packet.push(checksum(&packet));
    buffer[..packet.len()].copy_from_slice(&packet);
    packet.len()
}

/// "the exclusive-or of all bytes".
pub fn checksum(bytes: &[u8]) -> u8 {
    bytes.iter().fold(0, |sum, byte| sum ^ byte)
}

/// A packet as the host reads it.
#[derive(Clone, Copy, Debug, PartialEq, Eq)]
pub struct Packet<'a> {
    /// The status.
    pub status: u8,
    /// The data.
    pub data: &'a [u8],
}

impl Packet<'_> {
    /// Bit 5 of the status.
    pub fn is_idle(&self) -> bool {
        self.status & 0x20 != 0
    }

    /// The low four bits of the status.
    pub fn code(&self) -> u8 {
        self.status & 0x0f
    }
}

/// The one refusal of [`read`].
#[derive(Clone, Copy, Debug, PartialEq, Eq)]
pub struct NoPacket;

/// Reads a slice that is "exactly one packet (status bit 6 set, bits 7 and 4
/// clear, data 0 to 256 bytes of 20 to 7E hex)".
pub fn read(slice: &[u8]) -> Result<Packet<'_>, NoPacket> {
    let [b'/', b'0', status, data @ .., 0x03, b'\r', b'\n'] = slice else {
        return Err(NoPacket);
    };
    judged(status, data)
}

/// Reads a slice that is exactly one OEM answer with its checksum, by the same
/// rule of status and data.
pub fn read_oem(slice: &[u8]) -> Result<Packet<'_>, NoPacket> {
    let [summed @ .., sum] = slice else {
        return Err(NoPacket);
    };
    let [0x02, b'0', status, data @ .., 0x03] = summed else {
        return Err(NoPacket);
    };
    if *sum != checksum(summed) {
        return Err(NoPacket);
    }
    judged(status, data)
}

fn judged<'a>(status: &u8, data: &'a [u8]) -> Result<Packet<'a>, NoPacket> {
    let good_status = status & 0b1101_0000 == 0b0100_0000;
    let good_data = data.len() <= BODY && data.iter().all(|byte| (0x20..=0x7e).contains(byte));
    if !good_status || !good_data {
        return Err(NoPacket);
    }
    Ok(Packet { status: *status, data })
}

#[cfg(test)]
mod tests {
    use super::*;

    #[test]
    fn written_is_read() {
        let mut buffer = [0xee; 300];
        for length in [0, 1, 255, 256] {
            let data = [b'~'; BODY];
            let data = &data[..length];
            let written = write(&mut buffer, status(true, Code::Range), data);
            assert_eq!(written, 6 + length);
            assert_eq!(read(&buffer[..written]), Ok(Packet { status: 0x6b, data }));
            assert!(buffer[written..].iter().all(|&byte| byte == 0xee));
            buffer.fill(0xee);
        }
        assert_eq!(PACKET, 262);
    }

    #[test]
    fn the_forms_that_are_refused() {
        let good = b"/0\x60A5\x03\r\n";
        assert!(read(good).is_ok());
        for place in [0, 1, 5, 6, 7] {
            let mut bad = *good;
            bad[place] ^= 1;
            assert_eq!(read(&bad), Err(NoPacket));
        }
        for end in 0..good.len() {
            assert_eq!(read(&good[..end]), Err(NoPacket));
        }
        assert_eq!(read(&[&good[..], b"\n"].concat()), Err(NoPacket));
        assert_eq!(read(&[&good[..], &good[..]].concat()), Err(NoPacket));
        assert_eq!(read(b"/0\x03\r\n"), Err(NoPacket));
    }

    #[test]
    fn status_and_data_bytes() {
        let taken = |packet: &[u8]| read(packet).is_ok();
        let statuses: Vec<u8> = (0..=255).filter(|&s| taken(&[b'/', b'0', s, 3, 13, 10])).collect();
        let expected: Vec<u8> = (0x40..0x50).chain(0x60..0x70).collect();
        assert_eq!(statuses, expected);
        let data: Vec<u8> = (0..=255).filter(|&d| taken(&[b'/', b'0', 0x40, d, 3, 13, 10])).collect();
        assert_eq!(data, (0x20..0x7f).collect::<Vec<u8>>());
        let long = |length| [&b"/0\x40"[..], &vec![b' '; length], &TAIL].concat();
        assert!(taken(&long(256)));
        assert!(!taken(&long(257)));
    }
}
