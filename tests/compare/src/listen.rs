//! Listening on the bus: paper 02, E10.

use crate::address::alone;
use crate::packet::{self, checksum, NoPacket, Packet};
use crate::pieces::{Piece, Pieces};

/// "a table of sixteen unit records"
pub const UNITS: usize = 16;

/// What was heard of one unit.
#[derive(Clone, Copy, Debug, Default, PartialEq, Eq)]
pub struct Record {
    /// "finished frames to that unit alone (none that E1 skips)"
    pub frames: u32,
    /// "whole answers by 01's host rule"
    pub answers: u32,
    /// "last status"
    pub status: Option<u8>,
}

/// What a piece of the line is to a listener.
#[derive(Clone, Copy, Debug, PartialEq, Eq)]
pub enum Heard {
    /// A frame to this unit alone.
    Frame(u8),
    /// An answer with this status.
    Answer(u8),
    /// Neither.
    Nothing,
}

/// The table, and the unit that an answer belongs to.
#[derive(Clone, Debug, Default)]
pub struct Table {
    records: [Record; UNITS],
    last: Option<u8>,
}

impl Table {
    /// The table of these bytes.
    pub fn of(bytes: &[u8]) -> Self {
        let mut table = Table::default();
        Pieces::of(bytes).for_each(|piece| table.hear(heard(piece)));
        table
    }

    /// The records, of unit 1 first.
    pub fn records(&self) -> &[Record; UNITS] {
        &self.records
    }

    /// "An answer belongs to the unit of the last such frame; with none before
    /// it, it is dropped."
    fn hear(&mut self, heard: Heard) {
        if let Heard::Frame(unit) = heard {
            self.last = Some(unit);
        }
        let Some(unit) = self.last else {
            return;
        };
        let record = &mut self.records[usize::from(unit) - 1];
        match heard {
            Heard::Frame(_) => record.frames = counted(record.frames),
            Heard::Answer(status) => {
                record.answers = counted(record.answers);
                record.status = Some(status);
            }
            Heard::Nothing => {}
        }
    }

    /// "one line per unit in rising order"
    pub fn lines(&self) -> Vec<String> {
        (1..).zip(&self.records).map(|(unit, record)| line(unit, record)).collect()
    }
}

/// "Counts stay at 4294967295 once there."
fn counted(count: u32) -> u32 {
    count.saturating_add(1)
}

/// "number, frames, answers, last status in two hex digits or `--`"
fn line(unit: usize, record: &Record) -> String {
    let status = record.status.map_or("--".to_string(), |status| format!("{status:02X}"));
    format!("{unit} {} {} {status}", record.frames, record.answers)
}

/// What a piece is, "in both framings".
pub fn heard(piece: Piece) -> Heard {
    match piece {
        // "a plain answer counts at its CR": the host's packet has its LF, too.
        Piece::Plain(bytes @ [_, b'0', ..]) => answer(packet::read(&[bytes, b"\n"].concat())),
        Piece::Plain([_, address, .., _]) => frame(*address),
        Piece::Oem(bytes @ [_, b'0', ..]) => answer(packet::read_oem(bytes)),
        Piece::Oem(bytes @ [_, address, ..]) if !is_skipped(bytes) => frame(*address),
        _ => Heard::Nothing,
    }
}

/// "Group frames count for nobody."
fn frame(address: u8) -> Heard {
    alone(address).map_or(Heard::Nothing, Heard::Frame)
}

fn answer(read: Result<Packet, NoPacket>) -> Heard {
    read.map_or(Heard::Nothing, |packet| Heard::Answer(packet.status))
}

/// "a wrong checksum, or a sequence byte outside 30 to 3F, makes the feed skip
/// the frame"
fn is_skipped(frame: &[u8]) -> bool {
    let [summed @ .., sum] = frame else {
        return true;
    };
    let good = matches!(summed, [_, _, 0x30..=0x3f, ..]);
    !good || *sum != checksum(summed)
}

#[cfg(test)]
mod tests {
    use super::*;

    #[test]
    fn counts_stay_at_the_greatest() {
        assert_eq!([0, 1, 4_294_967_294, 4_294_967_295].map(counted), [1, 2, 4_294_967_295, 4_294_967_295]);
        let mut table = Table { last: Some(3), ..Table::default() };
        let full = Record { frames: u32::MAX, answers: u32::MAX, status: Some(0x40) };
        table.records[2] = full;
        table.hear(Heard::Frame(3));
        table.hear(Heard::Answer(0x6b));
        assert_eq!(table.records()[2], Record { status: Some(0x6b), ..full });
        assert_eq!(table.lines()[2], "3 4294967295 4294967295 6B");
    }

    #[test]
    fn the_units_of_frames() {
        for unit in 1..=16 {
            assert_eq!(heard(Piece::Plain(&[b'/', 0x30 + unit, b'\r'])), Heard::Frame(unit));
        }
        for address in (0..=255).filter(|address| !(0x31..=0x40).contains(address)) {
            assert_eq!(heard(Piece::Plain(&[b'/', address, b'\r'])), Heard::Nothing);
        }
        assert_eq!(heard(Piece::Plain(b"/\r")), Heard::Nothing);
        assert_eq!(heard(Piece::Dropped(b"/1Q")), Heard::Nothing);
    }
}
