//! The host's side: "writing a line from a list of commands".

use crate::decimal::Decimal;
use crate::fault::Fault;
use crate::line::check_idle;
use crate::{Code, BODY};

/// One command of the host's list: a letter and a number that may be out of
/// its range. For `H` and `S` the number's two digits are level and input; for
/// `g` it is not looked at.
#[derive(Clone, Copy, Debug, PartialEq, Eq)]
pub struct Item {
    letter: u8,
    operand: u32,
}

impl Item {
    /// The command, if the letter is one of a command.
    pub fn new(letter: u8, operand: u32) -> Option<Self> {
        b"APDzZVLfFmhjoJbMgGHSe".contains(&letter).then_some(Item { letter, operand })
    }
}

/// Why a line is not written.
#[derive(Clone, Copy, Debug, PartialEq, Eq)]
pub enum HostRefusal {
    /// "list that the line check refuses or whose line passes 256 bytes"; the
    /// place is that in the line.
    Line(Fault),
    /// "then buffer too short"
    Buffer,
}

/// Writes "a slot or none, commands, and `R` or none [..] as a body alone":
/// how many bytes. A refusal leaves the buffer unchanged.
pub fn write(slot: Option<u32>, list: &[Item], run: bool, buffer: &mut [u8]) -> Result<usize, HostRefusal> {
    let body = Draft::of(slot, list, run).ok_or(HostRefusal::Line(Fault::nowhere(Code::Letter)))?;
    let body = body.bytes();
    check_idle(body).map_err(HostRefusal::Line)?;
    let Some(place) = buffer.get_mut(..body.len()) else {
        return Err(HostRefusal::Buffer);
    };
    place.copy_from_slice(body);
    Ok(body.len())
}

/// A body as it is being written.
struct Draft {
    bytes: [u8; BODY],
    length: usize,
}

impl Draft {
    /// The whole list; none when it passes 256 bytes.
    fn of(slot: Option<u32>, list: &[Item], run: bool) -> Option<Self> {
        let mut draft = Draft { bytes: [0; BODY], length: 0 };
        if let Some(slot) = slot {
            draft.push(b"s")?;
            draft.push(Decimal::new(slot).bytes())?;
        }
        for item in list {
            draft.item(item)?;
        }
        if run {
            draft.push(b"R")?;
        }
        Some(draft)
    }

    /// "operands without leading zeros, `H` and `S` as two digits, `G` always
    /// with its number"
    fn item(&mut self, item: &Item) -> Option<()> {
        self.push(&[item.letter])?;
        match item.letter {
            b'g' => return Some(()),
            b'H' | b'S' if item.operand < 10 => self.push(b"0")?,
            _ => {}
        }
        self.push(Decimal::new(item.operand).bytes())
    }

    fn push(&mut self, bytes: &[u8]) -> Option<()> {
        let end = self.length + bytes.len();
        self.bytes.get_mut(self.length..end)?.copy_from_slice(bytes);
        self.length = end;
        Some(())
    }

    fn bytes(&self) -> &[u8] {
        &self.bytes[..self.length]
    }
}

#[cfg(test)]
mod tests {
    use super::*;

    fn item((letter, operand): (char, u32)) -> Item {
        Item::new(letter as u8, operand).unwrap()
    }

    fn written(slot: Option<u32>, list: &[(char, u32)], run: bool) -> Result<String, HostRefusal> {
        let list: Vec<Item> = list.iter().copied().map(item).collect();
        let mut buffer = [0; 300];
        let length = write(slot, &list, run, &mut buffer)?;
        Ok(String::from_utf8(buffer[..length].to_vec()).unwrap())
    }

    fn refused<T>(before: usize, code: Code) -> Result<T, HostRefusal> {
        Err(HostRefusal::Line(Fault::after(before, code)))
    }

    #[test]
    fn forms() {
        let list = [('g', 7), ('P', 5), ('H', 2), ('S', 14), ('A', 0), ('G', 0)];
        assert_eq!(written(None, &list, true).unwrap(), "gP5H02S14A0G0R");
        assert_eq!(written(Some(15), &list, true).unwrap(), "s15gP5H02S14A0G0R");
        assert_eq!(written(None, &[], false).unwrap(), "");
        assert_eq!(written(None, &[], true).unwrap(), "R");
        assert_eq!(written(Some(0), &[], true).unwrap(), "s0R");
    }

    #[test]
    fn refusals() {
        assert_eq!(written(Some(16), &[], true), refused(0, Code::Operand));
        assert_eq!(written(Some(u32::MAX), &[], true), refused(0, Code::Operand));
        assert_eq!(written(Some(1), &[], false), refused(2, Code::Letter));
        assert_eq!(written(None, &[('A', 2_147_483_648)], true), refused(0, Code::Operand));
        assert_eq!(written(None, &[('A', 5), ('g', 0)], true), refused(2, Code::Letter));
        assert_eq!(written(None, &[('g', 0), ('L', 0)], true), refused(1, Code::Operand));
        assert_eq!(written(Some(1), &[('H', 2); 15], true), refused(44, Code::Letter));
        assert_eq!(written(None, &[('H', 5)], true), refused(0, Code::Operand));
        assert_eq!(written(None, &[('H', 99)], true), refused(0, Code::Operand));
        assert_eq!(written(None, &[('H', 100)], true), refused(0, Code::Operand));
        assert_eq!(Item::new(b'R', 0), None);
        assert_eq!(Item::new(b's', 0), None);
    }

    #[test]
    fn length_before_operands() {
        let mut list = vec![('H', 2); 85];
        assert_eq!(written(None, &list, true).unwrap().len(), 256);
        list[0].1 = 5;
        assert_eq!(written(None, &list, true), refused(0, Code::Operand));
        list.push(('g', 0));
        assert_eq!(written(None, &list, true), Err(HostRefusal::Line(Fault::nowhere(Code::Letter))));
    }

    #[test]
    fn buffer_after_the_check() {
        let list = [item(('A', 5))];
        let mut buffer = *b"zz";
        assert_eq!(write(None, &list, true, &mut buffer), Err(HostRefusal::Buffer));
        assert_eq!(write(Some(16), &list, true, &mut buffer), refused(0, Code::Operand));
        assert_eq!(&buffer, b"zz");
        let mut buffer = *b"zzzz";
        assert_eq!(write(None, &list, true, &mut buffer), Ok(3));
        assert_eq!(&buffer, b"A5Rz");
        assert_eq!(write(None, &[], false, &mut []), Ok(0));
    }
}
