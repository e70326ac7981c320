//! One command: its letter, its operand, its reading.

use crate::Code;

/// The greatest position, and the greatest operand of `A P D z Z`.
pub const FARTHEST: u32 = 2_147_483_647;
/// The greatest operand of `V`.
pub const FASTEST: u32 = 16_777_216;
/// The greatest operand of `L`.
pub const STEEPEST: u32 = 65_000;
/// The greatest operand of `M` and `G`.
pub const LONGEST: u32 = 30_000;
/// E9: "an operand of more than ten digits is refused".
pub const DIGITS: usize = 10;

/// "two digits, level then input: 01 11 02 12 03 13 04 14".
#[derive(Clone, Copy, Debug, PartialEq, Eq)]
pub struct Level {
    /// The level that is named.
    pub high: bool,
    /// The input, as its bit in a sample.
    pub bit: u8,
}

impl Level {
    /// What a bare `H` names: "none means 02".
    pub const BARE: Level = Level { high: false, bit: 0b0010 };

    fn read(digits: &[u8]) -> Option<Level> {
        let &[level @ b'0'..=b'1', input @ b'1'..=b'4'] = digits else {
            return None;
        };
        Some(Level { high: level == b'1', bit: 1 << (input - b'1') })
    }

    /// Whether the sample has the input at the named level.
    pub fn is_in(self, sample: u8) -> bool {
        (sample & self.bit != 0) == self.high
    }
}

/// A command as it is read.
#[derive(Clone, Copy, Debug, PartialEq, Eq)]
pub enum Command {
    /// `A`
    MoveTo(u32),
    /// `P`
    MoveUp(u32),
    /// `D`
    MoveDown(u32),
    /// `z`
    SetPosition(u32),
    /// `Z`
    Home(u32),
    /// `V`
    Speed(u32),
    /// `L`
    Slope(u16),
    /// `f`
    FlagLow(bool),
    /// `F`
    Turned(bool),
    /// `m`
    MoveCurrent(u8),
    /// `h`
    HoldCurrent(u8),
    /// `j`: "The record keeps the exponent of `j`, 0 to 8."
    Resolution(u8),
    /// `o`
    Offset(u16),
    /// `J`
    Outputs(u8),
    /// `b`
    Baud(u16),
    /// `M`
    Delay(u16),
    /// `g`
    Open,
    /// `G`
    Close(u16),
    /// `H`
    Await(Level),
    /// `S`
    Skip(Level),
    /// `e`
    Execute(u8),
}

impl Command {
    /// The letter of the command.
    pub fn letter(self) -> u8 {
        match self {
            Command::MoveTo(_) => b'A',
            Command::MoveUp(_) => b'P',
            Command::MoveDown(_) => b'D',
            Command::SetPosition(_) => b'z',
            Command::Home(_) => b'Z',
            Command::Speed(_) => b'V',
            Command::Slope(_) => b'L',
            Command::FlagLow(_) => b'f',
            Command::Turned(_) => b'F',
            Command::MoveCurrent(_) => b'm',
            Command::HoldCurrent(_) => b'h',
            Command::Resolution(_) => b'j',
            Command::Offset(_) => b'o',
            Command::Outputs(_) => b'J',
            Command::Baud(_) => b'b',
            Command::Delay(_) => b'M',
            Command::Open => b'g',
            Command::Close(_) => b'G',
            Command::Await(_) => b'H',
            Command::Skip(_) => b'S',
            Command::Execute(_) => b'e',
        }
    }
}

/// A fault of reading: "unknown or misplaced letter (2) or operand missing or
/// out of range (3)".
#[derive(Clone, Copy, Debug, PartialEq, Eq)]
pub enum Misread {
    /// Unknown or misplaced letter.
    Letter,
    /// Operand missing or out of range.
    Operand,
}

impl From<Misread> for Code {
    fn from(misread: Misread) -> Code {
        match misread {
            Misread::Letter => Code::Letter,
            Misread::Operand => Code::Operand,
        }
    }
}

/// Reads the first command of a text that is not empty: the command and what
/// comes after it. `R`, `X` and `s` are no commands: where they are in place
/// the line's reader has taken them.
pub fn read(text: &[u8]) -> Result<(Command, &[u8]), Misread> {
    let Some((&letter, after)) = text.split_first() else {
        return Err(Misread::Letter);
    };
    if letter == b'g' {
        return Ok((Command::Open, after));
    }
    let (digits, rest) = split_digits(after);
    Ok((with_operand(letter, digits)?, rest))
}

/// "An operand is the longest run of digits".
pub fn split_digits(text: &[u8]) -> (&[u8], &[u8]) {
    let end = text.iter().position(|byte| !byte.is_ascii_digit());
    text.split_at(end.unwrap_or(text.len()))
}

/// The command that a letter and its digits make.
fn with_operand(letter: u8, digits: &[u8]) -> Result<Command, Misread> {
    let upto = |greatest| within(digits, 0, greatest);
    Ok(match letter {
        b'A' => Command::MoveTo(upto(FARTHEST)?),
        b'P' => Command::MoveUp(upto(FARTHEST)?),
        b'D' => Command::MoveDown(upto(FARTHEST)?),
        b'z' => Command::SetPosition(upto(FARTHEST)?),
        b'Z' => Command::Home(upto(FARTHEST)?),
        b'V' => Command::Speed(within(digits, 1, FASTEST)?),
        b'L' => Command::Slope(within(digits, 1, STEEPEST)? as u16),
        b'f' => Command::FlagLow(upto(1)? == 1),
        b'F' => Command::Turned(upto(1)? == 1),
        b'm' => Command::MoveCurrent(upto(100)? as u8),
        b'h' => Command::HoldCurrent(upto(50)? as u8),
        b'j' => Command::Resolution(exponent(within(digits, 1, 256)?)?),
        b'o' => Command::Offset(within(digits, 1400, 1650)? as u16),
        b'J' => Command::Outputs(upto(3)? as u8),
        b'b' => Command::Baud(rate(upto(38_400)?)?),
        b'M' => Command::Delay(upto(LONGEST)? as u16),
        b'G' if digits.is_empty() => Command::Close(0),
        b'G' => Command::Close(upto(LONGEST)? as u16),
        b'H' if digits.is_empty() => Command::Await(Level::BARE),
        b'H' => Command::Await(Level::read(digits).ok_or(Misread::Operand)?),
        b'S' => Command::Skip(Level::read(digits).ok_or(Misread::Operand)?),
        b'e' => Command::Execute(slot(digits)?),
        _ => return Err(Misread::Letter),
    })
}

/// The number of a slot, "0 to 15".
pub fn slot(digits: &[u8]) -> Result<u8, Misread> {
    Ok(within(digits, 0, 15)? as u8)
}

/// "Other operands are required, decimal, leading zeros allowed."
fn within(digits: &[u8], least: u32, greatest: u32) -> Result<u32, Misread> {
    match number(digits) {
        Some(number) if (least..=greatest).contains(&number) => Ok(number),
        _ => Err(Misread::Operand),
    }
}

/// The number that one to ten digits write; one too great for 32 bits is the
/// greatest. E9 refuses more digits "before the range of that operand".
fn number(digits: &[u8]) -> Option<u32> {
    let add = |sum: u32, digit: &u8| sum.saturating_mul(10).saturating_add((digit - b'0').into());
    (1..=DIGITS).contains(&digits.len()).then(|| digits.iter().fold(0, add))
}

/// "a number with exactly one bit set, at most 256"
fn exponent(number: u32) -> Result<u8, Misread> {
    if number.count_ones() != 1 {
        return Err(Misread::Operand);
    }
    Ok(number.trailing_zeros() as u8)
}

/// "9600, 19200, 38400"
fn rate(number: u32) -> Result<u16, Misread> {
    match number {
        9_600 | 19_200 | 38_400 => Ok(number as u16),
        _ => Err(Misread::Operand),
    }
}

#[cfg(test)]
mod tests {
    use super::*;

    /// The whole text as one command.
    fn one(text: &str) -> Result<Command, Misread> {
        let (command, rest) = read(text.as_bytes())?;
        assert!(rest.is_empty(), "{text}");
        assert_eq!(command.letter(), text.as_bytes()[0]);
        Ok(command)
    }

    fn takes(letter: char, numbers: &[u64]) {
        for number in numbers {
            for text in [format!("{letter}{number}"), format!("{letter}{number:010}")] {
                assert!(one(&text).is_ok(), "{text}");
            }
            for text in [format!("{letter}{number:011}"), format!("{letter}{number:0200}")] {
                assert_eq!(one(&text), Err(Misread::Operand), "{text}");
            }
        }
    }

    fn refuses(letter: char, numbers: &[u64]) {
        assert_eq!(one(&letter.to_string()), Err(Misread::Operand), "{letter}");
        for number in numbers {
            let text = format!("{letter}{number}");
            assert_eq!(one(&text), Err(Misread::Operand), "{text}");
        }
        for long in ["4294967296", "4294967297", "18446744073709551617"] {
            assert_eq!(one(&format!("{letter}{long}")), Err(Misread::Operand));
        }
    }

    #[test]
    fn row_a_p_d_z_z() {
        for letter in "APDzZ".chars() {
            takes(letter, &[0, 1, 2_147_483_646, 2_147_483_647]);
            refuses(letter, &[2_147_483_648, 4_294_967_295]);
        }
        assert_eq!(one("A0012"), Ok(Command::MoveTo(12)));
        assert_eq!(one("P2147483647"), Ok(Command::MoveUp(2_147_483_647)));
    }

    #[test]
    fn row_v() {
        takes('V', &[1, 16_777_216]);
        refuses('V', &[0, 16_777_217]);
        assert_eq!(one("V0305175"), Ok(Command::Speed(305_175)));
    }

    #[test]
    fn row_l() {
        takes('L', &[1, 65_000]);
        refuses('L', &[0, 65_001, 65_536]);
        assert_eq!(one("L65000"), Ok(Command::Slope(65_000)));
    }

    #[test]
    fn row_f_f() {
        for letter in ['f', 'F'] {
            takes(letter, &[0, 1]);
            refuses(letter, &[2, 10, 256, 257]);
        }
    }

    #[test]
    fn row_m_h() {
        takes('m', &[0, 100]);
        refuses('m', &[101, 256]);
        takes('h', &[0, 50]);
        refuses('h', &[51, 256]);
    }

    #[test]
    fn row_j() {
        for exponent in 0..=8 {
            assert_eq!(one(&format!("j{}", 1 << exponent)), Ok(Command::Resolution(exponent)));
        }
        takes('j', &[1, 256]);
        refuses('j', &[0, 3, 5, 255, 257, 512, 65_536]);
    }

    #[test]
    fn row_o() {
        takes('o', &[1400, 1650]);
        refuses('o', &[0, 1399, 1651]);
    }

    #[test]
    fn row_outputs() {
        takes('J', &[0, 3]);
        refuses('J', &[4]);
    }

    #[test]
    fn row_b() {
        takes('b', &[9_600, 19_200, 38_400]);
        refuses('b', &[0, 9_599, 9_601, 28_800, 38_401, 76_800]);
    }

    #[test]
    fn row_delay() {
        takes('M', &[0, 30_000]);
        refuses('M', &[30_001, 65_536]);
    }

    #[test]
    fn row_open() {
        assert_eq!(one("g"), Ok(Command::Open));
        assert_eq!(read(b"g5"), Ok((Command::Open, &b"5"[..])));
        assert_eq!(read(b"5"), Err(Misread::Letter));
    }

    #[test]
    fn row_close() {
        assert_eq!(one("G"), Ok(Command::Close(0)));
        assert_eq!(one("G0"), Ok(Command::Close(0)));
        assert_eq!(one("G030000"), Ok(Command::Close(30_000)));
        assert_eq!(one("G30001"), Err(Misread::Operand));
        assert_eq!(one("G0000000002"), Ok(Command::Close(2)));
        assert_eq!(one("G00000000002"), Err(Misread::Operand));
    }

    #[test]
    fn row_await_and_skip() {
        let mut taken = 0;
        for level in 0..10 {
            for input in 0..10 {
                let good = level <= 1 && (1..=4).contains(&input);
                for letter in ['H', 'S'] {
                    assert_eq!(one(&format!("{letter}{level}{input}")).is_ok(), good);
                }
                taken += u32::from(good);
            }
        }
        assert_eq!(taken, 8);
        assert_eq!(one("H"), one("H02"));
        assert_eq!(one("H14"), Ok(Command::Await(Level { high: true, bit: 8 })));
        assert_eq!(one("S"), Err(Misread::Operand));
        for text in ["H013", "H1", "H001", "S2", "S002"] {
            assert_eq!(one(text), Err(Misread::Operand));
        }
    }

    #[test]
    fn row_execute() {
        takes('e', &[0, 15]);
        refuses('e', &[16, 256]);
    }

    #[test]
    fn all_other_letters() {
        for letter in (0..=255u8).filter(|byte| !b"APDzZVLfFmhjoJbMgGHSe".contains(byte)) {
            assert_eq!(read(&[letter, b'1']), Err(Misread::Letter));
        }
        assert_eq!(read(b""), Err(Misread::Letter));
    }
}
