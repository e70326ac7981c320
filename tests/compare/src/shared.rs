//! What the older drive and ours both have of one command: paper 02, E12, with
//! the ranges of 004's HR drives.

use crate::command::{self, Command, Misread};

/// Which side a text is turned into.
#[derive(Clone, Copy, Debug, PartialEq, Eq)]
pub enum Way {
    /// A text of the older drive into ours.
    Inward,
    /// A text of ours into the older drive's.
    Outward,
}

/// The letters that both sides have: ours without `F` and `b`.
pub const LETTERS: &[u8] = b"APDzZVLfmhjoJMgGHSe";

/// The older drive's `L`, "units of 7500"; twice that.
const OLDER_UNIT: u32 = 15_000;
/// Our `L`, units of 6103.5; twice that.
const OUR_UNIT: u32 = 12_207;
/// The older drive's greatest `L`.
const OLDER_STEEPEST: u32 = 20;

/// One command of the one side as the other writes it. "a letter that the
/// other side lacks, an operand missing or outside either range"
pub fn turned(letter: u8, digits: &[u8], way: Way) -> Result<String, Misread> {
    if !LETTERS.contains(&letter) {
        return Err(Misread::Letter);
    }
    let (command, _) = command::read(&[&[letter], digits].concat())?;
    let operand = operand(command, way).ok_or(Misread::Operand)?;
    Ok(format!("{}{operand}", char::from(letter)))
}

/// The operand on the other side, "written plainly"; none outside its range.
fn operand(command: Command, way: Way) -> Option<String> {
    let number = match command {
        Command::Open => return Some(String::new()),
        Command::Await(level) | Command::Skip(level) => {
            return Some(format!("{}{}", u8::from(level.high), level.bit.trailing_zeros() + 1));
        }
        Command::Slope(slope) => turned_slope(slope.into(), way)?,
        Command::Speed(speed) => Some(speed).filter(|speed| (50..=10_000).contains(speed))?,
        // 004 has 2 to 256.
        Command::Resolution(exponent) => Some(1 << exponent).filter(|number| *number >= 2)?,
        // 004's 0 to 250 and ours have no number in common.
        Command::Offset(offset) => Some(offset.into()).filter(|number| *number <= 250)?,
        Command::MoveTo(number) | Command::MoveUp(number) | Command::MoveDown(number) => number,
        Command::SetPosition(number) | Command::Home(number) => number,
        Command::FlagLow(low) => low.into(),
        Command::MoveCurrent(number) | Command::HoldCurrent(number) => number.into(),
        Command::Outputs(number) | Command::Execute(number) => number.into(),
        Command::Delay(number) | Command::Close(number) => number.into(),
        Command::Turned(_) | Command::Baud(_) => return None,
    };
    Some(number.to_string())
}

/// "its `L` x (1 to 20, units of 7500) becomes the greatest y with 12207y ≤
/// 15000x"; "Writing back takes the greatest x with 15000x ≤ 12207y." "y = 1
/// has no x", and 26 and more have none up to 20.
fn turned_slope(slope: u32, way: Way) -> Option<u32> {
    match way {
        Way::Inward => (slope <= OLDER_STEEPEST).then_some(OLDER_UNIT * slope / OUR_UNIT),
        Way::Outward => Some(OUR_UNIT * slope / OLDER_UNIT).filter(|x| (1..=OLDER_STEEPEST).contains(x)),
    }
}

#[cfg(test)]
mod tests {
    use super::*;
    use Way::{Inward, Outward};

    /// A command of one letter and its digits.
    fn one(command: &str, way: Way) -> Result<String, Misread> {
        let (letter, digits) = command.as_bytes().split_first().unwrap();
        turned(*letter, digits, way)
    }

    /// What is the same on both sides, at the ends of the range.
    fn keeps(letter: char, least: u64, greatest: u64) {
        for way in [Inward, Outward] {
            for number in [least, greatest] {
                let plain = Ok(format!("{letter}{number}"));
                assert_eq!(one(&format!("{letter}{number}"), way), plain);
                assert_eq!(one(&format!("{letter}{number:010}"), way), plain);
                assert_eq!(one(&format!("{letter}{number:011}"), way), Err(Misread::Operand));
            }
            let beyond = [least.checked_sub(1), Some(greatest + 1), Some(4_294_967_296), Some(4_294_967_297)];
            for number in beyond.into_iter().flatten() {
                assert_eq!(one(&format!("{letter}{number}"), way), Err(Misread::Operand), "{letter}{number}");
            }
        }
    }

    #[test]
    fn ranges_of_both() {
        for letter in "APDzZ".chars() {
            keeps(letter, 0, 2_147_483_647);
        }
        keeps('V', 50, 10_000);
        keeps('f', 0, 1);
        keeps('m', 0, 100);
        keeps('h', 0, 50);
        keeps('j', 2, 256);
        keeps('J', 0, 3);
        keeps('M', 0, 30_000);
        keeps('G', 0, 30_000);
        keeps('e', 0, 15);
        for letter in "APDzZVLfmhjoJMSe".chars() {
            assert_eq!(one(&letter.to_string(), Inward), Err(Misread::Operand), "{letter}");
            assert_eq!(one(&letter.to_string(), Outward), Err(Misread::Operand), "{letter}");
        }
    }

    #[test]
    fn numbers_between() {
        for way in [Inward, Outward] {
            for number in 0..=300u32 {
                let power = number >= 2 && number <= 256 && number.is_power_of_two();
                assert_eq!(one(&format!("j{number}"), way).is_ok(), power, "j{number}");
            }
            for number in [0, 1, 250, 251, 1399, 1400, 1500, 1650, 1651] {
                assert_eq!(one(&format!("o{number}"), way), Err(Misread::Operand));
            }
        }
    }

    #[test]
    fn levels_and_loops() {
        for way in [Inward, Outward] {
            for digits in 0..100 {
                let good = [1, 11, 2, 12, 3, 13, 4, 14].contains(&digits);
                for letter in ['H', 'S'] {
                    let command = format!("{letter}{digits:02}");
                    assert_eq!(one(&command, way), if good { Ok(command) } else { Err(Misread::Operand) });
                }
            }
            for command in ["H1", "H002", "S", "S2", "S013"] {
                assert_eq!(one(command, way), Err(Misread::Operand), "{command}");
            }
            assert_eq!(one("H", way), Ok("H02".to_string()));
            assert_eq!(one("G", way), Ok("G0".to_string()));
            assert_eq!(one("g", way), Ok("g".to_string()));
        }
    }

    #[test]
    fn letters_of_one_side() {
        for letter in (0..=255).filter(|letter| !LETTERS.contains(letter)) {
            for way in [Inward, Outward] {
                for digits in [&b""[..], b"0", b"1", b"9600", b"00000000000"] {
                    assert_eq!(turned(letter, digits, way), Err(Misread::Letter), "{letter}");
                }
            }
        }
    }

    #[test]
    fn ramps_inward() {
        let turned: Vec<u32> = (1..=20).map(|x| turned_slope(x, Inward).unwrap()).collect();
        assert_eq!(turned, [1, 2, 3, 4, 6, 7, 8, 9, 11, 12, 13, 14, 15, 17, 18, 19, 20, 22, 23, 24]);
        for (x, y) in (1..=20).zip(turned) {
            assert!(12_207 * y < 15_000 * x && 12_207 * (y + 1) > 15_000 * x, "{x}");
        }
        for command in ["L0", "L21", "L24", "L65000", "L00000000020"] {
            assert_eq!(one(command, Inward), Err(Misread::Operand), "{command}");
        }
        assert_eq!(one("L1", Inward), Ok("L1".to_string()));
        assert_eq!(one("L0000000020", Inward), Ok("L24".to_string()));
    }

    #[test]
    fn ramps_outward() {
        for y in 2..=25 {
            let x = turned_slope(y, Outward).unwrap();
            assert!(15_000 * x < 12_207 * y && 15_000 * (x + 1) > 12_207 * y && (1..=20).contains(&x), "{y}");
        }
        for command in ["L0", "L1", "L26", "L27", "L64999", "L65000", "L65001"] {
            assert_eq!(one(command, Outward), Err(Misread::Operand), "{command}");
        }
        assert_eq!(one("L2", Outward), Ok("L1".to_string()));
        assert_eq!(one("L24", Outward), Ok("L19".to_string()));
        assert_eq!(one("L025", Outward), Ok("L20".to_string()));
    }
}
