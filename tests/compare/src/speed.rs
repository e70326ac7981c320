//! Speed while turning: paper 02, E3.

use crate::command::{self, Command};
use crate::fault::Fault;
use crate::Code;

/// Whether this is "A body of exactly `V`, its operand and `R`", the operand
/// good, bad or missing.
pub fn is_speed_line(body: &[u8]) -> bool {
    matches!(body, [b'V', digits @ .., b'R'] if digits.iter().all(u8::is_ascii_digit))
}

/// The speed that such a line sets: "with a missing or bad operand gives 3".
pub fn read(body: &[u8]) -> Result<u32, Fault> {
    match command::read(body) {
        Ok((Command::Speed(speed), b"R")) => Ok(speed),
        _ => Err(Fault::after(0, Code::Operand)),
    }
}

#[cfg(test)]
mod tests {
    use super::*;

    #[test]
    fn the_form() {
        for body in ["VR", "V5R", "V0R", "V0016777217R", "V99999999999999R"] {
            assert!(is_speed_line(body.as_bytes()), "{body}");
        }
        for body in
            ["", "V", "R", "V5", "V5RR", "V5 R", "V-5R", "V5L5R", "V5V6R", "v5R", "L5R", "P0V5R", "V5P0R"]
        {
            assert!(!is_speed_line(body.as_bytes()), "{body}");
        }
    }

    #[test]
    fn the_operand() {
        assert_eq!(read(b"V1R"), Ok(1));
        assert_eq!(read(b"V0016777216R"), Ok(16_777_216));
        for body in ["VR", "V0R", "V16777217R", "V4294967297R"] {
            assert_eq!(read(body.as_bytes()), Err(Fault::after(0, Code::Operand)), "{body}");
        }
    }
}
