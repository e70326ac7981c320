//! Programs that were stored earlier, with endless digits: paper 02, E9.
//!
//! "A program stored earlier with such an operand counts as bad and stops a run
//! with 1; at start it does not refuse the unit".

use crate::command::{split_digits, DIGITS};
use crate::line::is_stored_text;
use crate::BODY;

/// Whether a text passes the check for stored text but for "an operand of more
/// than ten digits": with the zeros before such an operand left out it does.
pub fn was_stored_text(text: &[u8]) -> bool {
    text.len() <= BODY && is_stored_text(&shortened(text))
}

/// The text with the zeros before each operand left out, as far as it has more
/// than ten digits.
fn shortened(text: &[u8]) -> Vec<u8> {
    let mut short = Vec::new();
    let mut rest = text;
    while let [letter, after @ ..] = rest {
        let (digits, after) = split_digits(after);
        let more = digits.len().saturating_sub(DIGITS);
        let zeros = digits[..more].iter().take_while(|&&digit| digit == b'0').count();
        short.push(*letter);
        short.extend(&digits[zeros..]);
        rest = after;
    }
    short
}

#[cfg(test)]
mod tests {
    use super::*;

    fn endless(letter: &str, digits: usize, end: &str) -> String {
        format!("{letter}{}{end}", "0".repeat(digits - end.len()))
    }

    #[test]
    fn what_was_good() {
        for text in ["", "A5", "A0000000005", &endless("A", 11, "5"), &endless("P5e", 253, "15")] {
            assert!(was_stored_text(text.as_bytes()), "{text}");
        }
        assert!(was_stored_text(endless("A", 255, "2147483647").as_bytes()));
        assert!(was_stored_text(format!("g{}G{}", endless("V", 100, "1"), "0".repeat(120)).as_bytes()));
    }

    #[test]
    fn what_was_bad() {
        let long = endless("A", 256, "5");
        for text in [
            "A",
            "R",
            &long,
            &endless("V", 11, "0"),
            &endless("A", 40, "2147483648"),
            "A10000000000",
            &endless("H", 11, "02"),
            &endless("g", 11, "0"),
            &endless("q", 11, "0"),
            &endless("0", 11, "0"),
            &endless("gA", 11, "5"),
            &format!("{}A", endless("A", 11, "5")),
            &endless("HHHHHHHHHHHHHHA", 11, "5"),
        ] {
            assert!(!was_stored_text(text.as_bytes()), "{text}");
        }
    }
}
