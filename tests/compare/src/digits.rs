//! How many digits an operation's operands have, by name, so that a comparison
//! can say that all numbers about ten occurred: paper 02, E9.

use crate::command::{split_digits, DIGITS};
use crate::handed::Handed;
use crate::line::is_stored_text;
use crate::old::was_stored_text;

/// Every name that [`names`] gives.
pub const NAMES: &[&str] = &[
    "line: 9 taken",
    "line: 10 taken",
    "line: 10 refused",
    "line: 11 refused",
    "line: 11 zeros refused",
    "line: 12 refused",
    "line: hundreds refused",
    "line: slot of 10 taken",
    "line: slot of 11 refused",
    "line: slot of hundreds refused",
    "frame: 9 taken",
    "frame: 10 taken",
    "frame: 10 refused",
    "frame: 11 refused",
    "frame: 11 zeros refused",
    "frame: 12 refused",
    "frame: hundreds refused",
    "frame: slot of 10 taken",
    "frame: slot of 11 refused",
    "frame: slot of hundreds refused",
];

/// What came of the longest operand of a body, from the kind of the answer: it
/// was taken, or the body was refused with 3.
pub fn names(operation: &[u8], kind: &str) -> Vec<&'static str> {
    let Some(Handed { word, body, .. }) = Handed::of(operation) else {
        return Vec::new();
    };
    let told = match kind {
        "line: 0" => "taken",
        kind if kind.ends_with("3 with a place") || kind.ends_with("idle 3 with data") => "refused",
        kind if kind.ends_with("busy 0") || kind.ends_with("idle 0") => "taken",
        _ => return Vec::new(),
    };
    let made = [longest(&body).and_then(counted), slot(&body).and_then(of_slot)];
    let mut names: Vec<String> =
        made.iter().flatten().map(|count| format!("{word}: {count} {told}")).collect();
    if longest(&body).is_some_and(|digits| digits == [b'0'; DIGITS + 1]) {
        names.push(format!("{word}: 11 zeros {told}"));
    }
    NAMES.iter().copied().filter(|name| names.iter().any(|made| made == name)).collect()
}

/// The longest run of digits behind a letter.
fn longest(body: &[u8]) -> Option<&[u8]> {
    let letter = |place: &usize| !body[*place].is_ascii_digit();
    let runs = (0..body.len()).filter(letter).map(|place| split_digits(&body[place + 1..]).0);
    runs.max_by_key(|digits| digits.len())
}

fn slot(body: &[u8]) -> Option<&[u8]> {
    body.strip_prefix(b"s").map(|after| split_digits(after).0)
}

fn counted(digits: &[u8]) -> Option<&'static str> {
    Some(match digits.len() {
        9 => "9",
        10 => "10",
        11 => "11",
        12 => "12",
        100.. => "hundreds",
        _ => return None,
    })
}

fn of_slot(digits: &[u8]) -> Option<&'static str> {
    Some(match digits.len() {
        10 => "slot of 10",
        11 => "slot of 11",
        100.. => "slot of hundreds",
        _ => return None,
    })
}

/// Whether a text has an operand of more than ten digits.
pub fn occur_in(text: &[u8]) -> bool {
    longest(text).is_some_and(|digits| digits.len() > DIGITS)
}

/// Whether a text is bad for its digits alone.
pub fn are_endless(text: &[u8]) -> bool {
    was_stored_text(text) && !is_stored_text(text)
}

#[cfg(test)]
mod tests {
    use super::*;

    #[test]
    fn endless_texts() {
        assert!(occur_in(b"gA00000000005") && !are_endless(b"gA00000000005"));
        assert!(occur_in(b"A00000000005") && are_endless(b"A00000000005"));
        assert!(!occur_in(b"A0000000005") && !are_endless(b"A0000000005"));
    }

    #[test]
    fn longest_operands() {
        for (operation, kind, expected) in [
            ("/1A0000000005R", "typed: busy 0", &["frame: 10 taken"][..]),
            ("/1A00000000005R", "typed: idle 3 with data", &["frame: 11 refused"]),
            (
                "/1s00000000005R",
                "typed: idle 3 with data",
                &["frame: 11 refused", "frame: slot of 11 refused"],
            ),
            (
                "/1P5G00000000000R",
                "typed: idle 3 with data",
                &["frame: 11 refused", "frame: 11 zeros refused"],
            ),
            ("/1A5R", "typed: busy 0", &[]),
            ("line 413030303030303030303535", "line: 3 with a place", &["line: 11 refused"]),
        ] {
            assert_eq!(names(operation.as_bytes(), kind), expected, "{operation}");
        }
    }
}
