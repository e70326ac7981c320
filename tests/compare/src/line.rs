//! The line check: what a body asks for, and whether it is taken.

use crate::command;
use crate::fault::Fault;
use crate::speed;
use crate::structure::Structure;
use crate::{Code, BODY};

/// What the check must know of the drive.
#[derive(Clone, Copy, Debug, PartialEq, Eq)]
pub enum Drive {
    /// No run.
    Idle,
    /// In a run that neither waits at `H` nor turns endlessly.
    Running,
    /// In a run that waits at `H`.
    AtInput,
    /// In a run, "while an endless move is on".
    Endless,
}

/// A body that is taken.
#[derive(Clone, Copy, Debug, PartialEq, Eq)]
pub enum Body<'a> {
    /// "Immediate bodies" and the empty one.
    Immediate(Immediate),
    /// `R` alone.
    Go,
    /// `X` alone.
    Again,
    /// Commands, or a slot and its text.
    Line(Line<'a>),
    /// E3: a new endless speed.
    EndlessSpeed(u32),
}

/// "`T`, `TR`, `Q`, `$`, `?0 ?2 ?4 ?6 ?7 ?9`", and E3's `?5`
#[derive(Clone, Copy, Debug, PartialEq, Eq)]
pub enum Immediate {
    /// `T`, `TR`
    Stop,
    /// `Q`; "An empty body acts as `Q`".
    Status,
    /// `$`
    Text,
    /// `?0`
    Position,
    /// `?2`
    Speed,
    /// `?4`
    Sample,
    /// `?5`
    EndlessSpeed,
    /// `?6`
    Resolution,
    /// `?7`
    Offset,
    /// `?9`
    ClearAll,
}

/// "A line is commands, then optionally one `R`", or a slot, "then 0 to 14
/// commands and a required `R`".
#[derive(Clone, Copy, Debug, PartialEq, Eq)]
pub struct Line<'a> {
    /// The slot that the text is stored in.
    pub slot: Option<u8>,
    /// The commands as typed.
    pub text: &'a [u8],
    /// Whether an `R` ends the line.
    pub run: bool,
}

/// "Order of checks for a frame".
pub fn check(body: &[u8], drive: Drive) -> Result<Body<'_>, Fault> {
    if body.len() > BODY {
        return Err(Fault::nowhere(Code::Letter));
    }
    if let [] | [b'T' | b'Q' | b'$' | b'?', ..] = body {
        // "A body that begins like an immediate one and is none has place 1".
        return immediate(body).map(Body::Immediate).ok_or(Fault::after(0, Code::Letter));
    }
    // "such a line with a missing or bad operand gives 3, tested before 15; at
    // all other times 15 stands."
    if drive == Drive::Endless && speed::is_speed_line(body) {
        return speed::read(body).map(Body::EndlessSpeed);
    }
    let resumes = body == b"R" && drive == Drive::AtInput;
    if drive != Drive::Idle && !resumes {
        return Err(Fault::nowhere(Code::Busy));
    }
    match body {
        b"R" => Ok(Body::Go),
        b"X" => Ok(Body::Again),
        _ => read(body).map(Body::Line),
    }
}

/// The body "as an idle unit judges it".
pub fn check_idle(body: &[u8]) -> Result<(), Fault> {
    check(body, Drive::Idle).map(drop)
}

fn immediate(body: &[u8]) -> Option<Immediate> {
    Some(match body {
        b"T" | b"TR" => Immediate::Stop,
        b"Q" | b"" => Immediate::Status,
        b"$" => Immediate::Text,
        b"?0" => Immediate::Position,
        b"?2" => Immediate::Speed,
        b"?4" => Immediate::Sample,
        b"?5" => Immediate::EndlessSpeed,
        b"?6" => Immediate::Resolution,
        b"?7" => Immediate::Offset,
        b"?9" => Immediate::ClearAll,
        _ => return None,
    })
}

/// Reads a line: "the first fault from the left [..]; then structure, missing
/// `R` after `s`, or more than 14 stored (2)".
fn read(body: &[u8]) -> Result<Line<'_>, Fault> {
    let (slot, commands) = read_slot(body)?;
    let mut structure = Structure::new(slot.is_some());
    let mut rest = commands;
    while !rest.is_empty() && rest != b"R" {
        rest = read_one(body, rest, &mut structure)?;
    }
    let run = !rest.is_empty();
    structure.end(body.len(), slot.is_some() && !run);
    if let Some(before) = structure.leftmost() {
        return Err(Fault::after(before, Code::Letter));
    }
    let text = &commands[..commands.len() - rest.len()];
    Ok(Line { slot, text, run })
}

/// Reads the command with which the rest of a body begins; what comes after
/// it. The place of a fault "is the first byte of the bad command".
fn read_one<'a>(body: &[u8], rest: &'a [u8], structure: &mut Structure) -> Result<&'a [u8], Fault> {
    let before = body.len() - rest.len();
    let (command, after) = command::read(rest).map_err(|misread| Fault::after(before, misread.into()))?;
    structure.add(before, command);
    Ok(after)
}

/// "`s` and a slot 0 to 15 come only first"; the place of a bad slot is that of
/// its `s`.
pub fn read_slot(body: &[u8]) -> Result<(Option<u8>, &[u8]), Fault> {
    let [b's', after @ ..] = body else {
        return Ok((None, body));
    };
    let (digits, rest) = command::split_digits(after);
    let slot = command::slot(digits).map_err(|misread| Fault::after(0, misread.into()))?;
    Ok((Some(slot), rest))
}

/// "the check for stored text": commands alone, 14 of them and 256 bytes at
/// most, of good structure.
pub fn is_stored_text(text: &[u8]) -> bool {
    if text.len() > BODY {
        return false;
    }
    let mut structure = Structure::new(true);
    let mut rest = text;
    while !rest.is_empty() {
        let Ok(after) = read_one(text, rest, &mut structure) else {
            return false;
        };
        rest = after;
    }
    structure.end(text.len(), false);
    structure.leftmost().is_none()
}

#[cfg(test)]
mod tests {
    use super::*;

    #[track_caller]
    fn judged(body: &str, drive: Drive, code: u8) {
        let found = check(body.as_bytes(), drive).map_or_else(|fault| fault.code as u8, |_| 0);
        assert_eq!(found, code, "{body} {drive:?}");
    }

    #[track_caller]
    fn idle(body: &str, code: u8) {
        judged(body, Drive::Idle, code);
    }

    #[test]
    fn immediate_bodies() {
        for body in ["", "T", "TR", "Q", "$", "?0", "?2", "?4", "?5", "?6", "?7", "?9"] {
            for drive in [Drive::Idle, Drive::Running, Drive::AtInput, Drive::Endless] {
                judged(body, drive, 0);
            }
        }
        for body in ["TT", "TRR", "T1", "QR", "QA", "$R", "?", "?1", "?3", "?5R", "?8", "?00", "?9R"] {
            for drive in [Drive::Idle, Drive::Running, Drive::AtInput, Drive::Endless] {
                judged(body, drive, 2);
            }
        }
    }

    #[test]
    fn while_running() {
        for body in ["X", "A5R", "A5", "s0R", "zzz", "A", "s", "\n", "RR", "g"] {
            judged(body, Drive::Running, 15);
            judged(body, Drive::AtInput, 15);
            judged(body, Drive::Endless, 15);
        }
        judged("R", Drive::Endless, 15);
        judged("R", Drive::Running, 15);
        judged("R", Drive::AtInput, 0);
        judged(&"A".repeat(257), Drive::Running, 2);
        judged(&"A".repeat(256), Drive::Running, 15);
    }

    #[test]
    fn speed_while_turning() {
        assert_eq!(check(b"V0777R", Drive::Endless), Ok(Body::EndlessSpeed(777)));
        for body in ["VR", "V0R", "V16777217R"] {
            let fault = Fault::after(0, Code::Operand);
            assert_eq!(check(body.as_bytes(), Drive::Endless), Err(fault), "{body}");
        }
        for body in ["V5", "V5RR", "V5P0R", "V", "L5R", "V5V6R"] {
            judged(body, Drive::Endless, 15);
        }
        for body in ["V5R", "VR", "V0R"] {
            judged(body, Drive::Running, 15);
            judged(body, Drive::AtInput, 15);
        }
        assert!(matches!(check(b"V5R", Drive::Idle), Ok(Body::Line(_))));
    }

    #[test]
    fn letters_in_and_out_of_place() {
        for body in ["R", "X", "A5", "A5R", "s0R", "s15A5R", "s03A5R", "gG", "H", "HR"] {
            idle(body, 0);
        }
        for body in
            ["RR", "XR", "RX", "XX", "A5X", "A5XR", "A5RR", "RA5", "A5s1R", "s1s1R", "A5RA", "sR5", "a"]
        {
            idle(body, if body == "sR5" { 3 } else { 2 });
        }
    }

    #[test]
    fn the_first_fault_from_the_left() {
        idle("AXR", 3);
        idle("XA", 2);
        idle("A5RA", 2);
        idle("AqR", 3);
        idle("qA", 2);
        idle("g5A", 2);
        idle("G1A", 3);
        idle("gggggA", 3);
        idle("s16q", 3);
        idle("s5A", 3);
        idle("S03A", 3);
        idle("s", 3);
        idle("s16R", 3);
        idle("s4294967297R", 3);
    }

    #[test]
    fn structure() {
        for body in ["ggggGGGG", "gGgGgGgGgG", "gggGgGgGGgGG", "S01S02A0", "gA0S03e0G0", "S01H"] {
            idle(body, 0);
        }
        for body in ["g", "G", "gGG", "Gg", "ggG", "gggggGGGGG", "S01", "S01R", "S01gG", "gS01G", "A0S11"] {
            idle(body, 2);
        }
    }

    #[test]
    fn stored_lines() {
        let fourteen = "H".repeat(14);
        idle(&format!("s0{fourteen}R"), 0);
        idle(&format!("s0{fourteen}HR"), 2);
        idle(&format!("s0{fourteen}HA"), 3);
        idle(&format!("{fourteen}HR"), 0);
        idle("s0", 2);
        idle("s0A5", 2);
        idle("s0gR", 2);
        let line = check(b"s007H0A05R", Drive::Idle);
        assert_eq!(line, Err(Fault::after(4, Code::Operand)));
        let line = check(b"s007HA05R", Drive::Idle);
        assert_eq!(line, Ok(Body::Line(Line { slot: Some(7), text: b"HA05", run: true })));
    }

    #[track_caller]
    fn placed(body: &str, code: Code, place: u32) {
        let fault = Fault { code, place: Some(place) };
        assert_eq!(check_idle(body.as_bytes()), Err(fault), "{body}");
    }

    #[test]
    fn places_of_what_is_misread() {
        for (body, place) in
            [("A5q", 3), ("g5R", 2), ("RR", 1), ("A5RR", 3), ("A5X", 3), ("XA", 1), ("s1s1R", 3)]
        {
            placed(body, Code::Letter, place);
        }
        for (body, place) in
            [("A", 1), ("P5H013R", 3), ("GA", 2), ("s16R", 1), ("s", 1), ("s3AR", 3), ("AX", 1)]
        {
            placed(body, Code::Operand, place);
        }
        for body in ["?1", "TT", "QA", "$5", "T\n"] {
            placed(body, Code::Letter, 1);
        }
    }

    #[test]
    fn endless_digits() {
        for (body, place) in [
            ("A00000000005R", 1),
            ("P5A00000000005q", 3),
            ("P5A99999999999R", 3),
            ("s3P5A00000000005R", 5),
            ("s00000000003P5R", 1),
            ("gG00000000002R", 2),
            ("V00000000005R", 1),
            ("b00000009600R", 1),
            ("e00000000015R", 1),
        ] {
            placed(body, Code::Operand, place);
        }
        for body in ["A0000000005R", "s0000000003P0000000005R", "gG0000000002R", "b0000009600R"] {
            idle(body, 0);
        }
        placed("q00000000005R", Code::Letter, 1);
        placed("g00000000005GR", Code::Letter, 2);
    }

    #[test]
    fn places_of_a_broken_structure() {
        let fifteen = "H".repeat(15);
        for (body, place) in [
            ("P5G2R", 3),
            ("gggggGGGGGR", 5),
            ("P5gA1R", 3),
            ("gggggGGGGR", 1),
            ("gGgS01R", 3),
            ("P5S01R", 3),
            ("S01gGGR", 1),
            ("s0", 3),
            ("s15A5", 6),
            ("s0S01A5G", 8),
            (&format!("s12{fifteen}R"), 18),
            (&format!("s12{fifteen}"), 18),
            (&format!("s12g{fifteen}R"), 4),
        ] {
            placed(body, Code::Letter, place);
        }
        // No good line that is to be stored is longer.
        placed(&format!("s0000000015{}", "A0000000005".repeat(14)), Code::Letter, 166);
        placed(&format!("{}g", "H".repeat(255)), Code::Letter, 256);
    }

    #[test]
    fn what_has_no_place() {
        let long = "H".repeat(257);
        for body in [&long, "A5R", "X"] {
            let found = check(body.as_bytes(), Drive::Running);
            let code = if body.len() > BODY { Code::Letter } else { Code::Busy };
            assert_eq!(found, Err(Fault { code, place: None }));
        }
        assert_eq!(check_idle(long.as_bytes()), Err(Fault { code: Code::Letter, place: None }));
    }

    #[test]
    fn lengths() {
        idle(&"H".repeat(256), 0);
        idle(&format!("{}R", "H".repeat(255)), 0);
        idle(&"H".repeat(257), 2);
        idle(&format!("A{}5", "0".repeat(254)), 3);
        idle(&format!("A{}5", "0".repeat(255)), 2);
        idle(&format!("T{}", "0".repeat(256)), 2);
        idle(&format!("A{}", "9".repeat(255)), 3);
    }

    #[test]
    fn stored_text() {
        for text in ["", "A5", "H", "gG", "S01A5"] {
            assert!(is_stored_text(text.as_bytes()), "{text}");
        }
        for text in ["R", "X", "T", "Q", "A5R", "s0A5", "g", "S01", "A", "\0", "A5\0"] {
            assert!(!is_stored_text(text.as_bytes()), "{text}");
        }
        assert!(is_stored_text("H".repeat(14).as_bytes()));
        assert!(!is_stored_text("H".repeat(15).as_bytes()));
        assert!(is_stored_text("A0000000005".repeat(14).as_bytes()));
        for digits in [11, 255, 256] {
            assert!(!is_stored_text(format!("A{}", "0".repeat(digits)).as_bytes()));
        }
    }
}
