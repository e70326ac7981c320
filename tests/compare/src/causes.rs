//! What a body is refused for, by name, so that a comparison can say that all
//! of it occurred: each cause of paper 02, E6, alone and left of another.

use crate::command::{self, Misread, DIGITS};
use crate::line;
use crate::structure::{Cause, Structure};
use crate::BODY;

/// Every name that [`names`] gives.
pub const NAMES: &[&str] = &[
    "an overlong body",
    "no immediate body",
    "the slot of s",
    "a letter",
    "a letter left of an operand",
    "an operand",
    "an operand left of a letter",
    "a command right of a broken structure",
    "a G with nothing open",
    "a G with nothing open left of another",
    "a fifth g",
    "a fifth g left of another",
    "an unclosed g",
    "an unclosed g left of another",
    "a misplaced S",
    "a misplaced S left of another",
    "the fifteenth stored command",
    "the fifteenth stored command left of another",
    "a missing R",
    "a missing R behind 165 bytes",
    "place 256",
];

/// What an idle unit refuses this body for; the first is why.
pub fn names(body: &[u8]) -> Vec<&'static str> {
    let Err(fault) = line::check_idle(body) else {
        return Vec::new();
    };
    if body.len() > BODY {
        return vec!["an overlong body"];
    }
    if let [b'T' | b'Q' | b'$' | b'?', ..] = body {
        return vec!["no immediate body"];
    }
    let Ok((slot, commands)) = line::read_slot(body) else {
        return vec!["the slot of s"];
    };
    let mut names = Walk::through(body, commands, slot.is_some()).names(body);
    names.extend((fault.place == Some(BODY as u32)).then_some("place 256"));
    names
}

/// A body read to its end, whatever is bad in it.
struct Walk {
    misreads: Vec<Misread>,
    /// Whether the structure was broken before the first of them.
    broken: bool,
    structure: Structure,
}

impl Walk {
    fn through(body: &[u8], commands: &[u8], stored: bool) -> Self {
        let mut walk = Walk { misreads: Vec::new(), broken: false, structure: Structure::new(stored) };
        let mut rest = commands;
        while !rest.is_empty() && rest != b"R" {
            rest = walk.one(body.len() - rest.len(), rest);
        }
        walk.structure.end(body.len(), stored && rest.is_empty());
        walk
    }

    /// One command, good or bad; what comes after it.
    fn one<'a>(&mut self, before: usize, rest: &'a [u8]) -> &'a [u8] {
        match command::read(rest) {
            Ok((command, after)) => {
                self.structure.add(before, command);
                after
            }
            Err(misread) => {
                self.broken |= self.misreads.is_empty() && !self.structure.faults().is_empty();
                self.misreads.push(misread);
                match misread {
                    Misread::Letter => &rest[1..],
                    Misread::Operand => command::split_digits(&rest[1..]).1,
                }
            }
        }
    }

    fn names(&self, body: &[u8]) -> Vec<&'static str> {
        let (alone, left) = match self.misreads.first() {
            None => return self.structure_names(body),
            Some(Misread::Letter) => ("a letter", "a letter left of an operand"),
            Some(Misread::Operand) => ("an operand", "an operand left of a letter"),
        };
        let mut names = vec![alone];
        names.extend((self.misreads.iter().any(|&misread| misread != self.misreads[0])).then_some(left));
        names.extend(self.broken.then_some("a command right of a broken structure"));
        names
    }

    fn structure_names(&self, body: &[u8]) -> Vec<&'static str> {
        let Some(&(place, cause)) = self.structure.faults().iter().min() else {
            return Vec::new();
        };
        let right = |&(before, other): &(usize, Cause)| before > place && other != cause;
        let another = self.structure.faults().iter().any(right);
        let (alone, left) = match cause {
            Cause::Close => ("a G with nothing open", "a G with nothing open left of another"),
            Cause::FifthOpen => ("a fifth g", "a fifth g left of another"),
            Cause::Unclosed => ("an unclosed g", "an unclosed g left of another"),
            Cause::Skip => ("a misplaced S", "a misplaced S left of another"),
            Cause::Fifteenth => {
                ("the fifteenth stored command", "the fifteenth stored command left of another")
            }
            // E9: a slot and 14 operands of ten digits.
            Cause::NoRun if body.len() == 15 * (1 + DIGITS) => return vec!["a missing R behind 165 bytes"],
            Cause::NoRun => return vec!["a missing R"],
        };
        vec![if another { left } else { alone }]
    }
}

#[cfg(test)]
mod tests {
    use super::*;

    #[test]
    fn every_name() {
        let fifteen = "H".repeat(15);
        let full = format!("s0000000015{}", "A0000000005".repeat(14));
        let long = "H".repeat(257);
        for (body, expected) in [
            (&long[..], &["an overlong body"][..]),
            ("?1", &["no immediate body"]),
            ("s16q", &["the slot of s"]),
            ("A5q", &["a letter"]),
            ("A5RA", &["a letter", "a letter left of an operand"]),
            ("AA", &["an operand"]),
            ("AX", &["an operand", "an operand left of a letter"]),
            ("GA", &["an operand", "a command right of a broken structure"]),
            ("gGGP1", &["a G with nothing open"]),
            ("Gg", &["a G with nothing open left of another"]),
            ("gggggGGGGG", &["a fifth g"]),
            ("gggggGGGGGS01", &["a fifth g left of another"]),
            ("gg", &["an unclosed g"]),
            ("gggggGGGG", &["an unclosed g left of another"]),
            ("S01", &["a misplaced S"]),
            ("S01G", &["a misplaced S left of another"]),
            (&format!("s0{fifteen}R"), &["the fifteenth stored command"]),
            (&format!("s0{fifteen}"), &["the fifteenth stored command left of another"]),
            ("s0", &["a missing R"]),
            (&full, &["a missing R behind 165 bytes"]),
            (&format!("{}g", "H".repeat(255)), &["an unclosed g", "place 256"]),
            ("A5R", &[]),
        ] {
            assert_eq!(names(body.as_bytes()), expected, "{body}");
            assert!(expected.iter().all(|name| NAMES.contains(name)));
        }
    }
}
