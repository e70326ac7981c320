//! The structure of commands, and where it is broken.
//!
//! "Structure: each `G` closes the nearest open `g`, all closed at the end, at
//! most four open; `S` is neither last nor directly before `g` or `G` (house)."

use crate::command::Command;

/// "such a line" stores "0 to 14 commands".
pub const STORED_COMMANDS: usize = 14;

/// "at most four open"
pub const OPEN_LOOPS: usize = 4;

/// What breaks the structure, in the order of paper 02, E6: "For structure it
/// is the leftmost of: a `G` with nothing open, a fifth `g` (it still opens), an
/// unclosed `g`, a misplaced `S`, the fifteenth stored command; for a missing
/// `R`, body length plus 1."
#[derive(Clone, Copy, Debug, PartialEq, Eq, PartialOrd, Ord)]
pub enum Cause {
    /// A `G` with nothing open.
    Close,
    /// A fifth `g`.
    FifthOpen,
    /// An unclosed `g`.
    Unclosed,
    /// A misplaced `S`.
    Skip,
    /// The fifteenth stored command.
    Fifteenth,
    /// A missing `R`.
    NoRun,
}

/// Commands as they are added, each with the bytes of the body before it.
#[derive(Clone, Debug, Default)]
pub struct Structure {
    stored: bool,
    count: usize,
    /// The open `g`, the nearest last.
    open: Vec<usize>,
    /// The `S` that was added last.
    skip: Option<usize>,
    faults: Vec<(usize, Cause)>,
}

impl Structure {
    /// The structure of no commands yet, to be stored or not.
    pub fn new(stored: bool) -> Self {
        Structure { stored, ..Structure::default() }
    }

    /// Adds a command that has so many bytes of the body before it.
    pub fn add(&mut self, before: usize, command: Command) {
        self.count += 1;
        if self.stored && self.count == STORED_COMMANDS + 1 {
            self.faults.push((before, Cause::Fifteenth));
        }
        let skip = self.skip.take();
        match command {
            Command::Open => {
                self.misplaced(skip);
                if self.open.len() >= OPEN_LOOPS {
                    self.faults.push((before, Cause::FifthOpen));
                }
                self.open.push(before);
            }
            Command::Close(_) => {
                self.misplaced(skip);
                if self.open.pop().is_none() {
                    self.faults.push((before, Cause::Close));
                }
            }
            Command::Skip(_) => self.skip = Some(before),
            _ => {}
        }
    }

    fn misplaced(&mut self, skip: Option<usize>) {
        self.faults.extend(skip.map(|before| (before, Cause::Skip)));
    }

    /// The commands have come to their end, in a body of so many bytes that may
    /// lack a required `R`.
    pub fn end(&mut self, bytes: usize, lacks_run: bool) {
        let skip = self.skip.take();
        self.misplaced(skip);
        let unclosed = self.open.drain(..).map(|before| (before, Cause::Unclosed));
        self.faults.extend(unclosed);
        self.faults.extend(lacks_run.then_some((bytes, Cause::NoRun)));
    }

    /// The bytes before the leftmost fault.
    pub fn leftmost(&self) -> Option<usize> {
        self.faults.iter().map(|&(before, _)| before).min()
    }

    /// All faults so far, in the order in which they are found.
    pub fn faults(&self) -> &[(usize, Cause)] {
        &self.faults
    }
}

#[cfg(test)]
mod tests {
    use super::*;
    use crate::command;

    /// The faults of a text that ends with all its bytes, from the left.
    fn faults(text: &str, stored: bool, lacks_run: bool) -> Vec<(usize, Cause)> {
        let mut structure = Structure::new(stored);
        let mut rest = text.as_bytes();
        while let Ok((command, after)) = command::read(rest) {
            structure.add(text.len() - rest.len(), command);
            rest = after;
        }
        structure.end(text.len(), lacks_run);
        let mut faults = structure.faults().to_vec();
        faults.sort();
        assert_eq!(structure.leftmost(), faults.first().map(|fault| fault.0));
        faults
    }

    #[test]
    fn loops() {
        use Cause::{Close, FifthOpen, Unclosed};
        assert_eq!(faults("gP1gD1G2G3", false, false), []);
        assert_eq!(faults("P1G2", false, false), [(2, Close)]);
        assert_eq!(faults("GgG", false, false), [(0, Close)]);
        assert_eq!(faults("gggggGGGGG", false, false), [(4, FifthOpen)]);
        assert_eq!(faults("gggggGgGGGGG", false, false), [(4, FifthOpen), (6, FifthOpen)]);
        let deep = [(0, Unclosed), (4, FifthOpen)];
        assert_eq!(faults("gggggGGGG", false, false), deep);
        let deeper = [(4, FifthOpen), (5, FifthOpen)];
        assert_eq!(faults("ggggggGGGGGG", false, false), deeper);
        assert_eq!(faults("gGgA1", false, false), [(2, Unclosed)]);
        assert_eq!(faults("ggGgG", false, false), [(0, Unclosed)]);
    }

    #[test]
    fn skips() {
        use Cause::{Close, Skip, Unclosed};
        assert_eq!(faults("S01S02A1", false, false), []);
        assert_eq!(faults("S01S02", false, false), [(3, Skip)]);
        assert_eq!(faults("A1S01gG", false, false), [(2, Skip)]);
        assert_eq!(faults("gS01G", false, false), [(1, Skip)]);
        assert_eq!(faults("S01G", false, false), [(0, Skip), (3, Close)]);
        assert_eq!(faults("gS01", false, false), [(0, Unclosed), (1, Skip)]);
    }

    #[test]
    fn stored_commands() {
        use Cause::{Close, Fifteenth, NoRun};
        let fifteen = "H".repeat(15);
        assert_eq!(faults(&fifteen, false, false), []);
        assert_eq!(faults(&fifteen, true, false), [(14, Fifteenth)]);
        assert_eq!(faults(&format!("{fifteen}H"), true, true), [(14, Fifteenth), (16, NoRun)]);
        assert_eq!(faults("HG", true, true), [(1, Close), (2, NoRun)]);
        assert_eq!(faults("", true, true), [(0, NoRun)]);
    }
}
