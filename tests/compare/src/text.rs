//! The current text, and its commands ready to be taken.

use crate::command::{self, Command};
use crate::BODY;

/// The current text "as typed", and what it reads as.
#[derive(Clone, Debug)]
pub struct Text {
    bytes: [u8; BODY],
    length: usize,
    commands: [Command; BODY],
    count: usize,
}

impl Text {
    /// The empty text.
    pub fn new() -> Self {
        Text { bytes: [0; BODY], length: 0, commands: [Command::Open; BODY], count: 0 }
    }

    /// Makes this the text: bytes that the line check or the image check has
    /// taken, 256 at most.
    pub fn set(&mut self, text: &[u8]) {
        self.bytes[..text.len()].copy_from_slice(text);
        self.length = text.len();
        self.count = 0;
        let mut rest = text;
        while let Ok((command, after)) = command::read(rest) {
            self.commands[self.count] = command;
            self.count += 1;
            rest = after;
        }
    }

    /// The bytes.
    pub fn bytes(&self) -> &[u8] {
        &self.bytes[..self.length]
    }

    /// The command at a place, if one is left there.
    pub fn command(&self, place: usize) -> Option<Command> {
        self.commands[..self.count].get(place).copied()
    }
}

impl Default for Text {
    fn default() -> Self {
        Text::new()
    }
}

#[cfg(test)]
mod tests {
    use super::*;

    #[test]
    fn set_again() {
        let mut text = Text::new();
        assert_eq!(text.command(0), None);
        text.set(b"A05gGH");
        assert_eq!(text.bytes(), b"A05gGH");
        assert_eq!(text.command(0), Some(Command::MoveTo(5)));
        assert_eq!(text.command(2), Some(Command::Close(0)));
        assert_eq!(text.command(4), None);
        text.set(&[b'H'; BODY]);
        assert_eq!(text.bytes().len(), BODY);
        assert!(text.command(255).is_some());
        assert_eq!(text.command(256), None);
        text.set(b"");
        assert_eq!(text.bytes(), b"");
        assert_eq!(text.command(0), None);
    }
}
