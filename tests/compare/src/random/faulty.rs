//! Random bodies with a fault, often with two, for the place of the leftmost.

use crate::random::lines::{written, Lines, Word};

/// Commands that break the structure, alone or with what comes after them.
const ASTRAY: &[&str] = &[
    "G2",
    "G",
    "g",
    "gg",
    "ggG2",
    "ggggg",
    "gggggG1G2G1G1G3",
    "gggggGGGGGG",
    "gggggGGGG",
    "ggggggGGGGGG",
    "ggggP1gG2gG3GGGG",
    "S01",
    "S12gG2",
    "gS03G2",
    "S01S02gG",
    "S04G",
];
/// What is no command at its place.
const LETTERS: &[&str] = &["q", "X", "R", "s1", "RR", "XA5", "g5", " ", "p1", "T", "Q", "?0", "\u{7f}", "a"];
/// Commands without an operand of their range.
const OPERANDS: &[&str] =
    &["A", "P2147483648", "L0", "V", "V16777217", "H013", "S", "S9", "e16", "j3", "M30001", "G30001", "b"];

impl Lines<'_> {
    /// A body that is refused, but for rare cases.
    pub fn faulty(&mut self) -> Vec<u8> {
        match self.random.below(20) {
            0..=5 => self.astray(),
            6..=10 => self.stored_astray(),
            11..=15 => self.misread(),
            _ => self.full(),
        }
    }

    /// Words whose structure is broken once or twice.
    pub fn astray_words(&mut self) -> Vec<Word> {
        let mut words = Vec::new();
        for _ in 0..1 + self.random.under(2) {
            let good = self.random.under(4);
            words.extend(self.words(good));
            words.extend(words_of(self.random.pick(ASTRAY)));
        }
        let good = self.random.under(3);
        words.extend(self.words(good));
        words
    }

    fn astray(&mut self) -> Vec<u8> {
        let words = self.astray_words();
        let run = self.random.chance(70);
        written(&words, run)
    }

    /// The same behind `s`, about the fifteenth command, at times without `R`.
    fn stored_astray(&mut self) -> Vec<u8> {
        let count = self.random.pick(&[0, 1, 5, 12, 13, 14, 15, 16]);
        let mut words = self.words(count);
        if self.random.chance(60) {
            let place = self.random.under(words.len() + 1);
            let more = self.astray_words();
            words.splice(place..place, more);
        }
        let slot = self.slot().to_string();
        let run = self.random.chance(70);
        [&b"s"[..], slot.as_bytes(), &written(&words, run)].concat()
    }

    /// One or two commands that cannot be read, often of both kinds, among good
    /// ones or behind a broken structure.
    fn misread(&mut self) -> Vec<u8> {
        let mut body = match self.random.below(4) {
            0 => self.astray(),
            1 => b"s3".to_vec(),
            _ => Vec::new(),
        };
        let mut letter = self.random.chance(50);
        for _ in 0..1 + self.random.under(3) {
            let good = self.random.under(4);
            let words = self.words(good);
            body.extend(written(&words, false));
            let bad = self.random.pick(if letter { LETTERS } else { OPERANDS });
            body.extend(bad.as_bytes());
            letter = !letter;
        }
        let run = self.random.chance(70);
        body.extend(run.then_some(b'R'));
        body
    }

    /// A slot and 14 commands of ten digits, 165 bytes, and no `R`; at times of
    /// eleven digits somewhere.
    fn widest(&mut self) -> Vec<u8> {
        let mut body = format!("s{:010}", self.slot()).into_bytes();
        for _ in 0..14 {
            let letter = self.random.pick(b"APDzZVLMe");
            body.push(letter);
            body.extend(format!("{:010}", self.operand(letter)).bytes());
        }
        if self.random.chance(25) {
            let place = 11 * self.random.under(15) + 1;
            body.insert(place, b'0');
        }
        body
    }

    /// A body of about 256 bytes whose one fault stands at its end, or a long
    /// one that is to be stored and has no `R`.
    fn full(&mut self) -> Vec<u8> {
        let length = self.random.pick(&[99, 100, 255, 256, 256, 256, 256]);
        match self.random.below(10) {
            0..=2 => return self.widest(),
            3 => return format!("s3{}", "H".repeat(length - 2)).into_bytes(),
            _ => {}
        }
        let end = self.random.pick(&["q", "A", "g", "G", "S01", "X", "V0", "RR", "gGG", "S02R", "gR"]);
        ("H".repeat(length - end.len()) + end).into_bytes()
    }
}

/// The words of commands that read well.
fn words_of(text: &str) -> Vec<Word> {
    let mut words: Vec<Word> = Vec::new();
    for byte in text.bytes() {
        match words.last_mut() {
            Some(word) if byte.is_ascii_digit() => word.digits.push(byte),
            _ => words.push(Word { letter: byte, digits: Vec::new() }),
        }
    }
    words
}

#[cfg(test)]
mod tests {
    use super::*;
    use crate::causes::{names, NAMES};
    use crate::line::check_idle;
    use crate::random::Random;

    #[test]
    fn every_cause_is_made() {
        let mut random = Random::new(8);
        let mut lines = Lines { random: &mut random, here: 0, known: true };
        let bodies: Vec<Vec<u8>> = (0..3000).map(|_| lines.faulty()).collect();
        assert!(bodies.iter().filter(|body| check_idle(body).is_err()).count() > 2500);
        let made: Vec<&str> = bodies.iter().flat_map(|body| names(body)).collect();
        for name in NAMES {
            let elsewhere = ["an overlong body", "no immediate body", "the slot of s"].contains(name);
            assert!(elsewhere || made.contains(name), "{name}");
        }
    }

    #[test]
    fn the_same_words() {
        for text in ASTRAY {
            assert_eq!(written(&words_of(text), false), text.as_bytes());
        }
    }
}
