//! Random operands of more than ten digits, in lines and in texts that were
//! stored earlier.

use crate::command::DIGITS;
use crate::image::{self, Image};
use crate::random::lines::{written, Lines, Word};

/// Texts of endless digits that were never good.
const NEVER_GOOD: &[&str] = &[
    "H00000000002",
    "S00000000011A5",
    "g00000000005G",
    "A10000000005",
    "V00000000000",
    "L00000065001",
    "A00002147483648",
    "e00000000016",
    "A00000000005R",
    "A00000000005g",
    "gA00000000005",
    "S01gA00000000005G",
    "A00000000005A",
    "q00000000005",
    "00000000005",
    "HHHHHHHHHHHHHHA00000000005",
];

impl Lines<'_> {
    /// More than ten digits, mostly zeros before an operand of the range.
    pub fn endless_digits(&mut self, letter: u8) -> Vec<u8> {
        let width = self.random.pick(&[11, 11, 11, 11, 12, 12, 13, 20, 100, 150, 240]);
        match self.random.below(6) {
            0 => vec![self.random.pick(b"19"); width],
            1 => vec![b'0'; width],
            _ => self.wide(letter, width),
        }
    }

    /// A line, to be stored or not, with an operand of about ten digits or of
    /// hundreds, at times that of `s`.
    pub fn endless_line(&mut self) -> Vec<u8> {
        let count = 1 + self.random.under(4);
        let mut words = self.words(count);
        let slot = match self.random.below(5) {
            0..=1 => Vec::new(),
            2..=3 => [b"s", &self.digits_about_ten(b's')[..]].concat(),
            _ => b"s3".to_vec(),
        };
        let place = self.random.under(words.len());
        if self.random.chance(70) {
            words[place].digits = self.digits_about_ten(words[place].letter);
        }
        let run = self.random.chance(80);
        [slot, written(&words, run)].concat()
    }

    fn digits_about_ten(&mut self, letter: u8) -> Vec<u8> {
        match self.random.below(3) {
            0 => self.endless_digits(letter),
            1 => self.wide(letter, 11),
            _ => {
                let width = self.random.pick(&[8, 9, 10, 10]);
                self.wide(letter, width)
            }
        }
    }

    /// An operand of the range in so many digits.
    fn wide(&mut self, letter: u8, width: usize) -> Vec<u8> {
        format!("{:0width$}", self.operand(letter)).into_bytes()
    }

    /// A text that is good but for operands of more than ten digits.
    pub fn old_text(&mut self) -> Vec<u8> {
        let count = self.random.under(6);
        let mut words = self.words(count);
        let letter = self.random.pick(b"AAPDzZVLMeG");
        let width = self.random.pick(&[11, 11, 11, 12, 13, 40, 100]);
        let word = Word { letter, digits: self.wide(letter, width) };
        words.extend((letter == b'G').then(|| Word { letter: b'g', digits: Vec::new() }));
        words.push(word);
        let text = written(&words, false);
        match self.random.below(6) {
            0 => self.pad(text, 256),
            1 => self.pad(text, 255),
            _ => text,
        }
    }

    /// A text of endless digits, mostly one that was good.
    pub fn endless_text(&mut self) -> Vec<u8> {
        if self.random.chance(75) {
            return self.old_text();
        }
        self.random.pick(NEVER_GOOD).as_bytes().to_vec()
    }

    /// An image with one to three texts that were stored earlier.
    pub fn old_image(&mut self) -> Image {
        let mut new = self.image();
        for _ in 0..1 + self.random.under(3) {
            let slot = if self.random.chance(30) { 0 } else { self.slot() };
            let text = self.old_text();
            image::store(&mut new, slot as usize, &text);
        }
        new
    }
}

/// Makes every operand that may have zeros before it one of ten digits.
pub fn widen(words: &mut [Word]) {
    for word in words {
        let takes_zeros = !b"gHS".contains(&word.letter) && !word.digits.is_empty();
        let zeros = if takes_zeros { DIGITS.saturating_sub(word.digits.len()) } else { 0 };
        word.digits.splice(0..0, vec![b'0'; zeros]);
    }
}

#[cfg(test)]
mod tests {
    use super::*;
    use crate::line::is_stored_text;
    use crate::old::was_stored_text;
    use crate::random::Random;

    #[test]
    fn they_were_good() {
        let mut random = Random::new(9);
        let mut lines = Lines { random: &mut random, here: 0, known: true };
        for _ in 0..2000 {
            let text = lines.old_text();
            assert!(was_stored_text(&text) && !is_stored_text(&text), "{}", text.escape_ascii());
            let image = lines.old_image();
            assert!(image::was_good(&image) && !image::is_good(&image));
            assert!(lines.endless_digits(b'A').len() > DIGITS);
        }
    }

    #[test]
    fn they_were_never_good() {
        for text in NEVER_GOOD {
            assert!(!was_stored_text(text.as_bytes()), "{text}");
        }
    }
}
