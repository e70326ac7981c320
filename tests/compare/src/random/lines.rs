//! Random bodies, texts, lists and images.

use crate::command::FARTHEST;
use crate::image::{self, Image, IMAGE, SLOTS};
use crate::random::endless::widen;
use crate::random::Random;

/// Letters of the commands that stand alone, the telling ones more often.
const PLAIN: &[u8] = b"AAAAPPPPPDDDDDzzzZZZZZVLffFFmhjoJbMMMMHHHHeee";
/// Bytes that a damaged line may get.
const BYTES: &[u8] = b"APDzZVLfFmhjoJbMgGHSeRXsTQ$?0123456789/ \n\r\0\x03~";
/// Immediate bodies.
const IMMEDIATE: &[&str] = &["T", "TR", "Q", "", "$", "?0", "?2", "?4", "?5", "?5", "?6", "?7", "?9"];
/// Bodies that begin as immediate ones do.
const NOT_IMMEDIATE: &[&str] = &[
    "?", "?1", "?3", "?5R", "?55", "?8", "?00", "?0R", "?9R", "TT", "TRR", "T0", "T ", "QR", "QQ", "$R",
    "$$", "TA5R",
];
/// Bodies that are nearly a speed line.
const NEARLY_SPEED: &[&str] = &[
    "V", "V5", "V5RR", "V5P0R", "V5L5R", "V5V6R", "V5 R", "V-5R", "V+5R", "V R", "v5R", "L5R", "RV5R", "V5TR",
];
/// Short bodies at the edges of the rules.
const EDGES: &[&str] = &[
    "RR",
    "XR",
    "RX",
    "XX",
    "A5RR",
    "A5XR",
    "RA5",
    "A5RA",
    "AXR",
    "s",
    "sR",
    "s0",
    "s0A5",
    "s5s6R",
    "A5s1R",
    "g5R",
    "G1R",
    "gGG",
    "gR",
    "gS03G2R",
    "S01R",
    "S01",
    "S01gGR",
    "H013R",
    "H1R",
    "S2R",
    "SR",
    "g",
    "s16R",
    "s015R",
    "s0000000000R",
    "s00000000000R",
    "A0000000005R",
    "A00000000005R",
    "gG00000000002R",
    "s1A00000000005R",
    "s00000000001A5R",
    "H00000000002R",
    "q00000000005R",
    "s4294967296R",
    "A4294967297R",
    "A18446744073709551617R",
    "gggggGGGGGR",
    "ggggGGGGR",
    "\n",
    "a",
    "A5 R",
    "A5\nR",
    "A-1R",
    "A+1R",
    "A 1R",
    "b09600R",
    "H00R",
    "H05R",
    "H20R",
];

/// A letter and its digits as typed.
#[derive(Clone, Debug, PartialEq, Eq)]
pub struct Word {
    pub letter: u8,
    pub digits: Vec<u8>,
}

/// A generator of lines for a drive.
pub struct Lines<'a> {
    pub random: &'a mut Random,
    /// The drive's position.
    pub here: u32,
    /// Whether it is known.
    pub known: bool,
}

impl Lines<'_> {
    /// Commands that read well and have a good structure; `count` or a little
    /// less.
    pub fn words(&mut self, count: usize) -> Vec<Word> {
        let mut words = Vec::new();
        self.add_words(count, 0, &mut words);
        words
    }

    fn add_words(&mut self, count: usize, depth: usize, words: &mut Vec<Word>) {
        let mut left = count;
        while left > 0 {
            match self.random.below(100) {
                0..=13 if depth < 4 && left >= 2 => {
                    let inside = self.random.under((left - 1).min(5));
                    words.push(Word { letter: b'g', digits: Vec::new() });
                    self.add_words(inside, depth + 1, words);
                    words.push(self.word(b'G'));
                    left -= 2 + inside;
                }
                14..=21 if left >= 2 => {
                    words.push(self.word(b'S'));
                    words.push(self.plain());
                    left -= 2;
                }
                22 if left >= 3 => {
                    words.push(self.word(b'S'));
                    words.push(self.word(b'S'));
                    words.push(self.plain());
                    left -= 3;
                }
                _ => {
                    words.push(self.plain());
                    left -= 1;
                }
            }
        }
    }

    fn plain(&mut self) -> Word {
        let letter = self.random.pick(PLAIN);
        self.word(letter)
    }

    /// The letter with an operand of its range, at times with leading zeros.
    fn word(&mut self, letter: u8) -> Word {
        let digits = match letter {
            b'g' => Vec::new(),
            b'H' | b'G' if self.random.chance(12) => Vec::new(),
            b'H' | b'S' => vec![self.random.pick(b"01"), self.random.pick(b"12223334")],
            _ => {
                let number = self.operand(letter);
                self.zeros(number)
            }
        };
        Word { letter, digits }
    }

    fn zeros(&mut self, number: u32) -> Vec<u8> {
        let width = if self.random.chance(8) { self.random.pick(&[2, 4, 8, 9, 9, 10, 10, 10]) } else { 1 };
        format!("{number:0width$}").into_bytes()
    }

    pub fn operand(&mut self, letter: u8) -> u32 {
        match letter {
            b'A' => self.place(),
            b'P' | b'D' => self.way(letter),
            b'z' => self.new_place(),
            b'Z' => self.limit(),
            b'V' => self.between(1, 16_777_216),
            b'L' => self.between(1, 65_000),
            b'f' | b'F' => self.between(0, 1),
            b'm' => self.between(0, 100),
            b'h' => self.between(0, 50),
            b'j' => 1 << self.random.below(9),
            b'o' => self.between(1400, 1650),
            b'J' => self.between(0, 3),
            b'b' => self.random.pick(&[9_600, 19_200, 38_400]),
            b'M' => self.delay(),
            b'G' => self.times(),
            _ => self.slot(),
        }
    }

    fn between(&mut self, least: u32, greatest: u32) -> u32 {
        match self.random.below(4) {
            0 => self.random.pick(&[least, greatest]),
            _ => least + self.random.below(u64::from(greatest - least) + 1) as u32,
        }
    }

    fn place(&mut self) -> u32 {
        match self.random.below(10) {
            0..=4 => self.random.below(30) as u32,
            5 => self.here,
            6 => self.here.saturating_add(self.random.below(5) as u32).min(FARTHEST),
            7 => self.here.saturating_sub(self.random.below(5) as u32),
            8 => self.random.pick(&[0, 1, FARTHEST - 1, FARTHEST]),
            _ => self.random.of_any_size(FARTHEST.into()) as u32,
        }
    }

    /// A relative move; often just to the end of the range, or just past it.
    fn way(&mut self, letter: u8) -> u32 {
        let room = if letter == b'P' { FARTHEST - self.here } else { self.here };
        match self.random.below(20) {
            0..=9 => 1 + self.random.below(9) as u32,
            10..=13 => 0,
            14 => room,
            15 => room.saturating_add(1).min(FARTHEST),
            16 => room.saturating_sub(1),
            17 => self.random.pick(&[1, FARTHEST - 1, FARTHEST]),
            _ => self.random.of_any_size(FARTHEST.into()) as u32,
        }
    }

    fn new_place(&mut self) -> u32 {
        match self.random.below(10) {
            0..=4 => self.random.below(60) as u32,
            5..=7 => FARTHEST - self.random.below(20) as u32,
            _ => self.random.of_any_size(FARTHEST.into()) as u32,
        }
    }

    fn limit(&mut self) -> u32 {
        match self.random.below(10) {
            0..=5 => 1 + self.random.below(30) as u32,
            6..=7 => 0,
            8 => self.random.pick(&[1, 9_999, 10_000, 10_001, FARTHEST]),
            _ => self.random.of_any_size(FARTHEST.into()) as u32,
        }
    }

    fn delay(&mut self) -> u32 {
        match self.random.below(10) {
            0..=5 => 1 + self.random.below(20) as u32,
            6 | 7 => 0,
            8 => 30_000,
            _ => self.random.below(30_001) as u32,
        }
    }

    fn times(&mut self) -> u32 {
        match self.random.below(20) {
            0..=1 => 0,
            2 => self.random.below(30_001) as u32,
            _ => 1 + self.random.below(3) as u32,
        }
    }

    /// A slot, mostly one of the first few.
    pub fn slot(&mut self) -> u32 {
        let bound = if self.random.chance(75) { 4 } else { 16 };
        self.random.below(bound) as u32
    }

    /// Digits that the letter does not take, or hardly any letter does.
    fn bad_digits(&mut self, letter: u8) -> Vec<u8> {
        let edges: &[&str] = match letter {
            b'V' => &["0", "16777217", "16777216", "1"],
            b'L' => &["0", "65001", "65000", "65536"],
            b'f' | b'F' => &["2", "256", "10", "01"],
            b'm' => &["101", "100", "256"],
            b'h' => &["51", "50", "256", "100"],
            b'j' => &["0", "3", "512", "257", "255", "256", "65536"],
            b'o' => &["1399", "1651", "1650", "1400", "0"],
            b'J' => &["4", "3", "256"],
            b'b' => &["0", "9601", "28800", "96000", "76800", "4800"],
            b'M' | b'G' => &["30001", "30000", "65536", "32768"],
            b'H' | b'S' => &["0", "1", "00", "05", "10", "15", "21", "013", "002", "99", "2"],
            b'e' | b's' => &["16", "15", "256", "20"],
            _ => &["2147483648", "2147483647", "4294967295", "3000000000"],
        };
        match self.random.below(13) {
            0..=5 => self.random.pick(edges).as_bytes().to_vec(),
            6..=7 => Vec::new(),
            8 => self.random.pick(&["4294967296", "4294967297", "18446744073709551616"]).as_bytes().to_vec(),
            9 => self.random.bits().to_string().into_bytes(),
            _ => self.endless_digits(letter),
        }
    }

    /// Makes one or two operands bad.
    pub fn spoil_operands(&mut self, words: &mut [Word]) {
        for _ in 0..1 + self.random.under(2) {
            let place = self.random.under(words.len().max(1));
            if let Some(word) = words.get_mut(place) {
                word.digits = self.bad_digits(word.letter);
            }
        }
    }

    /// Takes out, puts in or moves a word, so that loops and skips go wrong.
    pub fn spoil_structure(&mut self, words: &mut Vec<Word>) {
        let letter = self.random.pick(b"gGS");
        let word = self.word(letter);
        let place = self.random.under(words.len() + 1);
        match self.random.below(3) {
            0 if place < words.len() => drop(words.remove(place)),
            1 if place < words.len() => words[place] = word,
            _ => words.insert(place, word),
        }
    }

    /// How many commands a line gets.
    pub fn count(&mut self) -> usize {
        match self.random.below(20) {
            0 => 10 + self.random.under(30),
            1..=3 => 6 + self.random.under(10),
            _ => 1 + self.random.under(5),
        }
    }

    /// Commands with or without `R`; mostly good.
    pub fn line(&mut self, run: bool) -> Vec<u8> {
        let count = self.count();
        let mut words = self.words(count);
        if !self.known && self.random.chance(50) {
            let letter = self.random.pick(b"zzZ");
            words.insert(0, self.word(letter));
        }
        match self.random.below(100) {
            0..=3 => self.spoil_operands(&mut words),
            4..=6 => self.spoil_structure(&mut words),
            _ => {}
        }
        written(&words, run)
    }

    /// A slot, a text and `R`; mostly good.
    pub fn storing(&mut self) -> Vec<u8> {
        let slot = self.slot();
        let slot = match self.random.below(20) {
            0 => self.bad_digits(b's'),
            _ => self.zeros(slot),
        };
        let mut words = match self.random.below(10) {
            0 => Vec::new(),
            1 => self.words(14),
            2 => self.words(15),
            _ => self.stored_words(),
        };
        match self.random.below(20) {
            0 => self.spoil_operands(&mut words),
            1 => self.spoil_structure(&mut words),
            _ => {}
        }
        let run = !self.random.chance(4);
        [&b"s"[..], &slot, &written(&words, run)].concat()
    }

    fn stored_words(&mut self) -> Vec<Word> {
        let count = self.random.under(8);
        self.words(count)
    }

    /// An immediate body, a query more often than the others.
    pub fn immediate(&mut self) -> Vec<u8> {
        self.random.pick(IMMEDIATE).as_bytes().to_vec()
    }

    /// `V`, digits or none, and `R`; at times a body that is nearly that.
    pub fn speed_line(&mut self) -> Vec<u8> {
        let digits = match self.random.below(10) {
            0..=4 => self.word(b'V').digits,
            5..=7 => self.bad_digits(b'V'),
            8 => Vec::new(),
            _ => return self.random.pick(NEARLY_SPEED).as_bytes().to_vec(),
        };
        [b"V", &digits[..], b"R"].concat()
    }

    /// A body that no drive takes, or only just.
    pub fn odd(&mut self) -> Vec<u8> {
        match self.random.below(16) {
            0..=1 => self.random.pick(NOT_IMMEDIATE).as_bytes().to_vec(),
            2..=3 => self.random.pick(EDGES).as_bytes().to_vec(),
            4 => self.noise(12),
            5 => self.long(),
            6..=9 => self.faulty(),
            10..=11 => self.endless_line(),
            _ => {
                let run = self.random.chance(80);
                let line = if self.random.chance(70) { self.line(run) } else { self.storing() };
                self.damage(line)
            }
        }
    }

    /// One command at the edge of its range, with or without `R`.
    pub fn single(&mut self) -> Vec<u8> {
        let letter = self.random.pick(b"APDzZVLfFmhjoJbMGHSe");
        let mut words = vec![Word { letter, digits: self.bad_digits(letter) }];
        match letter {
            b'G' => words.insert(0, self.word(b'g')),
            b'S' => words.push(self.word(b'e')),
            _ => {}
        }
        let run = self.random.chance(50);
        written(&words, run)
    }

    /// Any body.
    pub fn body(&mut self) -> Vec<u8> {
        match self.random.below(24) {
            0..=5 => self.line(true),
            6..=7 => self.line(false),
            8..=9 => self.storing(),
            10 => self.immediate(),
            11 => self.random.pick(&["R", "X"]).as_bytes().to_vec(),
            12 => self.long(),
            13..=15 => self.single(),
            16..=18 => self.faulty(),
            19..=20 => self.endless_line(),
            _ => self.odd(),
        }
    }

    /// A body to be counted: any, or loops within loops, often with counts near
    /// the bound or past 64 bits, and sometimes with a letter that is not counted.
    pub fn counted(&mut self) -> Vec<u8> {
        if self.random.chance(50) {
            return self.body();
        }
        let depth = self.random.pick(&[0, 1, 2, 3, 4, 4, 4, 5]);
        let mut text = "g".repeat(depth) + &"z0".repeat(self.random.under(60));
        for _ in 0..depth {
            let n = self.random.pick(&[1, 2, 29_999, 30_000, 30_000, 30_000]);
            text += &format!("G{n}{}", "A1".repeat(self.random.under(3)));
        }
        text += self.random.pick(&["", "A1", "P2D3", "gG2", "HR", "D0", "R", "R", "R"]);
        text.into_bytes()
    }

    /// Bytes of any kind.
    pub fn noise(&mut self, bound: usize) -> Vec<u8> {
        let count = self.random.under(bound + 1);
        let any = self.random.chance(50);
        (0..count).map(|_| if any { self.random.bits() as u8 } else { self.random.pick(BYTES) }).collect()
    }

    /// One to three bytes changed, put in, taken out or doubled.
    pub fn damage(&mut self, mut bytes: Vec<u8>) -> Vec<u8> {
        for _ in 0..1 + self.random.under(3) {
            let byte =
                if self.random.chance(90) { self.random.pick(BYTES) } else { self.random.bits() as u8 };
            let place = self.random.under(bytes.len() + 1);
            match self.random.below(4) {
                0 if place < bytes.len() => bytes[place] = byte,
                1 if place < bytes.len() => drop(bytes.remove(place)),
                2 if place < bytes.len() => bytes.swap(place, 0),
                _ => bytes.insert(place, byte),
            }
        }
        bytes
    }

    /// A body about 256 bytes long.
    pub fn long(&mut self) -> Vec<u8> {
        let length = self.random.pick(&[200, 250, 254, 255, 256, 256, 257, 257, 258, 300, 512, 700]);
        let run = self.random.chance(70);
        let body = match self.random.below(7) {
            0..=2 => {
                let line = self.line(run);
                return fill(line, length);
            }
            3 => self.storing(),
            5 => self.line(run),
            4 => {
                let short = self.random.pick(&["H", "z7", "gG2", "S11M0", "V1", "A"]);
                let mut body = short.repeat(length).into_bytes();
                body.truncate(length - usize::from(run));
                body.extend(run.then_some(b'R'));
                return body;
            }
            _ => return vec![self.random.pick(b"TQ?$R1g"); length],
        };
        self.pad(body, length)
    }

    /// The body made longer by leading zeros of one of its operands.
    pub fn pad(&mut self, mut body: Vec<u8>, length: usize) -> Vec<u8> {
        let takes_zeros = |pair: &[u8]| b"APDzZVLfFmhjoJbMGes".contains(&pair[0]) && pair[1].is_ascii_digit();
        let places: Vec<usize> = body
            .windows(2)
            .enumerate()
            .filter(|(_, pair)| takes_zeros(pair))
            .map(|(place, _)| place + 1)
            .collect();
        if places.is_empty() || body.len() >= length {
            return body;
        }
        let place = self.random.pick(&places);
        let zeros = vec![b'0'; length - body.len()];
        body.splice(place..place, zeros);
        body
    }

    /// A good stored text, at times of ten digits an operand.
    pub fn stored_text(&mut self) -> Vec<u8> {
        let count = if self.random.chance(10) { 14 } else { self.random.under(8) };
        let mut words = self.words(count);
        if self.random.chance(15) {
            widen(&mut words);
        }
        written(&words, false)
    }

    /// A text that may be stored or not.
    pub fn text(&mut self) -> Vec<u8> {
        match self.random.below(12) {
            0..=4 => self.stored_text(),
            10..=11 => self.endless_text(),
            5 => {
                let words = self.words(15);
                written(&words, false)
            }
            6 => {
                let text = self.stored_text();
                self.pad(text, 257)
            }
            _ => self.body(),
        }
    }

    /// A good image.
    pub fn image(&mut self) -> Image {
        let mut new = image::empty();
        for _ in 0..self.random.under(7) {
            let slot = self.slot();
            let text = self.stored_text();
            if slot != 0 || self.random.chance(40) {
                image::store(&mut new, slot as usize, &text);
            }
        }
        new
    }

    /// Damages an image in one slot, which is told; at times it stays good.
    pub fn damage_image(&mut self, image: &mut Image) -> usize {
        let slot = self.slot() as usize;
        let (entry, body) = (4 * slot, 64 + 256 * slot);
        match self.random.below(10) {
            // A byte of the entry, of the length, of the body, of the unused.
            0 => image[entry + self.random.under(2)] ^= 1 << self.random.below(8),
            1 => image[entry + 2] = image[entry + 2].wrapping_add(self.random.pick(&[1, 255])),
            2 => image[entry + 3] ^= 1,
            3..=4 => image[body + self.random.under(12)] = self.random.pick(BYTES),
            5 => image[body + self.random.under(256)] = 1 + self.random.below(255) as u8,
            6 => image[body + 255] ^= 1,
            // A text that is no stored one.
            7 => {
                let mut text = self.text();
                text.truncate(256);
                image::store(image, slot, &text);
            }
            8 => {
                let text = self.stored_text();
                let mut text = self.damage(text);
                text.truncate(256);
                image::store(image, slot, &text);
            }
            _ => {
                let place = self.random.under(IMAGE);
                image[place] = self.random.bits() as u8;
                return if place < 64 { place / 4 } else { (place - 64) / 256 }.min(SLOTS - 1);
            }
        }
        slot
    }

    /// A list in the bench's form.
    pub fn list(&mut self) -> Vec<u8> {
        let count = match self.random.below(20) {
            0 => 0,
            1 => 14 + self.random.under(2),
            2 => 40 + self.random.under(60),
            3 => 100 + self.random.under(201),
            _ => 1 + self.random.under(8),
        };
        let mut words = self.words(count);
        match self.random.below(10) {
            0..=1 => self.spoil_operands(&mut words),
            2 => self.spoil_structure(&mut words),
            3 => words.extend(self.astray_words()),
            _ => {}
        }
        let mut list = Vec::new();
        for word in words {
            list.extend([b' ', word.letter, b' ']);
            list.extend(self.list_operand(&word));
        }
        list
    }

    fn list_operand(&mut self, word: &Word) -> Vec<u8> {
        match (word.letter, &word.digits[..]) {
            (b'g', _) => b"-".to_vec(),
            (b'H', b"") => b"02".to_vec(),
            (b'G', b"") => b"0".to_vec(),
            (b'H' | b'S', digits) if digits.len() != 2 && self.random.chance(90) => b"05".to_vec(),
            (_, digits) if digits.is_empty() || digits.len() > 10 => {
                (self.random.bits() as u32).to_string().into_bytes()
            }
            (_, digits) => digits.to_vec(),
        }
    }
}

/// The body made longer by commands before it, with no operand of more than ten
/// digits.
fn fill(body: Vec<u8>, length: usize) -> Vec<u8> {
    let mut filled = Vec::new();
    let mut left = length.saturating_sub(body.len());
    while left > 0 {
        // `M` and its digits: 2 to 11 bytes, and never one left.
        let size = if left == 12 { 10 } else { left.min(11) };
        filled.extend(if size == 1 { b"H".to_vec() } else { [&b"M"[..], &vec![b'0'; size - 1]].concat() });
        left -= size;
    }
    filled.extend(body);
    filled
}

/// The words one after another, then perhaps `R`.
pub fn written(words: &[Word], run: bool) -> Vec<u8> {
    let mut body = Vec::new();
    for word in words {
        body.push(word.letter);
        body.extend(&word.digits);
    }
    body.extend(run.then_some(b'R'));
    body
}

#[cfg(test)]
mod tests {
    use super::*;
    use crate::line::{check_idle, is_stored_text};

    #[test]
    fn good_ones_are_good() {
        let mut random = Random::new(5);
        for round in 0..2000 {
            let here = if round % 2 == 0 { 7 } else { FARTHEST };
            let mut lines = Lines { random: &mut random, here, known: true };
            let count = lines.count();
            let words = lines.words(count);
            assert!(words.len() <= count);
            let body = written(&words, true);
            assert!(body.len() > 256 || check_idle(&body).is_ok(), "{body:?}");
            assert!(is_stored_text(&lines.stored_text()));
            assert!(image::is_good(&lines.image()));
        }
    }

    #[test]
    fn lengths_are_met() {
        let mut random = Random::new(6);
        let mut lines = Lines { random: &mut random, here: 0, known: true };
        let mut lengths: Vec<usize> = (0..500).map(|_| lines.long().len()).collect();
        lengths.sort_unstable();
        for length in [255, 256, 257, 258] {
            assert!(lengths.binary_search(&length).is_ok(), "{length}");
        }
    }
}
