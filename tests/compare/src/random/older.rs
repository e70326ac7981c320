//! Random texts for `older` and `newer`, good ones and those with faults of
//! every kind: paper 02, E12.

use crate::bench::with_hex;
use crate::older::most;
use crate::random::Random;
use crate::shared::{Way, LETTERS};

/// `older` and `newer` with bytes that cannot be read.
const UNREADABLE: &[&str] = &[
    "older",
    "older ",
    "older 4",
    "older 413",
    "older zz",
    "older 41 35",
    "older --",
    "newer",
    "newer ",
    "newer 4",
    "newer 4c3",
    "newer 4g",
    "newer 4c 32",
    "newer - -",
];

/// The shared letters that are neither loops nor skips, but `o`, which has no
/// operand.
const PLAIN: &[u8] = b"APDzZVLfmhjJMHe";

/// Letters of one side, letters of other bodies, and what is none.
const STRANGE: &[&str] = &[
    "F0", "F1", "F", "b9600", "b19200", "b", "v200", "v", "c500", "l30", "n2", "N1", "B5", "R", "X", "s1",
    "s", "T", "Q", "$", "?0", "&", "p5", "5", "007", "a", "u1", "r", " ", "/", "\r", "\n", "\0", "\x7f", "-",
];

/// Codes of `H` and `S`, and what is none.
const CODES: &[&str] = &["01", "11", "02", "12", "03", "13", "04", "14"];
const NO_CODES: &[&str] =
    &["0", "1", "2", "014", "00", "05", "10", "15", "20", "21", "99", "001", "002", "013", "0000000002"];

/// Writes the operations that turn texts. The numbers are its own, so that the
/// scripts beside it do not change with it.
#[derive(Clone, Debug)]
pub struct Older {
    random: Random,
}

/// A text as its commands, so that one can be put in or taken out.
type Commands = Vec<String>;

impl Older {
    /// The texts of a seed.
    pub fn new(seed: u64) -> Self {
        Older { random: Random::new(seed.rotate_left(32) ^ 0x0070_12ed_0070_12ed) }
    }

    /// At times an operation that turns a text: two in a hundred.
    pub fn crossing(&mut self) -> Option<Vec<u8>> {
        if !self.random.chance(2) {
            return None;
        }
        if self.random.chance(2) {
            return Some(self.random.pick(UNREADABLE).as_bytes().to_vec());
        }
        let (word, way) = self.random.pick(&[("older", Way::Inward), ("newer", Way::Outward)]);
        let mut operation = with_hex(word, &self.text(way));
        match self.random.below(50) {
            0 => operation.push(b'\r'),
            1 => operation[word.len()..].make_ascii_uppercase(),
            _ => {}
        }
        Some(operation)
    }

    /// A text of any kind.
    fn text(&mut self, way: Way) -> Vec<u8> {
        match self.random.below(100) {
            0..=35 => self.good(way).concat().into_bytes(),
            36..=39 => self.slope(way).concat().into_bytes(),
            40..=69 => self.faulty(way).concat().into_bytes(),
            70..=81 => self.past_the_most(way).concat().into_bytes(),
            82..=89 => self.damaged(way),
            90..=93 => self.long(way),
            94..=96 => self.one_place(way).concat().into_bytes(),
            _ => self.noise(),
        }
    }

    /// Mostly at most as many commands as are taken, at times just as many.
    fn good(&mut self, way: Way) -> Commands {
        let count = match self.random.below(20) {
            0 => 0,
            1..=4 => most(way),
            5 => self.random.under(31),
            6..=12 => 1 + self.random.under(6),
            _ => self.random.under(most(way) + 1),
        };
        self.commands(count, way)
    }

    /// So many commands of good structure and good operands.
    fn commands(&mut self, count: usize, way: Way) -> Commands {
        let loops = self.random.pick(&[0, 2, 5]);
        let letters = self.some_letters();
        let (mut commands, mut open, mut skips) = (Commands::new(), 0, false);
        while commands.len() < count {
            // The places that are not needed to close loops.
            let room = count - commands.len() - open;
            let letter = match self.random.below(10) {
                _ if room == 0 => b'G',
                place if place < loops && room >= 2 && open < 4 && !skips => b'g',
                5..=6 if open > 0 && !skips => b'G',
                7 if room >= 2 => b'S',
                _ => self.random.pick(&letters),
            };
            match letter {
                b'g' => open += 1,
                b'G' => open -= 1,
                _ => {}
            }
            skips = letter == b'S';
            commands.push(self.command(letter, way));
        }
        commands
    }

    /// All letters, a few of them, or those of long operands; often without
    /// `L`.
    fn some_letters(&mut self) -> Vec<u8> {
        let plain = if self.random.chance(50) { PLAIN } else { b"APDzZVfmhjJMHe" };
        match self.random.below(4) {
            0 => b"APDzZ".to_vec(),
            1 => (0..3).map(|_| self.random.pick(plain)).collect(),
            _ => plain.to_vec(),
        }
    }

    fn command(&mut self, letter: u8, way: Way) -> String {
        let operand = self.operand(letter, way);
        format!("{}{operand}", char::from(letter))
    }

    /// An operand in the range of both sides.
    fn operand(&mut self, letter: u8, way: Way) -> String {
        let bare = self.random.chance(20);
        let (least, greatest) = match letter {
            b'g' => return String::new(),
            b'H' | b'G' if bare => return String::new(),
            b'H' | b'S' => return self.random.pick(CODES).to_string(),
            b'j' => {
                let number = 2 << self.random.below(8);
                return self.written(number);
            }
            _ => range(letter, way),
        };
        let number = match self.random.below(8) {
            0 => least,
            1 => greatest,
            2..=3 => least + self.random.of_any_size(greatest - least),
            _ => least + self.random.below(greatest - least + 1),
        };
        self.written(number)
    }

    /// A number, at times with zeros before it.
    fn written(&mut self, number: u64) -> String {
        match self.random.below(12) {
            0 => format!("0{number}"),
            1..=2 => format!("{number:010}"),
            _ => number.to_string(),
        }
        .chars()
        .take(10)
        .collect()
    }

    /// An operand that a letter does not take.
    fn bad_operand(&mut self, letter: u8, way: Way) -> String {
        match letter {
            b'S' if self.random.chance(15) => return String::new(),
            b'H' | b'S' => return self.random.pick(NO_CODES).to_string(),
            _ => {}
        }
        let (least, greatest) = range(letter, way);
        let number = least + self.random.below(greatest - least + 1);
        match self.random.below(8) {
            0..=1 if letter != b'G' => String::new(),
            2 => format!("{number:011}"),
            3 => (4_294_967_296 + number).to_string(),
            4 => format!("{number:0200}"),
            5 if letter == b'j' => self.random.pick(&["0", "1", "3", "6", "255", "257", "512"]).to_string(),
            5 if letter == b'V' => self.random.pick(&["305175", "16777216", "16777217", "0"]).to_string(),
            5 if letter == b'L' => self.random.pick(&["0", "1000", "65000", "65001"]).to_string(),
            6 if least > 0 => (least - 1).to_string(),
            _ => (greatest + 1).to_string(),
        }
    }

    fn bad_command(&mut self, way: Way) -> String {
        let letter = self.random.pick(LETTERS);
        match letter {
            b'g' => "o1500".to_string(),
            b'o' if self.random.chance(70) => {
                let number = self.random.pick(&[0, 30, 250, 251, 1399, 1400, 1500, 1650, 1651]);
                format!("o{number}")
            }
            _ => format!("{}{}", char::from(letter), self.bad_operand(letter, way)),
        }
    }

    /// A good text that is given one to three faults.
    fn faulty(&mut self, way: Way) -> Commands {
        let count = 1 + self.random.under(most(way));
        let mut commands = self.commands(count, way);
        for _ in 0..self.random.pick(&[1, 1, 1, 2, 2, 3]) {
            let place = self.random.under(commands.len() + 1);
            match self.random.below(10) {
                0..=1 => commands.insert(place, self.random.pick(STRANGE).to_string()),
                2..=4 => commands.insert(place, self.bad_command(way)),
                5 => self.worsen(&mut commands, way),
                _ => self.break_structure(&mut commands, place),
            }
        }
        commands
    }

    /// Takes the operand of one command for a bad one.
    fn worsen(&mut self, commands: &mut Commands, way: Way) {
        let place = self.random.under(commands.len());
        if let Some(&letter) = commands[place].as_bytes().first().filter(|letter| LETTERS.contains(letter)) {
            let operand = if letter == b'g' { "5".to_string() } else { self.bad_operand(letter, way) };
            commands[place] = format!("{}{operand}", char::from(letter));
        }
    }

    /// A loop too many or too few, or a skip that is misplaced.
    fn break_structure(&mut self, commands: &mut Commands, place: usize) {
        let letter = self.random.pick(&['g', 'G']);
        let loops = |command: &String| command.starts_with(letter);
        match self.random.below(8) {
            0..=1 => commands.insert(place, "G3".to_string()),
            2 => commands.insert(place, "g".to_string()),
            3 => commands.push(format!("S{}", self.random.pick(CODES))),
            4 => {
                let before = commands.iter().position(loops).unwrap_or(commands.len());
                commands.insert(before, self.random.pick(&["S01", "S14", "S99", "S"]).to_string());
            }
            5 => {
                if let Some(place) = commands.iter().rposition(loops) {
                    commands.remove(place);
                }
            }
            // Five or six loops in one another, closed or not.
            _ => {
                let deep = self.random.pick(&[5, 5, 6]);
                let closed = self.random.pick(&[deep, deep, deep - 1]);
                let nested = vec!["g".to_string(); deep].into_iter().chain(vec!["G2".to_string(); closed]);
                commands.splice(place..place, nested);
            }
        }
    }

    /// As many commands as are taken, one more that is good or not, and at
    /// times others behind it.
    fn past_the_most(&mut self, way: Way) -> Commands {
        let mut commands = self.commands(most(way), way);
        commands.push(match self.random.below(6) {
            0 => self.random.pick(STRANGE).to_string(),
            1 => self.bad_command(way),
            2 => self.random.pick(&["G5", "G", "S01", "g", "G30001"]).to_string(),
            _ => self.command(b'P', way),
        });
        if self.random.chance(50) {
            let more = [self.random.pick(STRANGE).to_string(), self.bad_command(way), "G4".to_string()];
            commands.extend(more.into_iter().filter(|_| self.random.chance(50)));
            commands.extend(self.random.chance(20).then_some("S01".to_string()));
        }
        commands
    }

    /// Any `L` about the ends of both ranges, in a text that is good without it.
    fn slope(&mut self, way: Way) -> Commands {
        let count = self.random.under(4);
        let mut commands = self.commands(count, way);
        let (least, greatest) = range(b'L', way);
        let number = match self.random.below(2) {
            0 => self.random.pick(&[least - 1, least, greatest, greatest + 1]),
            _ => self.random.below(33),
        };
        commands.insert(0, format!("L{number}"));
        commands
    }

    /// A misplaced `S` or `G`, mostly with a bad operand.
    fn one_place(&mut self, way: Way) -> Commands {
        let mut commands = self.commands(5, way);
        let bad = self.random.pick(&["S99g", "S00G1", "S5gG", "G30001", "G00000000001", "S01gG", "gS01G"]);
        commands.insert(self.random.under(6), bad.to_string());
        commands
    }

    /// A text with a byte changed, put in, taken out, or cut off.
    fn damaged(&mut self, way: Way) -> Vec<u8> {
        let mut text =
            if self.random.chance(70) { self.good(way) } else { self.faulty(way) }.concat().into_bytes();
        for _ in 0..1 + self.random.under(2) {
            let byte = self.byte();
            let place = self.random.under(text.len() + 1);
            match self.random.below(4) {
                0 => text.insert(place, byte),
                1 if place < text.len() => drop(text.remove(place)),
                2 if place < text.len() => text[place] = byte,
                _ => text.truncate(place),
            }
        }
        text
    }

    /// Far more bytes than a line may have, or as many as are taken, at times
    /// with a fault behind them.
    fn long(&mut self, way: Way) -> Vec<u8> {
        let times = self.random.pick(&[23, 200, 255, 256, 257, 300, 1000]);
        let piece = match self.random.below(10) {
            0 => "H".to_string(),
            1 => "g".to_string(),
            2 => "0".to_string(),
            3 => "S01".to_string(),
            4 => return [&b"P1A"[..], &vec![b'0'; times], b"5"].concat(),
            _ => {
                let more = self.random.pick(&["", "", "", "", "P5", "x", "V1", "G"]);
                return ["A2147483647".repeat(most(way)), more.to_string()].concat().into_bytes();
            }
        };
        piece.repeat(times).into_bytes()
    }

    fn noise(&mut self) -> Vec<u8> {
        let length = 1 + self.random.under(12);
        (0..length).map(|_| self.byte()).collect()
    }

    fn byte(&mut self) -> u8 {
        match self.random.below(6) {
            0 => self.random.bits() as u8,
            1..=2 => b'0' + self.random.below(10) as u8,
            3 => self.random.pick(b"FbvclnNsRXT?gGS"),
            _ => self.random.pick(LETTERS),
        }
    }
}

/// The range of a letter that both sides have, but for the numbers that `j`
/// leaves out.
fn range(letter: u8, way: Way) -> (u64, u64) {
    match (letter, way) {
        (b'V', _) => (50, 10_000),
        (b'L', Way::Inward) => (1, 20),
        (b'L', Way::Outward) => (2, 25),
        (b'f', _) => (0, 1),
        (b'm', _) => (0, 100),
        (b'h', _) => (0, 50),
        (b'j', _) => (2, 256),
        (b'J', _) => (0, 3),
        (b'M' | b'G', _) => (0, 30_000),
        (b'e', _) => (0, 15),
        _ => (0, 2_147_483_647),
    }
}

#[cfg(test)]
mod tests {
    use super::*;
    use crate::bench::Bench;
    use crate::older::turned;

    #[test]
    fn good_texts_are_taken() {
        let mut older = Older::new(1);
        for count in (0..=25).cycle().take(2000) {
            for way in [Way::Inward, Way::Outward] {
                let text = older.commands(count, way).concat();
                assert_eq!(turned(text.as_bytes(), way).is_ok(), count <= most(way), "{text}");
            }
        }
    }

    #[test]
    fn bad_commands_are_refused() {
        let mut older = Older::new(2);
        for _ in 0..2000 {
            for way in [Way::Inward, Way::Outward] {
                let command = older.bad_command(way);
                let found = turned(command.as_bytes(), way).unwrap_err().to_string();
                assert_eq!(found, "operand 1", "{command}");
                let text = format!("{}H", older.random.pick(STRANGE));
                assert_eq!(turned(text.as_bytes(), way).unwrap_err().to_string(), "letter 1", "{text}");
            }
        }
    }

    #[test]
    fn about_half_are_taken() {
        let mut older = Older::new(3);
        let taken = |way| move |text: Vec<u8>| usize::from(turned(&text, way).is_ok());
        for way in [Way::Inward, Way::Outward] {
            let count: usize = (0..1000).map(|_| older.text(way)).map(taken(way)).sum();
            assert!((300..700).contains(&count), "{count}");
        }
    }

    #[test]
    fn what_cannot_be_read_is_told_so() {
        for line in UNREADABLE {
            let mut answer = Vec::new();
            Bench::new().answer(line.as_bytes(), &mut answer);
            assert!(answer.starts_with(b"? "), "{line}");
        }
    }
}
