//! What chance alone hardly ever makes: short scripts at the far edges.

use crate::address::reach;
use crate::bench::with_hex;
use crate::image;
use crate::packet::checksum;
use crate::random::Lines;

/// Operations that come one after another.
type Script = Vec<Vec<u8>>;

/// Counts of loops, about the powers of two and of ten.
const TIMES: &[u64] = &[
    255, 256, 257, 511, 512, 999, 1000, 1001, 1023, 1024, 1025, 1200, 2047, 2048, 4095, 4096, 8191, 8192,
    9999, 10_000, 16_383, 16_384, 29_999, 30_000,
];
/// Bodies with the letters that "are not in the base".
const NOT_IN_THE_BASE: &[&str] = &[
    "p", "&", "p5", "&5", "p5R", "&R", "&0R", "A5p", "A5&", "A5p1R", "A5&1R", "gp1G2R", "s1p5R", "s1&R",
    "p&R", "&G2R", "&P1G2", "s1&G2R",
];

/// A generator of such scripts, for a unit that is idle and whose buffer and
/// image are long enough.
pub struct Rare<'a> {
    pub lines: Lines<'a>,
    pub number: u8,
}

impl Rare<'_> {
    /// One of them.
    pub fn script(&mut self) -> Script {
        match self.below(164) {
            0..=19 => self.deep_loops(),
            20 => self.many_times(),
            21..=23 => self.long_feed(),
            24..=31 => self.long_body(),
            32..=46 => self.length_alone(),
            47..=51 => self.addresses(),
            52..=61 => vec![self.greatest_ramp()],
            62..=71 => vec![self.long_list()],
            72..=86 => self.line_of_256(),
            87..=96 => self.not_in_the_base(),
            97..=113 => self.seen_buffer(),
            114 => self.image_length(),
            115..=126 => self.refused(),
            127..=142 => self.turning(),
            143..=162 => self.stored_earlier(),
            _ if self.below(3) == 0 => self.longest_body(),
            _ => vec![b"help".to_vec()],
        }
    }

    fn below(&mut self, bound: u64) -> u64 {
        self.lines.random.below(bound)
    }

    fn pick<T: Copy>(&mut self, from: &[T]) -> T {
        self.lines.random.pick(from)
    }

    /// The operation that feeds a frame with this body.
    fn frame(&self, body: &[u8]) -> Vec<u8> {
        with_hex("feed", &[&[b'/', 0x30 + self.number], body, b"\r"].concat())
    }

    /// Loops of depth 3 or 4, one after another at times, run to their end.
    fn deep_loops(&mut self) -> Script {
        let depth = 3 + self.lines.random.under(2);
        let body = format!("z1000{}R", self.nest(depth));
        let stored = self.pick(&["s1ggP1G2G2R", "s1gD1G3R", "s1R", "s1P1gggS01P1z9G1G2G3R"]);
        let word = self.pick(&["run", "timeline"]);
        let run = format!("{word} 15 1").into_bytes();
        vec![self.frame(stored.as_bytes()), self.frame(body.as_bytes()), run, b"unit".to_vec()]
    }

    fn nest(&mut self, depth: usize) -> String {
        if depth == 0 {
            return String::new();
        }
        let twice = self.below(4) == 0;
        let inside = self.nest(depth - 1) + &if twice { self.nest(depth - 1) } else { String::new() };
        let (before, after) = (self.bit(), self.bit());
        format!("g{before}{inside}{after}G{}", 1 + self.below(3))
    }

    fn bit(&mut self) -> &'static str {
        match self.below(40) {
            0 => "e1",
            1 => "S11e1V7",
            _ => self.pick(&["", "", "", "P1", "P2", "D1", "S11P1", "S01D1", "M0", "V7"]),
        }
    }

    /// A loop that is run up to 30,000 times.
    fn many_times(&mut self) -> Script {
        let times = if self.below(3) == 0 { 1 + self.below(30_000) } else { self.pick(TIMES) };
        let body = match self.below(6) {
            0 => format!("gP1G{times}R"),
            1 => format!("ggG2G{times}R"),
            2 => format!("gggG{times}GGR").replace("GG", "G1G1"),
            _ => format!("gG{times}R"),
        };
        vec![self.frame(body.as_bytes()), b"run 15 1".to_vec(), b"unit".to_vec()]
    }

    /// More than 960 bytes in one feed: frames for others, noise, then one for
    /// the unit, then more.
    fn long_feed(&mut self) -> Script {
        let least = if self.below(20) == 0 { 30_000 } else { 961 + self.lines.random.under(1500) };
        let mut bytes = Vec::new();
        while bytes.len() < least {
            let address = self.address_of_others();
            let body = self.lines.body();
            bytes.extend([b'/', address]);
            bytes.extend(body.into_iter().filter(|byte| !b"/\r".contains(byte)));
            bytes.push(b'\r');
        }
        bytes.truncate(least);
        bytes.extend([b'\r', b'/', 0x30 + self.number]);
        bytes.extend(self.pick(&["z7R\r/1Q", "Q\r\r", "?0\r", "$\r", "\r"]).as_bytes());
        vec![with_hex("feed", &bytes), b"unit".to_vec()]
    }

    fn address_of_others(&mut self) -> u8 {
        let number = self.number;
        let others: Vec<u8> =
            (0..=255).filter(|&byte| !b"/\r".contains(&byte) && reach(byte, number).is_none()).collect();
        self.pick(&others)
    }

    /// A body over 700 bytes whose length is that of a good one but for a
    /// multiple of 256, and which begins and ends as that; or commands of one
    /// byte alone.
    fn long_body(&mut self) -> Script {
        let good = self.pick(&["z7R", "T", "?0", "", "A5", "s1A5R", "R", "X", "$"]).as_bytes();
        let more = 256 * (3 + self.lines.random.under(6)) - good.len();
        let filler = self.pick(b"0R5 HH");
        let body = [good, &vec![filler; more], good].concat();
        vec![self.frame(&body), b"unit".to_vec()]
    }

    /// The same with more than 65,536 bytes, in parts.
    fn longest_body(&mut self) -> Script {
        let good = self.pick(&["z7R", "?0", "A5"]).as_bytes();
        let part = with_hex("feed", &[b'0'; 16_384]);
        let first = with_hex("feed", &[&[b'/', 0x30 + self.number], good].concat());
        let last = with_hex("feed", &[&vec![b'0'; 16_384 - good.len()], good, b"\r"].concat());
        vec![first, part.clone(), part.clone(), part, last, b"unit".to_vec()]
    }

    /// An image whose one fault is the length of an entry: 257, or 512 and more
    /// beside what it should be.
    fn length_alone(&mut self) -> Script {
        let slot = self.lines.random.under(image::SLOTS);
        let mut bytes = self.lines.image();
        let text = self.pick(&["H", "A5", "gP1G2", "", "z7"]);
        image::store(&mut bytes, slot, text.as_bytes());
        let length = match self.below(3) {
            0 => 257,
            1 => text.len() as u16 + 256 * (2 + self.below(254) as u16),
            _ => text.len() as u16 | self.pick(&[0x0200, 0x0400, 0x0800, 0x1000, 0x2000, 0x4000, 0x8000]),
        };
        bytes[4 * slot + 2..][..2].copy_from_slice(&length.to_le_bytes());
        let start = format!("start {}", self.number).into_bytes();
        let jump = self.frame(format!("e{slot}R").as_bytes());
        let turn = b"turn 15 1 0".to_vec();
        vec![
            with_hex("image", &bytes),
            start,
            jump,
            turn.clone(),
            turn,
            b"unit".to_vec(),
            b"image empty".to_vec(),
        ]
    }

    /// Frames with every address byte that does not speak to the unit.
    fn addresses(&mut self) -> Script {
        let body = self.pick(&["z7R", "Q", "T", "?9"]);
        let frame = |address: u8| [&[b'/', address], body.as_bytes(), b"\r"].concat();
        let others = (0..=255).filter(|&byte| reach(byte, self.number).is_none());
        let bytes = others.map(frame).collect::<Vec<_>>().concat();
        vec![with_hex("feed", &bytes), b"unit".to_vec()]
    }

    /// V, L and N at their greatest, or nearly.
    fn greatest_ramp(&mut self) -> Vec<u8> {
        let mut near = |greatest: u64| greatest - self.below(8).saturating_sub(5);
        let (speed, slope) = (near(16_777_216), near(65_000));
        let length = near(2_147_483_647);
        match self.below(6) {
            0 => format!("ramp {speed} {slope} endless"),
            1 => format!("ramp {speed} {slope} {}", 2_147_483_647 / (1 + self.below(2000))),
            _ => format!("ramp {speed} {slope} {length}"),
        }
        .into_bytes()
    }

    /// A list of about 256 commands, at times with one at its end that cannot be
    /// read.
    fn long_list(&mut self) -> Vec<u8> {
        let count = self.pick(&[170, 171, 253, 254, 255, 256, 256, 257, 257, 258, 300]);
        let item = if count < 200 { " g - G 0" } else { " g -" };
        let items = if count < 200 { count / 2 } else { count };
        let end =
            self.pick(&["", "", "", " A 5", " L 0", " L 0 g -", " L 0 g -", " L 0 g - g -", " Q 1", " g"]);
        let run = self.pick(&["R", "-"]);
        format!("write - {run}{}{end}", item.repeat(items)).into_bytes()
    }

    /// A list whose line has exactly so many bytes, and what the buffer holds
    /// before and after.
    fn line_of_256(&mut self) -> Script {
        let bytes = self.pick(&[253, 254, 255, 256, 256, 256, 256, 257, 258]);
        let run = self.below(2) == 0;
        let mut left = bytes - usize::from(run);
        let mut operation = format!("write - {}", if run { "R" } else { "-" });
        while left > 0 {
            // A letter and its digits: 2 to 11 bytes, and never one left.
            let size = 2 + self.lines.random.under(10).min(left - 2);
            let size = if left - size == 1 { (size - 1).max(2) } else { size };
            let size = if left == 3 { 3 } else { size };
            let number = 10u64.pow(size as u32 - 2) + self.below(10u64.pow(size as u32 - 2));
            let number = if size == 2 { self.below(10) } else { number };
            operation += &format!(" {} {number}", char::from(self.pick(b"APDzZ")));
            left -= size;
        }
        let room = self.pick(&[255, 256, 257, 262, 512]);
        let room = format!("room {room}").into_bytes();
        vec![room, operation.into_bytes(), b"buffer".to_vec(), b"room 262".to_vec()]
    }

    fn not_in_the_base(&mut self) -> Script {
        let body = self.pick(NOT_IN_THE_BASE).as_bytes();
        match self.below(4) {
            0 => vec![with_hex("line", body)],
            1 => vec![with_hex("text", body)],
            2 => vec![self.frame(body), b"unit".to_vec()],
            _ => vec![[&[b'/', 0x30 + self.number], body].concat(), b"unit".to_vec()],
        }
    }

    /// A frame or a list, and what it leaves in the buffer.
    fn seen_buffer(&mut self) -> Script {
        let room = format!("room {}", self.pick(&[262, 263, 300, 512])).into_bytes();
        let seen = b"buffer".to_vec();
        if self.below(2) == 0 {
            let body = self.pick(&["Q", "?0", "?2", "$", "A", "q", "R", "?9", "T", ""]).as_bytes();
            let group = with_hex("feed", b"/_Q\r");
            let frame = if self.below(6) == 0 { group } else { self.frame(body) };
            return vec![room, frame, seen];
        }
        let list = self.lines.list();
        let slot = self.pick(&["-", "-", "3", "16"]);
        let operation = [format!("write {slot} R").as_bytes(), &list].concat();
        let room = if self.below(2) == 0 { room } else { format!("room {}", self.below(40)).into_bytes() };
        vec![room, operation, seen, b"room 262".to_vec()]
    }

    /// One refused body in each framing, for an idle unit or in a run.
    fn refused(&mut self) -> Script {
        let body = match self.below(6) {
            0 => vec![self.pick(b"HgTR0"); 257 + self.lines.random.under(4)],
            1 => self.pick(&["?1", "TT", "QR", "$$"]).into(),
            _ => self.lines.faulty(),
        };
        let first = if self.below(3) == 0 { "M30000R" } else { "Q" };
        let mut script = vec![self.frame(first.as_bytes())];
        script.extend(self.framings(0x31, &body));
        script.push(b"unit".to_vec());
        script
    }

    /// A body in each framing.
    fn framings(&self, sequence: u8, body: &[u8]) -> [Vec<u8>; 4] {
        let address = 0x30 + self.number;
        let mut frame = [&[0x02, address, sequence], body, &[0x03]].concat();
        frame.push(checksum(&frame));
        [
            self.frame(body),
            with_hex("feed", &frame),
            [&[b'/', address], body].concat(),
            [format!("oem {sequence:02x} ").as_bytes(), body].concat(),
        ]
    }

    /// Speed lines while an endless move is on, or in another wait.
    fn turning(&mut self) -> Script {
        let endless = self.below(3) > 0;
        let line = if endless {
            self.pick(&["z50P0P0R", "z50D0D0R", "D0R", "V77P0V78D0R", "gP0G2R", "z50F1P0R"])
        } else {
            self.pick(&["P90000R", "z9A3000R", "M30000R", "Z3000R", "H01R", "f1Z3000R"])
        };
        let turn = b"turn 15 1 0".to_vec();
        let mut script = vec![self.frame(line.as_bytes())];
        script.extend(vec![turn; 1 + self.lines.random.under(3)]);
        for _ in 0..2 + self.below(4) {
            let asks = self.below(4) == 0;
            let body = if asks { b"?5".to_vec() } else { self.lines.speed_line() };
            let sequence = 0x30 + self.below(16) as u8;
            let place = self.lines.random.under(4);
            script.push(self.framings(sequence, &body)[place].clone());
            // Steps, and at times the edge.
            let after = self.pick(&["unit", "unit", "turn 15 1 1", "turn 15 1 0", "turn 13 1 1", ""]);
            script.extend((!after.is_empty()).then(|| after.into()));
        }
        // The edge, and perhaps another endless move.
        let turns = ["turn 15 1 0", "turn 13 1 0", "turn 15 1 0", "turn 15 1 0", "unit"];
        script.extend(turns.iter().map(|&operation| operation.into()));
        script
    }

    /// An image with endless digits in a program, started and jumped to.
    fn stored_earlier(&mut self) -> Script {
        let slot = if self.below(3) == 0 { 0 } else { self.lines.random.under(image::SLOTS) };
        let text = self.lines.endless_text();
        let mut bytes = if self.below(2) == 0 { image::empty() } else { self.lines.image() };
        image::store(&mut bytes, slot, &text);
        let first = self.pick(&["Q", "$", "X", "R", "T", "T", "?0"]);
        let turn = b"turn 15 1 0".to_vec();
        vec![
            with_hex("image", &bytes),
            format!("start {}", self.number).into_bytes(),
            b"unit".to_vec(),
            self.frame(first.as_bytes()),
            self.frame(format!("z5e{slot}R").as_bytes()),
            turn.clone(),
            turn.clone(),
            turn,
            b"unit".to_vec(),
            with_hex("text", &text),
            self.frame(&[b"s3", &text[..], b"R"].concat()),
            b"image empty".to_vec(),
        ]
    }

    /// An image of another length, from 512 on.
    fn image_length(&mut self) -> Script {
        let any = 512 + self.lines.random.under(3689);
        let length = self.pick(&[512, 1024, 2048, 4096, 4158, 4159, 4161, 4162, any, any]);
        let mut bytes = self.lines.image().to_vec();
        bytes.resize(length, 0);
        let start = format!("start {}", self.number).into_bytes();
        let (run, turn) =
            (self.pick(&["run 15 1", "timeline 15 1"]), self.pick(&["turn 15 1 0", "turn 16 1 0"]));
        let next = vec![start, run.into(), turn.into(), self.frame(b"Q"), b"store".to_vec()];
        [vec![with_hex("image", &bytes)], next, vec![b"image empty".to_vec()]].concat()
    }
}

#[cfg(test)]
mod tests {
    use super::*;
    use crate::bench::Bench;
    use crate::random::Random;

    fn answers(script: &Script) -> Vec<String> {
        let mut bench = Bench::new();
        let answer = |operation: &Vec<u8>| {
            let mut answer = Vec::new();
            bench.answer(operation, &mut answer);
            String::from_utf8(answer).unwrap()
        };
        [vec![b"start 5".to_vec()], script.clone()].concat().iter().map(answer).skip(1).collect()
    }

    fn rare(random: &mut Random) -> Rare<'_> {
        Rare { lines: Lines { random, here: 0, known: true }, number: 5 }
    }

    #[test]
    fn deep_loops_end() {
        let mut random = Random::new(1);
        let ran = |random: &mut Random| answers(&rare(random).deep_loops()).concat().contains("idle 0");
        assert!((0..200).filter(|_| ran(&mut random)).count() > 190);
    }

    #[test]
    fn lines_have_256_bytes() {
        let mut random = Random::new(2);
        let full =
            |random: &mut Random| answers(&rare(random).line_of_256())[1].len() == "wrote ".len() + 512;
        assert!((0..200).filter(|_| full(&mut random)).count() > 30);
    }

    #[test]
    fn the_length_is_the_one_fault() {
        let mut random = Random::new(3);
        for _ in 0..200 {
            let script = rare(&mut random).length_alone();
            assert_eq!(answers(&script)[1], "refused image-bad");
        }
    }

    #[test]
    fn every_framing_refuses_alike() {
        let mut random = Random::new(5);
        for _ in 0..200 {
            let told = answers(&rare(&mut random).refused());
            assert_eq!(told[3], told[4]);
        }
    }

    #[test]
    fn speeds_are_set() {
        let mut random = Random::new(6);
        let told: Vec<String> = (0..300).flat_map(|_| answers(&rare(&mut random).turning())).collect();
        for part in
            [" speed=0 ", " speed=77 ", " speed=78 ", " speed=305175 ", " speed=16777216 ", "busy 3 1"]
        {
            assert!(told.iter().any(|answer| answer.contains(part)), "{part}");
        }
    }

    #[test]
    fn others_are_not_addressed() {
        let mut random = Random::new(4);
        let script = rare(&mut random).addresses();
        assert!(answers(&script)[0].ends_with(" -"));
        let script = rare(&mut random).long_feed();
        assert!(!answers(&script)[0].ends_with(" -"));
    }
}
