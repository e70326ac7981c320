//! Random scripts: what a tester might send, and much that one would not.

use std::collections::VecDeque;

use crate::address::{reach, Reach};
use crate::bench::{with_hex, Bench, LONGEST_IMAGE};
use crate::image::{self, IMAGE};
use crate::kinds::{self, Glance};
use crate::packet::{checksum, PACKET};
use crate::random::{Bus, Lines, Older, Random, Rare};
use crate::turn::{Leg, Wait};
use crate::unit::Unit;

/// Lines that are none of the operations, or hold a number or a byte that
/// cannot be read.
const UNREADABLE: &[&str] = &[
    "",
    " ",
    "bogus",
    "Start 1",
    "?",
    "-",
    "start",
    "start ",
    "start  1",
    " start 1",
    "start 1 ",
    "start 256",
    "start -1",
    "start +1",
    "start 1x",
    "start 4294967296",
    "start 99999999999999999999",
    "room",
    "room 513",
    "room x",
    "room -",
    "room 4294967297",
    "buffer 1",
    "buffer ",
    "help me",
    "help ",
    "Help",
    "run",
    "run 15",
    "run 15 1 0",
    "run 256 1",
    "run 15 4294967296",
    "run x 1",
    "run 15  1",
    "run 15 1 ",
    "timeline",
    "timeline 15",
    "timeline 15 1 0",
    "timeline 256 1",
    "timeline 15 4294967296",
    "timeline 15 -",
    "image",
    "image 4",
    "image 0g",
    "image -0",
    "image Empty",
    "image 2f 31",
    "feed",
    "feed ",
    "feed 2",
    "feed 2f3",
    "feed xy",
    "feed 2f 31",
    "feed --",
    "feed 2f310",
    "turn",
    "turn 15",
    "turn 15 1",
    "turn 15 1 0 0",
    "turn 256 1 0",
    "turn 271 1 0",
    "turn 15 4294967296 0",
    "turn 15 1 4294967296",
    "turn a 1 0",
    "turn 15  1 0",
    "turn 15 1 0 ",
    "turn -1 0 0",
    "unit 1",
    "unit ",
    "store x",
    "store ",
    "line",
    "line 4",
    "line zz",
    "line 41 35",
    "count",
    "count 4",
    "count zz",
    "count 41 35",
    "text",
    "text 4",
    "text 4g",
    "ramp",
    "ramp 1 1",
    "ramp 1 1 1 1",
    "ramp 4294967296 1 1",
    "ramp 1 4294967296 1",
    "ramp 1 1 4294967296",
    "ramp 1 1 Endless",
    "ramp 1 1 ",
    "ramp endless 1 1",
    "write",
    "write -",
    "write - X",
    "write R -",
    "write 4294967296 R",
    "write x R",
    "write - R A",
    "write - R Q 1",
    "write - R s 1",
    "write - R R -",
    "write - R X -",
    "write - R g",
    "write - R g 1",
    "write - R G -",
    "write - R H 2",
    "write - R H 002",
    "write - R H -",
    "write - R S 123",
    "write - R A 4294967296",
    "write - R A 4294967297",
    "write - R A -1",
    "write - R AA 1",
    "write - R  A 1",
    "write - R A 1 ",
    "write - R A 1 g",
    "write - R T -",
    "write - R p 5",
    "write - R & -",
    "write - R & 1",
    "write - RR",
    "read",
    "read 2",
    "read zz",
    "read 2f 30",
    "oem",
    "oem 31",
    "oem 3 Q",
    "oem 311 Q",
    "oem 3g Q",
    "oem  Q",
];

/// One operation and what the model answered.
#[derive(Clone, Debug)]
pub struct Step {
    /// The operation, without its LF.
    pub operation: Vec<u8>,
    /// The model's answer, without its LF.
    pub answer: Vec<u8>,
    /// Whether nothing that came before matters from here on.
    pub begins: bool,
    /// The kind of the answer.
    pub kind: String,
    /// The kinds of what happened to the unit, and of what it was refused for.
    pub events: Vec<String>,
}

/// One bench and the scripts that it is given, one after another.
#[derive(Debug)]
pub struct Round {
    random: Random,
    bench: Bench,
    /// Operations that come next.
    queue: VecDeque<Vec<u8>>,
    /// Bytes of frames that were not fed yet.
    pending: Vec<u8>,
    /// The number that was last given to `start`.
    number: u8,
    /// How many operations the script still has.
    left: usize,
    fresh: bool,
    /// Puts `listen` between the operations.
    bus: Bus,
    /// Puts `older` and `newer` between them.
    older: Older,
}

/// What to send next.
#[derive(Clone, Copy)]
enum Choice {
    Turn,
    Frame,
    Unit,
    Line,
    Count,
    Text,
    Ramp,
    Write,
    Read,
    Image,
    Room,
    Start,
    Store,
    Buffer,
    Run,
    Rare,
    Unreadable,
}

/// What is sent beside frames and turns.
const BESIDE: &[(u64, Choice)] = &[
    (16, Choice::Line),
    (12, Choice::Count),
    (10, Choice::Text),
    (14, Choice::Ramp),
    (18, Choice::Write),
    (12, Choice::Read),
    (6, Choice::Image),
    (4, Choice::Room),
    (4, Choice::Start),
    (3, Choice::Store),
    (3, Choice::Buffer),
    (8, Choice::Run),
    (14, Choice::Rare),
    (13, Choice::Unreadable),
];

impl Round {
    /// The round of a seed, with a bench at its start.
    pub fn new(seed: u64) -> Self {
        let mut random = Random::new(seed);
        let left = 20 + random.under(30);
        Round {
            random,
            bench: Bench::new(),
            queue: VecDeque::new(),
            pending: Vec::new(),
            number: 1,
            left,
            fresh: true,
            bus: Bus::new(seed),
            older: Older::new(seed),
        }
    }

    /// The next operation, done on the model.
    pub fn step(&mut self) -> Step {
        if let Some(operation) = self.older.crossing().filter(|_| !self.fresh) {
            return self.aside(operation);
        }
        if let Some(operation) = self.bus.overheard().filter(|_| !self.fresh) {
            return self.aside(operation);
        }
        let begins = std::mem::take(&mut self.fresh) || (self.queue.is_empty() && self.left == 0);
        let mut operation = if begins && self.left == 0 { self.begin_script() } else { self.next() };
        self.change_form(&mut operation);
        let before = Glance::at(&self.bench);
        let mut answer = Vec::new();
        self.bench.answer(&operation, &mut answer);
        let after = Glance::at(&self.bench);
        self.feed_again(&operation, &answer);
        let kind = kinds::of_answer(&operation, &answer);
        let mut events = kinds::of_fault(&operation, &kind);
        events.extend(kinds::of_speed(&operation, &kind, before));
        events.extend(kinds::of_digits(&operation, &kind, before, &self.bench));
        events.extend(kinds::of_event(&operation, &answer, before, after));
        Step { operation, answer, begins, kind, events }
    }

    /// Listens or turns a text, which changes nothing, so that it may stand
    /// anywhere.
    fn aside(&mut self, operation: Vec<u8>) -> Step {
        let mut answer = Vec::new();
        self.bench.answer(&operation, &mut answer);
        let kind = kinds::of_answer(&operation, &answer);
        let mut events = kinds::of_heard(&operation);
        events.extend(kinds::of_crossed(&operation));
        Step { operation, answer, begins: false, kind, events }
    }

    /// At times writes the same operation in another form: upper-case digits,
    /// leading zeros of numbers, CR before the LF.
    fn change_form(&mut self, operation: &mut Vec<u8>) {
        match self.random.below(100) {
            0 => operation.push(b'\r'),
            1 if has_bytes(operation) => {
                let space = operation.iter().position(|&byte| byte == b' ').unwrap_or(0);
                operation[space..].make_ascii_uppercase();
            }
            2 if operation.starts_with(b"turn ") || operation.starts_with(b"ramp ") => {
                operation.splice(5..5, *b"00");
            }
            _ => {}
        }
    }

    /// Makes the bench as good as new, but for its unit's number.
    fn begin_script(&mut self) -> Vec<u8> {
        self.left = 40 + self.random.under(400);
        self.pending.clear();
        self.number = 1 + self.random.below(16) as u8;
        self.queue.push_back(format!("room {PACKET}").into_bytes());
        self.queue.push_back(self.start_number());
        if self.random.chance(60) {
            let old = self.random.chance(15);
            let image = if old { self.lines().old_image() } else { self.lines().image() };
            self.queue.push_back(with_hex("image", &image));
            self.queue.push_back(self.start_number());
        }
        if self.random.chance(1) {
            self.long_run();
        }
        b"image empty".to_vec()
    }

    /// A run of about 256 commands, or of a loop that is run so often.
    fn long_run(&mut self) {
        let address = char::from(0x30 + self.number);
        let times = self.random.pick(&[127, 128, 129, 255, 256, 257, 300]);
        let body = match self.random.below(3) {
            0 => format!("gG{times}R"),
            1 => "H".repeat(times.min(255)) + "R",
            _ => "H".repeat(256),
        };
        for frame in ["T", &body, "R"] {
            self.queue.push_back(with_hex("feed", format!("/{address}{frame}\r").as_bytes()));
        }
        self.queue.extend(vec![b"turn 13 1 0".to_vec(); times - 2]);
        for _ in 0..8 {
            self.queue.extend([b"turn 13 1 0".to_vec(), format!("/{address}Q").into_bytes()]);
        }
    }

    fn start_number(&self) -> Vec<u8> {
        format!("start {}", self.number).into_bytes()
    }

    fn next(&mut self) -> Vec<u8> {
        if let Some(operation) = self.queue.pop_front() {
            return operation;
        }
        self.left -= 1;
        if let Some(repair) = self.repair() {
            return repair;
        }
        if !self.pending.is_empty() && self.random.chance(60) {
            return self.feed_pending();
        }
        match self.choose() {
            Choice::Turn => self.turn(),
            Choice::Frame => self.frame(),
            Choice::Unit => b"unit".to_vec(),
            Choice::Line => with_hex("line", &self.lines().body()),
            Choice::Count => with_hex("count", &self.lines().counted()),
            Choice::Text => with_hex("text", &self.lines().text()),
            Choice::Ramp => self.ramp(),
            Choice::Write => self.write(),
            Choice::Read => self.read(),
            Choice::Image => self.image(),
            Choice::Room => self.room(),
            Choice::Start => self.start(),
            Choice::Store => b"store".to_vec(),
            Choice::Buffer => b"buffer".to_vec(),
            Choice::Run => self.run(),
            Choice::Rare => self.rare(),
            Choice::Unreadable => self.unreadable(),
        }
    }

    fn choose(&mut self) -> Choice {
        let weights: [u64; 4] = match self.bench.unit() {
            None => [15, 25, 10, 50],
            Some(unit) if unit.is_running() => [66, 16, 6, 12],
            Some(_) => [14, 58, 8, 20],
        };
        let beside = self.random.weighted(BESIDE);
        let choices = [Choice::Turn, Choice::Frame, Choice::Unit, beside];
        let place =
            self.random.weighted(&[(weights[0], 0), (weights[1], 1), (weights[2], 2), (weights[3], 3)]);
        choices[place]
    }

    fn lines(&mut self) -> Lines<'_> {
        let (here, known) = match self.bench.unit() {
            None => (0, true),
            Some(unit) => (unit.position().number, unit.position().known),
        };
        Lines { random: &mut self.random, here, known }
    }

    /// Soon undoes a short buffer and an image of another length.
    fn repair(&mut self) -> Option<Vec<u8>> {
        if self.bench.room() < PACKET && self.random.chance(20) {
            return Some(format!("room {}", self.random.pick(&[262, 262, 263, 512])).into_bytes());
        }
        if self.bench.image().len() != IMAGE && self.random.chance(20) {
            return Some(b"image empty".to_vec());
        }
        None
    }

    fn turn(&mut self) -> Vec<u8> {
        let (sample, elapsed, steps) = match self.bench.unit() {
            None => (15, 1, 0),
            Some(unit) => inputs(&mut self.random, unit),
        };
        format!("turn {sample} {elapsed} {steps}").into_bytes()
    }

    /// `run`, or `timeline` where the turns are few. One that would make very
    /// many turns is a single turn mostly.
    fn run(&mut self) -> Vec<u8> {
        const FEW: u32 = 300;
        const MANY: u32 = 3000;
        let sample = if self.random.chance(5) { 16 + self.random.below(240) } else { self.random.below(16) };
        let elapsed = self.random.pick(&[0, 1, 1, 10, 1000, 4_294_967_295]);
        let made = self.bench.unit().map(|unit| {
            let course = unit.clone().course(self.bench.image(), sample as u8, elapsed, None);
            course.map_or(0, |(turns, _)| turns)
        });
        let word = match made.unwrap_or(0) {
            FEW..MANY => "run",
            MANY.. if self.random.chance(90) => return self.turn(),
            MANY.. => "run",
            _ => self.random.pick(&["run", "timeline"]),
        };
        format!("{word} {sample} {elapsed}").into_bytes()
    }

    /// A script of what is rare, once the unit can take frames.
    fn rare(&mut self) -> Vec<u8> {
        self.queue.push_back(format!("room {PACKET}").into_bytes());
        if self.bench.image().len() != IMAGE {
            self.queue.push_back(b"image empty".to_vec());
        }
        if self.random.chance(20) {
            self.queue.push_back(self.start_number());
        }
        self.queue.push_back(with_hex("feed", &[b'/', 0x30 + self.number, b'T', b'\r']));
        let number = self.number;
        let script = Rare { lines: self.lines(), number }.script();
        self.queue.extend(script);
        self.queue.pop_front().unwrap_or_default()
    }

    /// A frame with what comes before and after it, fed at once or in parts,
    /// or typed.
    fn frame(&mut self) -> Vec<u8> {
        let address = self.address();
        let body = self.frame_body();
        if (body.starts_with(b"s") || body == b"?9") && self.random.chance(15) {
            self.queue.push_back(b"store".to_vec());
        }
        if self.random.chance(3) {
            self.queue.push_back(b"buffer".to_vec());
        }
        if self.random.chance(12) {
            return typed(address, &body, &mut self.random);
        }
        if self.random.chance(6) {
            return self.typed_oem(&body);
        }
        let mut bytes = self.before_frame();
        bytes.extend(self.framed(address, body));
        if self.random.chance(12) {
            bytes.extend(self.another_frame());
        }
        if self.random.chance(25) {
            self.pending.extend(bytes);
            return self.feed_pending();
        }
        with_hex("feed", &bytes)
    }

    /// A frame of either framing.
    fn framed(&mut self, address: u8, body: Vec<u8>) -> Vec<u8> {
        if self.random.chance(70) {
            return [&[b'/', address], &body[..], b"\r"].concat();
        }
        let sequence = self.sequence();
        let mut frame = [&[0x02, address, sequence], &body[..], &[0x03]].concat();
        let sum = checksum(&frame);
        frame.push(match self.random.below(20) {
            0 => self.random.pick(b"/\x02\x03\r"),
            1 => sum ^ 1 << self.random.below(8),
            _ => sum,
        });
        frame
    }

    /// Often a repeat of the last number, at times no sequence byte at all.
    fn sequence(&mut self) -> u8 {
        let last = self.bench.unit().and_then(Unit::last).unwrap_or(1);
        match self.random.below(20) {
            0 => self.random.pick(&[0x2f, 0x40, 0x02, 0x03, b'\r', 0xb1]),
            1 => self.random.bits() as u8,
            2..=9 => 0x38 + last,
            10..=11 => 0x30 + last,
            _ => 0x30 + self.random.below(16) as u8,
        }
    }

    fn typed_oem(&mut self, body: &[u8]) -> Vec<u8> {
        let sequence = self.sequence();
        let mut operation = format!("oem {sequence:02x} ").into_bytes();
        operation.extend(body.iter().filter(|&&byte| byte != b'\n'));
        operation
    }

    /// Mostly the unit's own address, at times a group of it, or any.
    fn address(&mut self) -> u8 {
        let own = 0x30 + self.number;
        match self.random.below(100) {
            0..=6 => {
                let in_group = |&byte: &u8| reach(byte, self.number) == Some(Reach::Group);
                let groups: Vec<u8> = (0..=255).filter(in_group).collect();
                self.random.pick(&groups)
            }
            7..=9 => 0x30 + self.random.below(18) as u8,
            10 => self.random.pick(b"ACEGIKMOQUY]_0"),
            11 => self.random.bits() as u8,
            _ => own,
        }
    }

    /// A body that goes with what the unit is at.
    fn frame_body(&mut self) -> Vec<u8> {
        let running = self.bench.unit().is_some_and(Unit::is_running);
        let waiting = self.bench.unit().is_some_and(|unit| unit.awaited().is_some());
        if running && self.random.chance(if self.turns_endlessly() { 40 } else { 8 }) {
            if self.random.chance(25) {
                self.queue.push_back(b"unit".to_vec());
            }
            return self.random_speed();
        }
        let place = self.random.below(100);
        let mut lines = self.lines();
        match (running, place) {
            (_, 0..=3) => lines.odd(),
            (true, 4..=23) => b"T".to_vec(),
            (true, 24..=29) => b"TR".to_vec(),
            (true, 30..=69) if waiting => b"R".to_vec(),
            (true, 30..=75) => lines.immediate(),
            (true, 76..=81) => b"X".to_vec(),
            (true, 82..=87) => b"R".to_vec(),
            (true, 88..=89) => b"?9".to_vec(),
            (true, _) => lines.body(),
            (false, 4..=13) => lines.immediate(),
            (false, 14..=19) => b"R".to_vec(),
            (false, 20..=25) => b"X".to_vec(),
            (false, 26..=34) => lines.storing(),
            (false, 35..=42) => lines.line(false),
            (false, 43..=47) => lines.body(),
            (false, _) => lines.line(true),
        }
    }

    /// Whether an endless move is on.
    fn turns_endlessly(&self) -> bool {
        self.bench.unit().is_some_and(|unit| matches!(unit.wait(), Wait::Move(on) if on.is_endless()))
    }

    /// A speed line, or what asks for the speed.
    fn random_speed(&mut self) -> Vec<u8> {
        if self.random.chance(25) {
            b"?5".to_vec()
        } else {
            self.lines().speed_line()
        }
    }

    /// Noise, a frame for others, a frame that is not finished.
    fn before_frame(&mut self) -> Vec<u8> {
        match self.random.below(20) {
            0 => self.lines().noise(6),
            1 => self.another_frame(),
            2 => {
                let mut frame = self.another_frame();
                frame.pop();
                frame
            }
            3 => self.random.pick(&["\n", "\r\n", "/\r", "//", "/", "/1", "/0Q\r", "\r"]).as_bytes().to_vec(),
            // Bytes that would be a frame if its `/` counted.
            4 => {
                let begin = self.random.pick(&["/\r", "/\r\n", "", "\r", "/0\r", "/1\r"]);
                let frame = self.another_frame();
                [begin.as_bytes(), &frame[1..]].concat()
            }
            _ => Vec::new(),
        }
    }

    fn another_frame(&mut self) -> Vec<u8> {
        let address =
            if self.random.chance(50) { 0x30 + self.random.below(17) as u8 } else { self.address() };
        let body = self.frame_body();
        self.framed(address, body)
    }

    /// Feeds a part of the bytes that wait, or all.
    fn feed_pending(&mut self) -> Vec<u8> {
        let count = match self.random.below(4) {
            0 => self.pending.len(),
            1 => 1,
            _ => self.random.under(self.pending.len() + 1),
        };
        let part: Vec<u8> = self.pending.drain(..count).collect();
        with_hex("feed", &part)
    }

    /// At times feeds again what a feed did not consume.
    fn feed_again(&mut self, operation: &[u8], answer: &[u8]) {
        let Some(hex) = operation.strip_prefix(b"feed ") else {
            return;
        };
        let consumed =
            std::str::from_utf8(answer).ok().and_then(|answer| answer.split(' ').nth(1)?.parse().ok());
        let (Some(consumed), Some(bytes)) = (consumed, crate::bench::read_hex_field(hex)) else {
            return;
        };
        let consumed: usize = consumed;
        if consumed < bytes.len() && self.random.chance(50) {
            self.pending.splice(0..0, bytes[consumed..].iter().copied());
        }
    }

    fn ramp(&mut self) -> Vec<u8> {
        if self.random.chance(15) {
            return self.square_ramp();
        }
        let random = &mut self.random;
        let speed = match random.below(10) {
            0 => random.pick(&[0, 16_777_217, u32::MAX]),
            1 => random.pick(&[1, 2, 305_175, 16_777_215, 16_777_216]),
            _ => 1 + random.of_any_size(16_777_215) as u32,
        };
        let slope = match random.below(10) {
            0 => random.pick(&[0, 65_001, 65_536, u32::MAX]),
            1 => random.pick(&[1, 2, 1000, 64_999, 65_000]),
            _ => 1 + random.of_any_size(64_999) as u32,
        };
        let length = match random.below(10) {
            0 => random.pick(&["0", "2147483648", "4294967295"]).to_string(),
            1 => random.pick(&["1", "2", "15258", "15259", "2147483646", "2147483647"]).to_string(),
            2 | 3 => "endless".to_string(),
            _ => (1 + random.of_any_size(2_147_483_646)).to_string(),
        };
        format!("ramp {speed} {slope} {length}").into_bytes()
    }

    /// A ramp whose peak is met exactly, as 12207·2a²·12207b² = 2(12207ab)², or
    /// nearly; V is near that peak at times.
    fn square_ramp(&mut self) -> Vec<u8> {
        let random = &mut self.random;
        let (slope, steps, peak) = if random.chance(70) {
            let (a, b) = (1 + random.below(180), 1 + random.below(400));
            (2 * a * a, 12_207 * b * b, 12_207 * a * b)
        } else {
            let b = 1 + random.below(40_000);
            (24_414, b * b, 12_207 * b)
        };
        let near = random.pick(&[0, 0, 1, 2]);
        let speed = match random.below(4) {
            0 => peak.clamp(2, 16_777_215) + random.below(3) - 1,
            _ => 16_777_216,
        };
        format!("ramp {speed} {slope} {}", steps - near.min(steps - 1)).into_bytes()
    }

    fn write(&mut self) -> Vec<u8> {
        let slot = match self.random.below(10) {
            0..=6 => "-".to_string(),
            7 => self.random.pick(&["16", "17", "255", "256", "4294967295", "007", "15"]).to_string(),
            _ => self.random.below(16).to_string(),
        };
        let run = if self.random.chance(75) { "R" } else { "-" };
        let mut operation = format!("write {slot} {run}").into_bytes();
        operation.extend(self.lines().list());
        if self.random.chance(15) {
            let short = self.random.pick(&[0, 1, 3, 5, 8, 12]);
            self.queue.push_back(operation);
            self.queue.push_back(b"room 262".to_vec());
            return format!("room {short}").into_bytes();
        }
        operation
    }

    /// A packet, good or not.
    fn read(&mut self) -> Vec<u8> {
        let status = match self.random.below(10) {
            0..=7 => self.random.pick(&[0x40, 0x60]) | self.random.below(16) as u8,
            _ => self.random.bits() as u8,
        };
        let length = match self.random.below(10) {
            0..=3 => 0,
            4 => self.random.pick(&[255, 256, 257, 300]),
            _ => self.random.under(12),
        };
        let oem = self.random.chance(40);
        let mut bytes = vec![if oem { 0x02 } else { b'/' }, b'0', status];
        bytes.extend((0..length).map(|_| 0x20 + self.random.below(0x5f) as u8));
        bytes.push(0x03);
        if oem {
            let flipped = if self.random.chance(10) { 1 << self.random.below(8) } else { 0 };
            bytes.push(checksum(&bytes) ^ flipped);
        } else {
            bytes.extend(b"\r\n");
        }
        match self.random.below(10) {
            0 | 1 => bytes = self.lines().damage(bytes),
            2 => {
                let place = self.random.under(bytes.len());
                bytes[place] =
                    self.random.pick(&[0, 3, 10, 13, 0x1f, 0x7f, 0x80, 0xff, b'/', b'0', b' ', b'~']);
            }
            3 => bytes.truncate(self.random.under(bytes.len() + 1)),
            _ => {}
        }
        with_hex("read", &bytes)
    }

    /// An image: good, damaged, or of another length.
    fn image(&mut self) -> Vec<u8> {
        match self.random.below(20) {
            0 => b"image empty".to_vec(),
            1..=2 => {
                let length = self.random.pick(&[0, 1, 63, 64, 320, 4159, 4161, 4199, LONGEST_IMAGE]);
                let mut bytes = self.lines().image().to_vec();
                bytes.resize(length, 0);
                if self.random.chance(40) {
                    let next = self.random.pick(&["start 1", "start 0", "store", "turn 16 0 0", "feed -"]);
                    self.queue.push_back(next.as_bytes().to_vec());
                }
                with_hex("image", &bytes)
            }
            3..=7 => with_hex("image", &self.lines().image()),
            8 => with_hex("image", &self.lines().old_image()),
            _ => self.damaged_image(),
        }
    }

    /// A damaged image, and mostly what shows the damage.
    fn damaged_image(&mut self) -> Vec<u8> {
        let lent = image::Image::try_from(self.bench.image());
        let mut lines = self.lines();
        let mut image = match lent {
            Ok(lent) if lines.random.chance(50) => lent,
            _ => lines.image(),
        };
        let slot = lines.damage_image(&mut image);
        if self.random.chance(60) {
            let address = char::from(0x30 + self.number);
            let body = self.random.pick(&["e", "z5e", "gM0e"]);
            let end = if body.starts_with('g') { "G" } else { "" };
            let frame = format!("/{address}{body}{slot}{end}R\r");
            self.queue.push_back(with_hex("feed", frame.as_bytes()));
            self.queue.extend([b"turn 15 1 0".to_vec(), b"turn 11 1 0".to_vec()]);
        }
        if self.random.chance(50) {
            self.queue.push_back(self.start_number());
        }
        with_hex("image", &image)
    }

    fn room(&mut self) -> Vec<u8> {
        let room = match self.random.below(10) {
            0..=7 => self.random.pick(&[0, 1, 5, 6, 7, 261, 262, 263, 512]),
            _ => self.random.below(513),
        };
        format!("room {room}").into_bytes()
    }

    fn start(&mut self) -> Vec<u8> {
        let number = match self.random.below(10) {
            0..=1 => self.random.pick(&[0, 17, 18, 19, 32, 127, 128, 255]),
            2 => self.random.below(256) as u8,
            _ => 1 + self.random.below(16) as u8,
        };
        let starts = (1..=16).contains(&number) && Unit::start(number, self.bench.image()).is_ok();
        if starts {
            self.number = number;
        }
        format!("start {number}").into_bytes()
    }

    fn unreadable(&mut self) -> Vec<u8> {
        match self.random.below(50) {
            0 => with_hex("image", &vec![0; LONGEST_IMAGE + 1]),
            1 => format!("turn {} 1 0", 256 + self.random.below(1 << 40)).into_bytes(),
            2 => format!("start {}", 256 + self.random.below(1 << 40)).into_bytes(),
            3 => format!("room {}", 513 + self.random.below(1 << 40)).into_bytes(),
            _ => self.random.pick(UNREADABLE).as_bytes().to_vec(),
        }
    }
}

/// Whether the operation has bytes in hex digits.
fn has_bytes(operation: &[u8]) -> bool {
    let words = [&b"feed "[..], b"line ", b"text ", b"read ", b"count ", b"image "];
    words.iter().any(|word| operation.starts_with(word)) && !operation.ends_with(b"empty")
}

/// A sample, a time and a report for a unit: mostly what a drive would see.
fn inputs(random: &mut Random, unit: &Unit) -> (u64, u64, u64) {
    (sample(random, unit), elapsed(random, unit.wait()), report(random, unit))
}

fn sample(random: &mut Random, unit: &Unit) -> u64 {
    let last = unit.sample();
    let any = random.below(16) as u8;
    let flag = if unit.settings().flag_low { 0 } else { 4 };
    let sample = match (unit.wait(), random.below(100)) {
        (_, 0..=1) => return random.pick(&[16, 17, 31, 128, 255]),
        (_, 2..=9) => any,
        // Input 2 falls.
        (Wait::Move(_), 10..=29) if last & 2 != 0 => any & !2,
        (Wait::Move(_), 30..=79) => any | 2,
        // The flag as it is awaited, or not.
        (Wait::Home(Leg::Away { .. }), 10..=39) => any & !4 | (flag ^ 4),
        (Wait::Home(Leg::Away { .. }), _) => any & !4 | flag,
        (Wait::Home(Leg::Toward { .. }), 10..=39) => any & !4 | flag,
        (Wait::Home(Leg::Toward { .. }), _) => any & !4 | (flag ^ 4),
        (Wait::Input(level), 10..=39) if level.high => any | level.bit,
        (Wait::Input(level), 10..=39) => any & !level.bit,
        (Wait::Input(_), 40..=79) => last,
        (_, 40..=69) => last,
        _ => any,
    };
    sample.into()
}

fn elapsed(random: &mut Random, wait: Wait) -> u64 {
    match (wait, random.below(10)) {
        (Wait::Delay(left), 0..=2) => left.into(),
        (Wait::Delay(left), 3) => u64::from(left) + 1,
        (Wait::Delay(left), 4) => u64::from(left) - 1,
        (_, 5) => random.pick(&[0, 30_000, 65_536, u64::from(u32::MAX)]),
        _ => random.below(15),
    }
}

fn report(random: &mut Random, unit: &Unit) -> u64 {
    let number = u64::from(unit.greatest_report());
    let endless = matches!(unit.wait(), Wait::Move(on) if on.is_endless());
    match random.below(100) {
        0..=2 => number + 1,
        3 => random.below(1 << 32),
        4..=9 => 0,
        10..=14 => number.saturating_sub(1),
        15..=74 if endless => random.below(number.min(40) + 1),
        15..=34 => random.below(number + 1),
        _ => number,
    }
}

/// A line as a person types it; it has no LF.
fn typed(address: u8, body: &[u8], random: &mut Random) -> Vec<u8> {
    let mut line = vec![b'/', address];
    line.extend(body);
    for byte in &mut line[1..] {
        if !matches!(byte, b' '..=b'~') {
            *byte = random.pick(b" RQ0");
        }
    }
    match random.below(50) {
        0 => line.extend("\u{e9}".bytes()),
        1 => line.extend(b"\r/1Q"),
        _ => {}
    }
    line
}

#[cfg(test)]
mod tests {
    use super::*;

    #[test]
    fn the_same_seed_makes_the_same_script() {
        let steps = |seed| {
            let mut round = Round::new(seed);
            (0..500).map(|_| round.step().operation).collect::<Vec<_>>()
        };
        assert_eq!(steps(3), steps(3));
        assert_ne!(steps(3), steps(4));
    }

    #[test]
    fn scripts_stand_alone() {
        let mut round = Round::new(9);
        let steps: Vec<Step> = (0..3000).map(|_| round.step()).collect();
        assert!(steps[0].begins);
        let mut bench = Bench::new();
        let mut begun = 0;
        for step in &steps {
            if step.begins {
                bench = Bench::new();
                begun += 1;
            }
            let mut answer = Vec::new();
            bench.answer(&step.operation, &mut answer);
            assert_eq!(answer, step.answer);
            assert!(!step.operation.contains(&b'\n'));
        }
        assert!(begun > 5);
    }

    #[test]
    fn what_cannot_be_read_is_told_so() {
        for line in UNREADABLE {
            let mut answer = Vec::new();
            Bench::new().answer(line.as_bytes(), &mut answer);
            assert!(answer.starts_with(b"? "), "{line}");
        }
    }
}
