//! `port PROGRAM [SEED] [CALLS] [WORD..]`: the C port, linked into `calls.c`, against the independent model, on random bodies,
//! texts, images and ramps; and the proved program `pace` against the model's, on all that the bench times. PROGRAM is the
//! linked `calls`, or what runs it: the words are given to it. The last line is 'N passed, M failed'.

use std::fmt;
use std::io::{self, Write};
use std::process::{Command, Output, Stdio};

use calls::{Call, FIGURES, REFUSED};
use drive_model::image::IMAGE;
use drive_model::pace::{self, Mode};
use drive_model::random::{Lines, Random};

/// What runs a program for x86-64 on any processor.
const ON: &str = concat!(env!("CARGO_MANIFEST_DIR"), "/../on-x86-64");
/// The program that `rt ci` proves and writes.
const PACE: &str = concat!(env!("CARGO_MANIFEST_DIR"), "/../../crates/pace/out/pace");
/// Calls of one process.
const BATCH: usize = 10_000;

/// A program, with its words.
type Started<'a> = (&'a str, &'a [String]);

/// Starts a program on an input that it reads to the end before it writes.
fn start((program, words): Started, input: &[u8]) -> io::Result<Output> {
    let mut child = Command::new(program).args(words).stdin(Stdio::piped()).stdout(Stdio::piped()).spawn()?;
    // A program that ends early says more by how it ends than the broken pipe does.
    let _ = child.stdin.take().expect("a pipe").write_all(input);
    child.wait_with_output()
}

/// How often each answer came, and what did not agree.
#[derive(Default)]
struct Tally {
    passed: u64,
    failed: u64,
    answers: std::collections::BTreeMap<String, u64>,
}

impl Tally {
    fn same<T: PartialEq + fmt::Debug>(&mut self, what: impl Fn() -> String, kind: String, found: T, wanted: T) {
        *self.answers.entry(kind).or_default() += 1;
        if found == wanted {
            self.passed += 1;
        } else {
            self.failed += 1;
            if self.failed <= 20 {
                println!("{}: the port says {found:?}, the model {wanted:?}", what());
            }
        }
    }
}

fn lines<'a>(random: &'a mut Random) -> Lines<'a> {
    Lines { random, here: 0, known: true }
}

/// A body as a frame may bring it: good, damaged, odd or over-long.
fn body(random: &mut Random) -> Vec<u8> {
    match random.below(10) {
        0..=3 => lines(random).body(),
        4..=6 => {
            let good = lines(random).body();
            lines(random).damage(good)
        }
        7 => lines(random).long(),
        8 => lines(random).odd(),
        _ => lines(random).noise(300),
    }
}

fn text(random: &mut Random) -> Vec<u8> {
    if random.chance(50) {
        lines(random).stored_text()
    } else {
        lines(random).text()
    }
}

fn image(random: &mut Random) -> Vec<u8> {
    let mut image = lines(random).image();
    if random.chance(60) {
        lines(random).damage_image(&mut image);
    }
    let mut bytes = image.to_vec();
    if random.chance(10) {
        bytes.resize(random.pick(&[0, 1, 64, IMAGE - 1, IMAGE + 1, 2 * IMAGE]), 0);
    }
    bytes
}

/// A number near a bound, or of any size up to it and past it.
fn number(random: &mut Random, bound: u32) -> u32 {
    match random.below(8) {
        0 => random.pick(&[0, 1, 2, bound - 1, bound, bound + 1, u32::MAX]),
        _ => random.of_any_size(u64::from(bound) + u64::from(bound) / 64) as u32,
    }
}

/// V, L, endless and N.
fn move_of(random: &mut Random) -> [u32; 4] {
    let (v, l, n) = (number(random, 16_777_216), number(random, 65_000), number(random, 2_147_483_647));
    [v, l, random.pick(&[0, 0, 0, 1, 256, u32::MAX]), n]
}

/// One call, the check of a line with its place, or all figures of a ramp.
fn case(random: &mut Random) -> Vec<Call> {
    match random.below(10) {
        0..=3 => {
            let body = body(random);
            vec![Call::Line(body.clone()), Call::Place(body)]
        }
        4 => vec![Call::Count(lines(random).counted())],
        5..=6 => vec![Call::Text(text(random))],
        7 => vec![Call::Image(image(random))],
        _ => {
            let numbers = move_of(random);
            FIGURES.map(|letter| Call::Ramp(letter, numbers)).to_vec()
        }
    }
}

/// The answers of a case.
#[derive(PartialEq)]
struct Answers(Vec<u64>);

impl fmt::Debug for Answers {
    fn fmt(&self, f: &mut fmt::Formatter) -> fmt::Result {
        match &self.0[..] {
            [] => f.write_str("nothing"),
            [number] => number.fmt(f),
            numbers => numbers.iter().fold(&mut f.debug_tuple(""), |tuple, number| tuple.field(number)).finish(),
        }
    }
}

fn word(call: &Call) -> &'static str {
    match call {
        Call::Line(_) | Call::Place(_) => "line",
        Call::Text(_) => "text",
        Call::Image(_) => "image",
        Call::Count(_) => "count",
        Call::Ramp(..) => "ramp",
    }
}

fn operands(call: &Call) -> String {
    match call {
        Call::Line(bytes) | Call::Place(bytes) | Call::Text(bytes) | Call::Count(bytes) => format!("{:?}", String::from_utf8_lossy(bytes)),
        Call::Image(bytes) => format!("{bytes:02x?}"),
        Call::Ramp(_, [v, l, endless, n]) => format!("{v} {l} {endless} {n}"),
    }
}

/// The answer as it is tallied: of a count how large it is, or what is refused.
fn kind(call: &Call, answer: u64) -> String {
    match (call, answer) {
        (Call::Count(_), REFUSED..) => format!("count refused {}", answer - REFUSED),
        (Call::Count(_), 1..=0xffff_ffff) => "count some".to_string(),
        (Call::Count(_), 0x1_0000_0000..) => "count over 32 bits".to_string(),
        _ => format!("{} {answer}", word(call)),
    }
}

/// Compares all answers, as far as they go; false where the program did not end well.
fn check_batch(program: Started, cases: &[Vec<Call>], tally: &mut Tally) -> bool {
    let mut input = Vec::new();
    cases.iter().flatten().for_each(|call| call.write(&mut input));
    let output = start(program, &input).unwrap_or_else(|error| panic!("{}: {error}", program.0));
    let mut answers = output.stdout.chunks_exact(8).map(|bytes| u64::from_le_bytes(bytes.try_into().expect("8 bytes")));
    for case in cases {
        let wanted: Vec<u64> = case.iter().map(Call::answer).collect();
        let found: Vec<u64> = answers.by_ref().take(case.len()).collect();
        let short = found.len() < wanted.len();
        let what = || format!("{} {}", word(&case[0]), operands(&case[0]));
        tally.same(what, kind(&case[0], wanted[0]), Answers(found), Answers(wanted));
        if short {
            break;
        }
    }
    if !output.status.success() {
        println!("{} ended with {}", program.0, output.status);
        tally.failed += 1;
    }
    output.status.success()
}

/// What feed and turn answer, a thousand times.
fn check_pace(mode: &Mode, tally: &mut Tally) {
    let input = mode.input(1000);
    let wanted = format!("{}\n", pace::digest(&input).expect("what `pace` reads"));
    let output = start((ON, &[PACE.to_string()]), &input).unwrap_or_else(|error| panic!("{ON}: {error}"));
    let found = String::from_utf8_lossy(&output.stdout).into_owned();
    tally.same(|| mode.name.to_string(), "pace".to_string(), found, wanted);
}

/// Every answer that must have come.
const KINDS: [&str; 20] = [
    "line 0",
    "line 2",
    "line 3",
    "text 0",
    "text 1",
    "image 0",
    "image 1",
    "image 2",
    "count 0",
    "count some",
    "count over 32 bits",
    "count refused 2",
    "count refused 3",
    "count refused 4",
    "count refused 5",
    "ramp 0",
    "ramp 1",
    "ramp 2",
    "ramp 3",
    "pace",
];

const USAGE: &str = "port PROGRAM [SEED] [CALLS] [WORD..]";

fn main() {
    let mut words = std::env::args().skip(1);
    let program = words.next().expect(USAGE);
    let mut number = |otherwise| words.next().map_or(otherwise, |word| word.parse().expect(USAGE));
    let mut random = Random::new(number(1));
    let mut left = number(1_000_000) as usize;
    let words: Vec<String> = words.collect();
    let mut tally = Tally::default();
    while left > 0 {
        let cases: Vec<Vec<Call>> = (0..BATCH.min(left)).map(|_| case(&mut random)).collect();
        left -= cases.len();
        if !check_batch((&program, &words), &cases, &mut tally) {
            left = 0;
        }
    }
    pace::MODES.iter().for_each(|mode| check_pace(mode, &mut tally));
    for (kind, count) in &tally.answers {
        println!("{kind}: {count}");
    }
    for kind in KINDS.iter().filter(|kind| !tally.answers.contains_key(**kind)) {
        println!("{kind} never came");
        tally.failed += 1;
    }
    println!("{} passed, {} failed", tally.passed, tally.failed);
    std::process::exit(i32::from(tally.failed != 0));
}
