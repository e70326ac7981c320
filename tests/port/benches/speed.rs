//! What the library costs beside the independent model, both built for release, as a table of ratios.
//!
//! Each row is timed by two programs that repeat the same work, started in turns with the same input; the digests that they
//! write must be the same. Feed and turn: the proved program `crates/pace/out/pace`. Line check, image check and ramp: `target/calls`,
//! which is `calls.c` linked with the archive. Beside both the model: this program again. Of each the least of all rounds counts,
//! less the time of a run that repeats nothing. A ratio above its target is marked. On a processor other than x86-64 what is timed
//! is the same proved code compiled for that one (`tests/native`).
//!
//! `speed` prints times, `speed counts [MODEL]` instructions: by valgrind, and on a processor other than x86-64 by the emulator;
//! there MODEL is this program built for x86-64, without which our programs alone are counted. `speed bounds` holds the
//! instructions of feed and turn to their bounds and, where the model is counted too, to their targets, and ends with
//! 'N passed, M failed'. `speed pace` and `speed repeat TIMES` are the model's sides, which the others start.

use std::env;
use std::hint::black_box;
use std::io::{self, BufRead, BufReader, Read, Write};
use std::path::Path;
use std::process::{exit, Child, Command, Stdio};
use std::time::{Duration, Instant};

use calls::Call as PortCall;
use drive_model::image;
use drive_model::pace::{self, Mode};
use drive_model::random::{Lines, Random};

const ON: &str = concat!(env!("CARGO_MANIFEST_DIR"), "/../on-x86-64");
const PACE_PROGRAM: &str = concat!(env!("CARGO_MANIFEST_DIR"), "/../../crates/pace/out/pace");
const CALLS: &str = concat!(env!("CARGO_MANIFEST_DIR"), "/../../target/calls");

/// Both for this processor, in the order of the two above.
const NATIVE: [&str; 2] =
    [concat!(env!("CARGO_MANIFEST_DIR"), "/../../target/native/pace"), concat!(env!("CARGO_MANIFEST_DIR"), "/../../target/native/calls")];

/// Whether our programs run on this processor itself.
const HERE: bool = cfg!(target_arch = "x86_64");

/// The checks and the ramp: at most so many times the model, in time and in instructions.
const CHECKS: [f64; 2] = [1.5, 1.5];

/// Feed and turn: at most so many times the model in time and in instructions, and the most instructions of ours that the gate
/// lets pass, so that a lost shape is seen at once. A number of ten digits is written without a division, which the model makes.
const PACE: [(&str, [f64; 2], f64); 18] = [
    ("feed, short frames, 1 byte a call", [1.4, 1.1], 203.0),
    ("feed, short frames, 16 bytes a call", [1.1, 1.05], 86.0),
    ("feed, short frames, 256 bytes a call", [1.1, 1.05], 85.0),
    ("feed, 200-byte bodies, 1 byte a call", [1.4, 1.1], 204.0),
    ("feed, 200-byte bodies, 16 bytes a call", [1.1, 1.05], 75.0),
    ("feed, 200-byte bodies, 256 bytes a call", [1.1, 1.05], 67.0),
    ("feed, short OEM frames, 1 byte a call", [1.4, 1.1], 209.0),
    ("feed, short OEM frames, 16 bytes a call", [1.1, 1.05], 113.0),
    ("feed, short OEM frames, 256 bytes a call", [1.1, 1.05], 110.0),
    ("feed, 200-byte OEM bodies, 1 byte a call", [1.4, 1.1], 226.0),
    ("feed, 200-byte OEM bodies, 16 bytes a call", [1.1, 1.05], 126.0),
    ("feed, 200-byte OEM bodies, 256 bytes a call", [1.1, 1.05], 119.0),
    ("feed, ten-digit answers, 1 byte a call", [4.0, 1.75], 349.0),
    ("feed, ten-digit answers, a frame a call", [4.0, 2.1], 248.0),
    ("turn, idle", [1.3, 1.15], 46.0),
    ("turn, in a move", [1.3, 1.15], 96.0),
    ("turn, a command taken", [2.4, 2.3], 235.0),
    ("turn, a jump", [1.5, 1.5], 2373.0),
];

const ROUNDS: usize = 15;
/// How long a run is meant to take.
const RUN: Duration = Duration::from_millis(100);
/// Items of a run whose instructions are counted; the emulator writes a line for each instruction.
const COUNTED: usize = if HERE { 2000 } else { 200 };

fn main() {
    let words: Vec<String> = env::args().skip(1).filter(|word| word != "--bench").collect();
    match words.iter().map(String::as_str).collect::<Vec<_>>()[..] {
        [] if !HERE && NATIVE.iter().any(|program| !Path::new(program).exists()) => {
            eprintln!("speed: the programs are for x86-64, and times under an emulator say nothing: tests/native makes them for this processor, `-- counts` counts instructions");
            exit(1)
        }
        [] => table("nanoseconds", 0, time),
        ["counts"] => table("instructions", 1, counts),
        ["counts", model] => table("instructions", 1, |row| [0, 1].map(|side| Some(count(row, side, model, emulator_count)))),
        ["bounds"] => bounds(),
        ["pace"] => println!("{}", pace::digest(&input()).expect("what `pace` reads")),
        ["repeat", times] => println!("{}", repeat(&input(), times.parse().expect("a number"))),
        _ => panic!("speed [counts [MODEL] | bounds]"),
    }
}

fn this() -> String {
    env::current_exe().expect("this program").display().to_string()
}

// ---- the table

/// What an item costs ours and the model; none where that cannot be told.
type Costs = [Option<f64>; 2];

fn table(unit: &str, which: usize, costs: impl Fn(&Row) -> Costs) {
    println!("{:<44}{:>9}{:>9}{:>8}{:>8}", format!("{unit} a byte, turn, check or ramp"), "ours", "model", "ratio", "target");
    for row in rows() {
        let [ours, model] = costs(&row);
        let ratio = ours.zip(model).map(|(ours, model)| ours / model);
        let [ours, model, shown] = [ours, model, ratio].map(|cost| cost.map_or("-".to_string(), |cost| format!("{cost:.2}")));
        let missed = ratio.is_some_and(|ratio| ratio > row.targets[which]);
        println!("{:<44}{ours:>9}{model:>9}{shown:>8}{:>8}{}", row.name, row.targets[which], if missed { "  missed" } else { "" });
    }
}

/// Feed and turn in instructions, held to their bounds and to their targets.
fn bounds() {
    let mut failed = 0;
    let mut passed = 0;
    for row in pace::MODES.into_iter().map(pace_row) {
        let [ours, model] = counts(&row);
        let ours = ours.expect("a count");
        let held = [Some((ours, row.bound)), model.map(|model| (ours / model, row.targets[1]))];
        for (found, most) in held.into_iter().flatten() {
            let holds = found <= most;
            passed += usize::from(holds);
            failed += usize::from(!holds);
            println!("{:<44}{found:>9.2} of {most}{}", row.name, if holds { "" } else { "  NOT HELD" });
        }
    }
    println!("{passed} passed, {failed} failed");
    exit(i32::from(failed > 0))
}

/// What an item costs in instructions.
fn counts(row: &Row) -> Costs {
    if HERE {
        return [0, 1].map(|side| Some(count(row, side, &this(), valgrind_count)));
    }
    [Some(count(row, 0, &this(), emulator_count)), None]
}

/// The same work by ours and by the model.
struct Row {
    name: &'static str,
    /// Bytes, turns, checks or ramps of one time.
    items: usize,
    /// At most so many times the model, in time and in instructions.
    targets: [f64; 2],
    /// The most instructions of ours.
    bound: f64,
    work: Work,
}

enum Work {
    /// By `pace`.
    Pace(Mode),
    /// By `calls`: its input.
    Calls(Vec<u8>),
}

impl Row {
    /// What is started, and its input; the model's side is the program `model`.
    fn run(&self, side: usize, model: &str, times: u32) -> (Vec<String>, Vec<u8>) {
        match &self.work {
            Work::Pace(mode) => ([vec![PACE_PROGRAM.into()], vec![model.into(), "pace".into()]][side].clone(), mode.input(times)),
            Work::Calls(input) => (vec![[CALLS, model][side].into(), "repeat".into(), times.to_string()], input.clone()),
        }
    }
}

// ---- times

fn time(row: &Row) -> Costs {
    let once = |side: usize, times: u32| {
        let (mut words, input) = row.run(side, &this(), times);
        if !HERE {
            words[0] = words[0].replace(PACE_PROGRAM, NATIVE[0]).replace(CALLS, NATIVE[1]);
        }
        let begin = Instant::now();
        let (digest, _) = ended(start(&words, &input));
        (begin.elapsed(), digest)
    };
    let mut times = 1;
    while (0..3).any(|_| once(0, times).0 < RUN) {
        times *= 2;
    }
    let mut least = [[Duration::MAX; 2]; 2];
    for _ in 0..ROUNDS {
        let runs = [0, 1].map(|side| (once(side, times), once(side, 0).0));
        assert_eq!(runs[0].0 .1, runs[1].0 .1, "the digests of {}", row.name);
        for (least, ((run, _), nothing)) in least.iter_mut().zip(runs) {
            *least = [least[0].min(run), least[1].min(nothing)];
        }
    }
    least.map(|[run, nothing]| Some((run - nothing).as_secs_f64() * 1e9 / f64::from(times) / row.items as f64))
}

/// Starts a program on a short input.
fn start(words: &[String], input: &[u8]) -> Child {
    let mut command = Command::new(&words[0]);
    command.args(&words[1..]).stdin(Stdio::piped()).stdout(Stdio::piped()).stderr(Stdio::piped());
    let mut child = command.spawn().unwrap_or_else(|error| panic!("{}: {error}", words[0]));
    child.stdin.take().expect("a pipe").write_all(input).expect("to write the input");
    child
}

/// What a program writes to standard output and to standard error.
fn ended(child: Child) -> (String, String) {
    let output = child.wait_with_output().expect("an end");
    let text = |bytes| String::from_utf8(bytes).expect("text");
    let (written, said) = (text(output.stdout), text(output.stderr));
    assert!(output.status.success(), "ended with {}: {said}", output.status);
    (written, said)
}

// ---- instructions

/// The instructions of an item: less a run of one time, in which the loader finds what is called.
fn count(row: &Row, side: usize, model: &str, counted: fn(&[String], &[u8]) -> f64) -> f64 {
    let times = 1 + (COUNTED / row.items) as u32;
    let [run, first] = [1 + times, 1].map(|times| row.run(side, model, times)).map(|(words, input)| counted(&words, &input));
    (run - first) / f64::from(times) / row.items as f64
}

/// The instructions of a whole run, as valgrind counts them.
fn valgrind_count(words: &[String], input: &[u8]) -> f64 {
    let valgrind = ["valgrind", "--tool=callgrind", "--callgrind-out-file=/dev/null"].map(String::from);
    let (_, said) = ended(start(&[&valgrind[..], words].concat(), input));
    let count = said.lines().find_map(|line| line.split("Collected : ").nth(1)).expect("valgrind's count");
    count.trim().parse().expect("a number")
}

/// The same, as lines of the emulator's log.
fn emulator_count(words: &[String], input: &[u8]) -> f64 {
    let mut child = start(&[&[ON.to_string(), "--trace".to_string()], words].concat(), input);
    let log = BufReader::with_capacity(1 << 16, child.stderr.take().expect("a pipe"));
    let count = log.split(b'\n').filter(|line| line.as_ref().expect("a line").starts_with(b"Trace ")).count();
    ended(child);
    count as f64
}

// ---- the model's sides

fn input() -> Vec<u8> {
    let mut input = Vec::new();
    io::stdin().read_to_end(&mut input).expect("standard input");
    input
}

/// The sum of the answers, as `calls repeat` adds them up.
fn repeat(input: &[u8], times: u32) -> u64 {
    let calls = calls::read(input).expect("what `calls` reads");
    let once = || calls.iter().fold(0, |sum: u64, call| sum.wrapping_add(black_box(call).answer()));
    (0..times).fold(0, |sum, _| sum.wrapping_add(once()))
}

// ---- the rows

fn rows() -> Vec<Row> {
    pace::MODES.into_iter().map(pace_row).chain(calls_rows()).collect()
}

fn pace_row(mode: Mode) -> Row {
    let (name, targets, bound) = PACE.into_iter().find(|row| row.0 == mode.name).expect("a row of its own");
    Row { name, items: mode.items(), targets, bound, work: Work::Pace(mode) }
}

fn calls_row(name: &'static str, calls: impl IntoIterator<Item = PortCall>) -> Row {
    let (mut input, mut items) = (Vec::new(), 0);
    for call in calls {
        call.write(&mut input);
        items += 1;
    }
    Row { name, items, targets: CHECKS, bound: f64::MAX, work: Work::Calls(input) }
}

fn calls_rows() -> [Row; 10] {
    let mut random = Random::new(7);
    let mut lines = Lines { random: &mut random, here: 0, known: true };
    let good: Vec<Vec<u8>> = (0..200).map(|_| lines.body()).collect();
    let faulty: Vec<Vec<u8>> = good.iter().map(|body| lines.damage(body.clone())).collect();
    let short = good.into_iter().chain(faulty).filter(|body| body.len() <= 40);
    let long: Vec<u8> = b"gA1000P200D300M50S01z0G10".iter().copied().cycle().take(250).chain(*b"A12345").collect();
    let mut late = long.clone();
    late[253] = b'!';
    let mut full = image::empty();
    (0..image::SLOTS).for_each(|slot| image::store(&mut full, slot, &full_text()));
    assert!(image::is_good(&full));
    let mut bad = full;
    bad[image::IMAGE - 1] = 1;
    let mut moves = |most| -> Vec<[u32; 3]> { (0..500).map(|_| [16_777_216, 65_000, most].map(|top| 1 + random.below(top) as u32)).collect() };
    let ramps = |moves: Vec<[u32; 3]>, endless| moves.into_iter().map(move |[v, l, n]| PortCall::Ramp(b't', [v, l, endless, n]));
    [
        calls_row("line check, short bodies, good and faulty", short.map(PortCall::Line)),
        calls_row("line check, 256 bytes, good", [PortCall::Line(long)]),
        calls_row("line check, 256 bytes, fault at the end", [PortCall::Line(late)]),
        calls_row("image check, full slots", [PortCall::Image(full.to_vec())]),
        calls_row("image check, full slots, bad at the end", [PortCall::Image(bad.to_vec())]),
        calls_row("image check, empty slots", [PortCall::Image(image::empty().to_vec())]),
        // The time of a ramp: it needs the peak, and the quotient.
        calls_row("ramp, moves of 1 to 99", ramps(moves(99), 0)),
        calls_row("ramp, moves of 1 to 100000", ramps(moves(100_000), 0)),
        calls_row("ramp, moves of any length", ramps(moves(2_147_483_647), 0)),
        calls_row("ramp, endless", ramps(moves(1), 1)),
    ]
}

/// A stored text of 14 commands in 128 bytes.
fn full_text() -> Vec<u8> {
    let numbers = ["A", "P", "D", "M", "z", "V", "L", "m", "h", "o", "J"].iter().zip([1000, 200, 30, 50, 0, 305175, 1000, 25, 10, 1500, 1]);
    let words: String = numbers.map(|(letter, number)| format!("{letter}{number:010}")).collect();
    format!("gS01{words}G10").into_bytes()
}
