//! `compare PROGRAM [SEED] [OPERATIONS] [WORD..]`: runs a bench program and the
//! model on the same random scripts and compares every line of answer. The
//! words are given to the program.
//!
//! A disagreement is shrunk and printed (with `COMPARE_PLAIN` in the
//! environment only its place is). At the end stand the counts of each kind of
//! answer and event; one that did not occur is a failure. Of what stands behind
//! `?` nothing is compared, and a program that ends with another status than 0
//! disagrees.

use std::ffi::OsString;
use std::io::{Read, Write};
use std::process::{Command, ExitCode, Stdio};
use std::sync::mpsc;
use std::thread;
use std::time::{Duration, Instant};

use drive_model::bench::Bench;
use drive_model::kinds::Counts;
use drive_model::random::{Round, Step};
use drive_model::shrink::{shrink, Script};

const SEED: u64 = 1;
const OPERATIONS: usize = 1_000_000;
/// Operations of one process.
const ROUND: usize = 10_000;
/// How long a process may take with a round, and with a script.
const PATIENCE: Duration = Duration::from_secs(60);
const SHORT_PATIENCE: Duration = Duration::from_secs(5);
/// How long a script may be made shorter.
const SHRINKING: Duration = Duration::from_secs(60);
/// How often the programs are run to make a script shorter.
const TRIES: usize = 3000;

/// How a bench program is started.
struct Program {
    name: OsString,
    words: Vec<OsString>,
}

struct Wanted {
    program: Program,
    seed: u64,
    operations: usize,
}

fn main() -> ExitCode {
    let Some(wanted) = wanted() else {
        eprintln!("usage: compare PROGRAM [SEED] [OPERATIONS] [WORD..]");
        return ExitCode::from(2);
    };
    println!("seed {}", wanted.seed);
    let mut counts = Counts::new();
    let mut passed = 0;
    let sizes = (0..wanted.operations).step_by(ROUND).map(|begin| ROUND.min(wanted.operations - begin));
    let rounds: Vec<(u64, usize)> = (0..).zip(sizes).collect();
    let together = thread::available_parallelism().map_or(1, |processors| processors.get());
    for (steps, place) in rounds.chunks(together).flat_map(|some| play(&wanted, some)) {
        if let Some(place) = place {
            println!("disagreement at operation {} (seed {})", passed + place + 1, wanted.seed);
            if std::env::var_os("COMPARE_PLAIN").is_none() {
                show(&wanted.program, &steps[..=place]);
            }
            println!("{} passed, 1 failed", passed + place);
            return ExitCode::FAILURE;
        }
        passed += steps.len();
        for step in steps {
            counts.add(step.kind);
            step.events.into_iter().for_each(|event| counts.add(event));
        }
    }
    report(&counts, passed)
}

fn wanted() -> Option<Wanted> {
    let mut arguments = std::env::args_os().skip(1);
    let name = arguments.next()?;
    let mut number = |default: u64| match arguments.next() {
        None => Some(default),
        Some(text) => text.to_str()?.parse().ok(),
    };
    let seed = number(SEED)?;
    let operations = number(OPERATIONS as u64)?;
    let operations = usize::try_from(operations).ok()?;
    Some(Wanted { program: Program { name, words: arguments.collect() }, seed, operations })
}

/// Prints the counts; fails where a kind is missing or has no name.
fn report(counts: &Counts, passed: usize) -> ExitCode {
    for (kind, count) in counts.iter() {
        println!("{count:>9}  {kind}");
    }
    let faults = counts.faults();
    for fault in &faults {
        println!("{fault}");
    }
    println!("{passed} passed, {} failed", faults.len());
    if faults.is_empty() {
        ExitCode::SUCCESS
    } else {
        ExitCode::FAILURE
    }
}

/// Some rounds, by number and size, at the same time: the steps of each, and
/// the place of its first disagreement.
fn play(wanted: &Wanted, rounds: &[(u64, usize)]) -> Vec<(Vec<Step>, Option<usize>)> {
    let play_one = |&(number, size): &(u64, usize)| {
        let mut round = Round::new(wanted.seed.wrapping_mul(0x1_0000_0001).wrapping_add(number));
        let steps: Vec<Step> = (0..size).map(|_| round.step()).collect();
        let place = first_in_round(&wanted.program, &steps);
        (steps, place)
    };
    thread::scope(|scope| {
        let running: Vec<_> = rounds.iter().map(|round| scope.spawn(move || play_one(round))).collect();
        running.into_iter().map(|round| round.join().expect("a round that ends")).collect()
    })
}

/// The place of the first disagreement of a round.
fn first_in_round(program: &Program, steps: &[Step]) -> Option<usize> {
    let operations: Vec<&[u8]> = steps.iter().map(|step| &step.operation[..]).collect();
    let expected: Vec<&[u8]> = steps.iter().map(|step| &step.answer[..]).collect();
    first_difference(&expected, &lines(&run(program, &operations, PATIENCE)))
}

/// The place of the first disagreement of a script that is run alone.
fn first_of_script(program: &Program, script: &[Vec<u8>]) -> Option<usize> {
    let operations: Vec<&[u8]> = script.iter().map(Vec::as_slice).collect();
    let expected = answers(script);
    let expected: Vec<&[u8]> = expected.iter().map(Vec::as_slice).collect();
    first_difference(&expected, &lines(&run(program, &operations, SHORT_PATIENCE)))
}

/// The operations up to a disagreement, from the last place on from which
/// nothing before matters; all of them if the disagreement does not show so.
fn script_of(program: &Program, steps: &[Step]) -> Script {
    let operations: Script = steps.iter().map(|step| step.operation.clone()).collect();
    let begin = steps.iter().rposition(|step| step.begins).unwrap_or(0);
    match first_of_script(program, &operations[begin..]) {
        Some(_) => operations[begin..].to_vec(),
        None => operations,
    }
}

/// Shrinks the operations up to a disagreement and prints them with both
/// answers.
fn show(program: &Program, steps: &[Step]) {
    let end = Instant::now() + SHRINKING;
    let first =
        |script: &[Vec<u8>]| (Instant::now() < end).then(|| first_of_script(program, script)).flatten();
    let script = shrink(script_of(program, steps), TRIES, first);
    let ours = answers(&script);
    let operations: Vec<&[u8]> = script.iter().map(Vec::as_slice).collect();
    let output = run(program, &operations, SHORT_PATIENCE);
    let theirs = lines(&output);
    let mut rest = &theirs[..];
    println!("the script has {} operations:", script.len());
    for (operation, ours) in script.iter().zip(&ours) {
        println!("    {}", operation.escape_ascii());
        for line in lines(ours) {
            show_answers(line, rest.first().copied());
            rest = rest.get(1..).unwrap_or_default();
        }
    }
    for line in rest {
        println!("        program, too: {}", line.escape_ascii());
    }
}

/// One answer where both are the same, else both, from a little before the
/// first difference on.
fn show_answers(ours: &[u8], theirs: Option<&[u8]>) {
    let Some(theirs) = theirs else {
        println!("        model:   {}", excerpt(ours, 0));
        println!("        program: (no answer)");
        return;
    };
    if agree(ours, theirs) {
        println!("        both:    {}", excerpt(theirs, 0));
        return;
    }
    let same = ours.iter().zip(theirs).take_while(|(ours, theirs)| ours == theirs).count();
    println!("        model:   {}", excerpt(ours, same));
    println!("        program: {}", excerpt(theirs, same));
}

/// A line as it is, or the part of a long one about a place.
fn excerpt(line: &[u8], place: usize) -> String {
    const MOST: usize = 400;
    if line.len() <= MOST {
        return line.escape_ascii().to_string();
    }
    let begin = place.saturating_sub(MOST / 4).min(line.len());
    let part = &line[begin..line.len().min(begin + MOST)];
    format!("(from byte {begin} of {}) {}", line.len(), part.escape_ascii())
}

/// The model's answers.
fn answers(script: &[Vec<u8>]) -> Script {
    let mut bench = Bench::new();
    let answer = |operation: &Vec<u8>| {
        let mut answer = Vec::new();
        bench.answer(operation, &mut answer);
        answer
    };
    script.iter().map(answer).collect()
}

/// The first place where the answers are not the same; lines too many count
/// for the last place.
fn first_difference(expected: &[&[u8]], found: &[&[u8]]) -> Option<usize> {
    let mut rest = found;
    for (place, answer) in expected.iter().enumerate() {
        let ours = lines(answer);
        let Some((theirs, after)) = rest.split_at_checked(ours.len()) else {
            return Some(place);
        };
        if !ours.iter().zip(theirs).all(|(ours, theirs)| agree(ours, theirs)) {
            return Some(place);
        }
        rest = after;
    }
    (!rest.is_empty()).then(|| expected.len().checked_sub(1)).flatten()
}

/// Whether two lines of answer are the same, but for what stands behind `?`.
fn agree(ours: &[u8], theirs: &[u8]) -> bool {
    let unreadable = |line: &[u8]| line == b"?" || line.starts_with(b"? ");
    ours == theirs || (unreadable(ours) && unreadable(theirs))
}

/// The lines of an answer or of an output; nothing has none.
fn lines(output: &[u8]) -> Vec<&[u8]> {
    let mut lines: Vec<&[u8]> = output.split(|&byte| byte == b'\n').collect();
    if lines.last().is_some_and(|last| last.is_empty()) {
        lines.pop();
    }
    lines
}

/// What the program writes for these operations. One that takes too long is
/// ended; of that, and of a status that is not 0, a line tells after what it
/// wrote.
fn run(program: &Program, operations: &[&[u8]], patience: Duration) -> Vec<u8> {
    let mut command = Command::new(&program.name);
    command.args(&program.words).stdin(Stdio::piped()).stdout(Stdio::piped()).stderr(Stdio::null());
    let mut child = command.spawn().unwrap_or_else(|error| {
        eprintln!("{}: {error}", program.name.to_string_lossy());
        std::process::exit(2)
    });
    let mut input = operations.join(&b'\n');
    input.push(b'\n');
    let stdin = child.stdin.take();
    let stdout = child.stdout.take();
    let (sender, receiver) = mpsc::channel();
    let writer = thread::spawn(move || stdin.map(|mut stdin| stdin.write_all(&input)));
    let reader = thread::spawn(move || {
        let mut output = Vec::new();
        let _ = stdout.map(|mut stdout| stdout.read_to_end(&mut output));
        let _ = sender.send(output);
    });
    let (mut output, in_time) = match receiver.recv_timeout(patience) {
        Ok(output) => (output, true),
        Err(_) => {
            let _ = child.kill();
            (receiver.recv().unwrap_or_default(), false)
        }
    };
    let _ = (writer.join(), reader.join());
    let status = child.wait();
    match status {
        _ if !in_time => output.extend(b"\n(does not end)\n"),
        Ok(status) if status.success() => {}
        Ok(status) => output.extend(format!("({status})\n").as_bytes()),
        Err(error) => output.extend(format!("({error})\n").as_bytes()),
    }
    output
}
