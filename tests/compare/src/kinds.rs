//! The kinds of answers and of events, so that a comparison can say that all
//! of them occurred.

use std::collections::BTreeMap;

use crate::bench::{read_hex_field, Bench};
use crate::causes;
use crate::command::{Command, DIGITS};
use crate::crossed;
use crate::digits;
use crate::handed::Handed;
use crate::image::{self, Image, SLOTS};
use crate::overheard;
use crate::speed;
use crate::turn::{Leg, Wait};
use crate::unit::Unit;
use crate::Code;

/// Every kind that [`of_answer`] names, but those of `?`.
const ANSWERS: &[&str] = &[
    "image: 4160 bytes",
    "image: another length",
    "room: enough",
    "room: too short",
    "start: started",
    "start: refused unit-number",
    "start: refused image-length",
    "start: refused image-bad",
    "feed: no unit",
    "feed: refused buffer",
    "feed: refused image-length",
    "feed: all consumed, no answer",
    "feed: part consumed, no answer",
    "feed: idle 0",
    "feed: idle 0 with data",
    "feed: idle 1",
    "feed: idle 1 with data",
    "feed: idle 2",
    "feed: idle 2 with data",
    "feed: idle 3 with data",
    "feed: idle 7",
    "feed: idle 7 with data",
    "feed: idle 11",
    "feed: idle 11 with data",
    "feed: busy 0",
    "feed: busy 0 with data",
    "feed: busy 2",
    "feed: busy 2 with data",
    "feed: busy 3 with data",
    "feed: busy 15",
    "typed: no unit",
    "typed: refused buffer",
    "typed: refused image-length",
    "typed: -",
    "typed: idle 0",
    "typed: idle 0 with data",
    "typed: idle 1",
    "typed: idle 1 with data",
    "typed: idle 2",
    "typed: idle 2 with data",
    "typed: idle 3 with data",
    "typed: idle 7",
    "typed: idle 7 with data",
    "typed: idle 11",
    "typed: idle 11 with data",
    "typed: busy 0",
    "typed: busy 0 with data",
    "typed: busy 2",
    "typed: busy 2 with data",
    "typed: busy 3 with data",
    "typed: busy 15",
    "feed: oem idle 0",
    "feed: oem idle 0 with data",
    "feed: oem idle 1",
    "feed: oem idle 1 with data",
    "feed: oem idle 2",
    "feed: oem idle 2 with data",
    "feed: oem idle 3 with data",
    "feed: oem idle 7",
    "feed: oem idle 7 with data",
    "feed: oem idle 11",
    "feed: oem idle 11 with data",
    "feed: oem busy 0",
    "feed: oem busy 0 with data",
    "feed: oem busy 2",
    "feed: oem busy 2 with data",
    "feed: oem busy 3 with data",
    "feed: oem busy 15",
    "oem: no unit",
    "oem: refused buffer",
    "oem: refused image-length",
    "oem: -",
    "oem: idle 0",
    "oem: idle 0 with data",
    "oem: idle 1",
    "oem: idle 1 with data",
    "oem: idle 2",
    "oem: idle 2 with data",
    "oem: idle 3 with data",
    "oem: idle 7",
    "oem: idle 7 with data",
    "oem: idle 11",
    "oem: idle 11 with data",
    "oem: busy 0",
    "oem: busy 0 with data",
    "oem: busy 2",
    "oem: busy 2 with data",
    "oem: busy 3 with data",
    "oem: busy 15",
    "turn: no unit",
    "turn: refused image-length",
    "turn: refused sample",
    "turn: refused steps",
    "turn: act none",
    "turn: act up",
    "turn: act down",
    "run: no unit",
    "run: refused image-length",
    "run: refused sample",
    "run: idle 0",
    "run: idle 1",
    "run: idle 7",
    "run: idle 11",
    "run: waits",
    "run: busy",
    "timeline: no unit",
    "timeline: refused image-length",
    "timeline: refused sample",
    "timeline: idle 0",
    "timeline: idle 1",
    "timeline: idle 7",
    "timeline: idle 11",
    "timeline: waits",
    "buffer: untouched",
    "buffer: written",
    "help: told",
    "unit: no unit",
    "unit: idle",
    "unit: running",
    "store: 4160 bytes",
    "store: another length",
    "line: 0",
    "line: 2",
    "line: 2 with a place",
    "line: 3 with a place",
    "text: ok",
    "text: bad",
    "count: 0",
    "count: some",
    "count: over 32 bits",
    "count: refused 2",
    "count: refused 2 with a place",
    "count: refused 3 with a place",
    "count: refused letter",
    "count: refused count",
    "ramp: finite",
    "ramp: endless",
    "ramp: refused V",
    "ramp: refused L",
    "ramp: refused N",
    "write: wrote",
    "write: wrote nothing",
    "write: refused 2",
    "write: refused 2 with a place",
    "write: refused 3 with a place",
    "write: refused buffer",
    "read: packet",
    "read: packet with data",
    "read: refused packet",
    "listen: silence",
    "listen: frames",
    "listen: frames and answers",
    "older: nothing",
    "older: slowed=0",
    "older: slowed=1",
    "older: refused letter",
    "older: refused operand",
    "older: refused structure",
    "older: refused commands",
    "newer: nothing",
    "newer: slowed=0",
    "newer: slowed=1",
    "newer: refused letter",
    "newer: refused operand",
    "newer: refused structure",
    "newer: refused commands",
];

/// The words of the operations; each can be unreadable.
const WORDS: &[&str] = &[
    "image", "room", "buffer", "start", "feed", "turn", "run", "timeline", "unit", "store", "line", "text",
    "ramp", "write", "read", "oem", "count", "listen", "older", "newer", "help", "other",
];

/// Every kind that [`of_event`] names.
const EVENTS: &[&str] = &[
    "start: idle",
    "start: program 0 runs",
    "start: endless digits in program 0",
    "start: endless digits in another program",
    "start: refused with endless digits in a program",
    "text: endless digits",
    "frame: a run starts",
    "frame: a line is loaded",
    "frame: the image changes",
    "frame: R ends a wait at H",
    "frame: T ends a run",
    "frame: T ends a move",
    "frame: T ends a homing",
    "frame: the endless speed changes",
    "turn: idle",
    "turn: end of text",
    "turn: end of an empty text",
    "A: a move",
    "A: at once",
    "A: stops with 7",
    "P: a move",
    "P: an endless move",
    "P: stops with 7",
    "P: stops with 11",
    "D: a move",
    "D: an endless move",
    "D: stops with 7",
    "D: stops with 11",
    "Z: leg away",
    "Z: leg toward",
    "z: at once",
    "V: at once",
    "L: at once",
    "f: at once",
    "F: at once",
    "m: at once",
    "h: at once",
    "j: at once",
    "o: at once",
    "J: at once",
    "b: at once",
    "M: at once",
    "M: a delay",
    "g: at once",
    "G: goes back",
    "G: goes on",
    "H: at once",
    "H: an input",
    "S: skips",
    "S: does not skip",
    "e: a text",
    "e: an empty text",
    "e: stops with 1",
    "e: endless digits",
    "move: goes on",
    "move: ends",
    "endless: goes on",
    "endless: ends",
    "endless: stops with 11",
    "leg away: goes on",
    "leg away: leg toward",
    "leg away: stops with 1",
    "leg toward: goes on",
    "leg toward: ends",
    "leg toward: stops with 1",
    "speed line: idle",
    "speed line: obeyed in an endless move",
    "speed line: refused with 3 in an endless move",
    "speed line: endless digits in an endless move",
    "speed line: refused with 15 in a move",
    "speed line: refused with 15 in a homing",
    "speed line: refused with 15 in a delay",
    "speed line: refused with 15 at an input",
    "speed line: refused with 15 between waits",
    "?5: 0",
    "?5: as V",
    "?5: another than V",
    "?5: in an endless move",
    "?5: afresh",
    "delay: goes on",
    "delay: ends",
    "input: goes on",
    "input: ends",
];

/// The names of all kinds.
pub fn all() -> Vec<String> {
    let unreadable = WORDS.iter().map(|word| format!("{word}: ?"));
    let answers = ANSWERS.iter().map(|name| name.to_string());
    let events = EVENTS.iter().map(|name| format!("event: {name}"));
    let faults =
        ["line", "frame"].iter().flat_map(|word| causes::NAMES.iter().map(move |name| fault(word, name)));
    let digits = digits::NAMES.iter().map(|name| format!("digits: {name}"));
    let heard = overheard::NAMES.iter().map(|name| format!("heard: {name}"));
    let crossed = crossed::all().into_iter().map(|name| format!("crossed: {name}"));
    answers.chain(unreadable).chain(events).chain(faults).chain(digits).chain(heard).chain(crossed).collect()
}

/// The kind of an operation and its answer, as [`all`] names it.
pub fn of_answer(operation: &[u8], answer: &[u8]) -> String {
    let operation = operation.strip_suffix(b"\r").unwrap_or(operation);
    let operation = String::from_utf8_lossy(operation);
    let answer = String::from_utf8_lossy(answer);
    let word = match operation.split(' ').next() {
        _ if operation.starts_with('/') => "typed",
        Some(word) if WORDS.contains(&word) => word,
        _ => "other",
    };
    format!("{word}: {}", short(word, &operation, &answer))
}

/// The answer without what varies in it.
fn short(word: &str, operation: &str, answer: &str) -> String {
    // Of many lines the last one tells the end.
    let fields: Vec<&str> = answer.rsplit('\n').next().unwrap_or_default().split(' ').collect();
    match (word, &fields[..]) {
        (_, ["?", ..]) => "?".to_string(),
        ("help", _) => "told".to_string(),
        ("run" | "timeline", ["ran", _, end @ ..]) => end.join(" "),
        ("buffer", [_, content]) => {
            let untouched = content.trim_start_matches("a5").is_empty() || *content == "-";
            if untouched { "untouched" } else { "written" }.to_string()
        }
        ("feed", ["fed", consumed, "-"]) => {
            let all = consumed.parse() == Ok(fed_bytes(operation));
            format!("{} consumed, no answer", if all { "all" } else { "part" })
        }
        ("feed", ["fed", _, packet]) => packet_kind(packet),
        ("typed" | "oem", [state @ ("idle" | "busy"), code]) => format!("{state} {code}"),
        ("typed" | "oem", [state @ ("idle" | "busy"), code, ..]) => format!("{state} {code} with data"),
        ("image" | "store", [_, content]) => {
            let good = *content == "4160" || content.len() == 2 * 4160;
            if good { "4160 bytes" } else { "another length" }.to_string()
        }
        ("room", ["room", room]) => {
            let enough = room.parse().is_ok_and(|room: u32| room >= 262);
            if enough { "enough" } else { "too short" }.to_string()
        }
        ("turn", ["act", way, ..]) => format!("act {way}"),
        ("unit", ["unit", state, ..]) => state.to_string(),
        ("line" | "text", [_, judged]) => judged.to_string(),
        ("line", [_, code, _]) => format!("{code} with a place"),
        ("count" | "write", ["refused", code, _]) => format!("refused {code} with a place"),
        ("count", ["count", "0"]) => "0".to_string(),
        ("count", ["count", n]) => if n.len() > 10 { "over 32 bits" } else { "some" }.to_string(),
        ("ramp", ["ramp", ..]) => {
            if operation.ends_with("endless") { "endless" } else { "finite" }.to_string()
        }
        ("write", ["wrote", "-"]) => "wrote nothing".to_string(),
        ("write", ["wrote", _]) => "wrote".to_string(),
        ("listen", ["heard", lines @ ..]) => table_kind(lines).to_string(),
        ("older" | "newer", ["refused", why, _]) => format!("refused {why}"),
        ("older" | "newer", [_, "-", "slowed=0"]) => "nothing".to_string(),
        ("older" | "newer", [_, _, slowed]) => slowed.to_string(),
        ("read", ["packet", _, "-"]) => "packet".to_string(),
        ("read", ["packet", ..]) => "packet with data".to_string(),
        _ => answer.to_string(),
    }
}

/// How many bytes a readable feed has.
fn fed_bytes(operation: &str) -> usize {
    match operation.strip_prefix("feed ") {
        None | Some("-") => 0,
        Some(hex) => hex.len() / 2,
    }
}

/// The state, the code and whether there is data, of a packet in hex.
fn packet_kind(hex: &str) -> String {
    let status = hex.get(4..6).and_then(|digits| u8::from_str_radix(digits, 16).ok()).unwrap_or(0);
    let state = if status & 0x20 != 0 { "idle" } else { "busy" };
    let (framing, empty) = if hex.starts_with("02") { ("oem ", 10) } else { ("", 12) };
    let data = if hex.len() > empty { " with data" } else { "" };
    format!("{framing}{state} {}{data}", status & 15)
}

/// Whether a table has frames, and answers to them.
fn table_kind(fields: &[&str]) -> &'static str {
    let some = |place: usize| fields.chunks(4).any(|line| line.get(place).is_some_and(|&count| count != "0"));
    match (some(1), some(2)) {
        (false, _) => "silence",
        (true, false) => "frames",
        (true, true) => "frames and answers",
    }
}

/// The kinds of what occurs in the bytes of `listen`, as [`all`] names them.
pub fn of_heard(operation: &[u8]) -> Vec<String> {
    let operation = operation.strip_suffix(b"\r").unwrap_or(operation);
    let bytes = operation.strip_prefix(b"listen ").and_then(read_hex_field);
    bytes.iter().flat_map(|bytes| overheard::names(bytes)).map(|name| format!("heard: {name}")).collect()
}

/// The kinds of what occurs in the text of `older` or `newer`, as [`all`] names
/// them.
pub fn of_crossed(operation: &[u8]) -> Vec<String> {
    let operation = operation.strip_suffix(b"\r").unwrap_or(operation);
    let names = |(word, way)| {
        let hex = operation.strip_prefix(format!("{word} ").as_bytes())?;
        Some(crossed::names(word, way, &read_hex_field(hex)?))
    };
    crossed::WAYS.into_iter().filter_map(names).flatten().map(|name| format!("crossed: {name}")).collect()
}

/// The kind of a refused body, from `line` or a frame.
fn fault(word: &str, name: &str) -> String {
    format!("fault: {word}: {name}")
}

/// The kinds of what an idle unit refuses a body for, as [`all`] names them,
/// where the kind of the answer tells that it does.
pub fn of_fault(operation: &[u8], kind: &str) -> Vec<String> {
    let refused = ["idle 2", "idle 3", "line: 2", "line: 3"].iter().any(|part| kind.contains(part));
    match Handed::of(operation) {
        Some(Handed { word, body, .. }) if refused => {
            causes::names(&body).into_iter().map(|name| fault(word, name)).collect()
        }
        _ => Vec::new(),
    }
}

/// What a unit is at.
#[derive(Clone, Copy, Debug, PartialEq, Eq)]
enum Phase {
    Idle,
    /// The next turn takes a command of this letter.
    Command(u8),
    /// The next turn ends the run.
    End,
    Move,
    Endless,
    Away,
    Toward,
    Delay,
    Input,
}

impl Phase {
    fn of(unit: &Unit) -> Phase {
        match unit.wait {
            _ if !unit.running => Phase::Idle,
            Wait::Nothing => match unit.text.command(unit.next) {
                Some(command) => Phase::Command(command.letter()),
                None => Phase::End,
            },
            Wait::Move(on) if on.is_endless() => Phase::Endless,
            Wait::Move(_) => Phase::Move,
            Wait::Home(Leg::Away { .. }) => Phase::Away,
            Wait::Home(Leg::Toward { .. }) => Phase::Toward,
            Wait::Delay(_) => Phase::Delay,
            Wait::Input(_) => Phase::Input,
        }
    }

    /// What a wait is called before a turn.
    fn waiting(self) -> &'static str {
        match self {
            Phase::Move => "move",
            Phase::Endless => "endless",
            Phase::Away => "leg away",
            Phase::Toward => "leg toward",
            Phase::Delay => "delay",
            Phase::Input => "input",
            Phase::Idle | Phase::Command(_) | Phase::End => "turn",
        }
    }

    /// What a wait is called that a turn began.
    fn begun(self) -> Option<&'static str> {
        Some(match self {
            Phase::Move => "a move",
            Phase::Endless => "an endless move",
            Phase::Away => "leg away",
            Phase::Toward => "leg toward",
            Phase::Delay => "a delay",
            Phase::Input => "an input",
            Phase::Idle | Phase::Command(_) | Phase::End => return None,
        })
    }
}

/// What is looked at before and after an operation.
#[derive(Clone, Copy, Debug, PartialEq, Eq)]
pub struct Glance {
    phase: Phase,
    next: usize,
    code: Code,
    loaded: bool,
    speed: u32,
    endless_speed: u32,
    last: Option<u8>,
    text_length: usize,
    /// The slot that an `e` would begin in the next turn.
    jump: Option<u8>,
    image: u64,
}

impl Glance {
    /// A glance at the bench, if it has a unit.
    pub fn at(bench: &Bench) -> Option<Glance> {
        let unit = bench.unit()?;
        Some(Glance {
            phase: Phase::of(unit),
            next: unit.next,
            code: unit.code,
            loaded: unit.loaded,
            speed: unit.settings.speed,
            endless_speed: unit.endless_speed,
            last: unit.last(),
            text_length: unit.text().len(),
            jump: match (unit.running, unit.wait, unit.text.command(unit.next)) {
                (true, Wait::Nothing, Some(Command::Execute(slot))) => Some(slot),
                _ => None,
            },
            image: weigh(bench.image()),
        })
    }
}

/// A number that changes with the image.
fn weigh(image: &[u8]) -> u64 {
    let (eights, rest) = image.as_chunks::<8>();
    let add = |sum: u64, eight: &[u8; 8]| sum.rotate_left(5) ^ u64::from_le_bytes(*eight);
    rest.iter().fold(eights.iter().fold(0, add), |sum, &byte| sum.rotate_left(5) ^ u64::from(byte))
}

/// The kind of what an operation did to the unit, as [`all`] names it.
pub fn of_event(
    operation: &[u8],
    answer: &[u8],
    before: Option<Glance>,
    after: Option<Glance>,
) -> Option<String> {
    let after = after?;
    let event = if answer == b"started" {
        match after.phase {
            Phase::Idle => "start: idle".to_string(),
            _ => "start: program 0 runs".to_string(),
        }
    } else if answer.starts_with(b"act ") {
        of_turn(before?, after)
    } else if operation.starts_with(b"feed") || operation.starts_with(b"/") || operation.starts_with(b"oem") {
        of_frame(before?, after)?.to_string()
    } else {
        return None;
    };
    Some(format!("event: {event}"))
}

/// The kinds of what came of a speed line or of `?5`, as [`all`] names them,
/// from the kind of the answer: paper 02, E3.
pub fn of_speed(operation: &[u8], kind: &str, before: Option<Glance>) -> Vec<String> {
    let told = kind.split_once("idle ").or(kind.split_once("busy "));
    let (Some(before), Some(handed), Some((_, told))) = (before, Handed::of(operation), told) else {
        return Vec::new();
    };
    let names = match &handed.body[..] {
        b"?5" => of_asked_speed(before, handed.sequence),
        body if speed::is_speed_line(body) && handed.sequence.is_none() => {
            let endless = told == "3 with data" && before.phase == Phase::Endless && body.len() > 2 + DIGITS;
            let more = endless.then_some("speed line: endless digits in an endless move");
            of_speed_line(before.phase, told).into_iter().chain(more).collect()
        }
        _ => Vec::new(),
    };
    names.iter().map(|name| format!("event: {name}")).collect()
}

fn of_asked_speed(before: Glance, sequence: Option<u8>) -> Vec<&'static str> {
    let value = match before.endless_speed {
        0 => "?5: 0",
        speed if speed == before.speed => "?5: as V",
        _ => "?5: another than V",
    };
    let repeats = sequence.is_some_and(|byte| byte & 8 != 0 && before.last == Some(byte & 7));
    let mut names = vec![value];
    names.extend((before.phase == Phase::Endless).then_some("?5: in an endless move"));
    names.extend(repeats.then_some("?5: afresh"));
    names
}

fn of_speed_line(phase: Phase, told: &str) -> Option<&'static str> {
    Some(match (phase, told) {
        (Phase::Idle, _) => "speed line: idle",
        (Phase::Endless, "0") => "speed line: obeyed in an endless move",
        (Phase::Endless, "3 with data") => "speed line: refused with 3 in an endless move",
        (Phase::Move, "15") => "speed line: refused with 15 in a move",
        (Phase::Away | Phase::Toward, "15") => "speed line: refused with 15 in a homing",
        (Phase::Delay, "15") => "speed line: refused with 15 in a delay",
        (Phase::Input, "15") => "speed line: refused with 15 at an input",
        (Phase::Command(_) | Phase::End, "15") => "speed line: refused with 15 between waits",
        _ => return None,
    })
}

/// The kinds of what came of endless digits, as [`all`] names them, from the
/// kind of the answer: paper 02, E9.
pub fn of_digits(operation: &[u8], kind: &str, before: Option<Glance>, bench: &Bench) -> Vec<String> {
    let operands = digits::names(operation, kind).into_iter().map(|name| format!("digits: {name}"));
    let stored = of_stored_digits(operation, kind, before, bench);
    operands.chain(stored.map(|name| format!("event: {name}"))).collect()
}

fn of_stored_digits(
    operation: &[u8],
    kind: &str,
    before: Option<Glance>,
    bench: &Bench,
) -> Option<&'static str> {
    if kind == "text: bad" {
        let operation = operation.strip_suffix(b"\r").unwrap_or(operation);
        let text = read_hex_field(operation.strip_prefix(b"text ")?)?;
        return digits::are_endless(&text).then_some("text: endless digits");
    }
    let image = <&Image>::try_from(bench.image()).ok()?;
    let endless = |slot| image::held(image, slot).is_some_and(digits::are_endless);
    let occur = |slot| image::held(image, slot).is_some_and(digits::occur_in);
    match kind {
        "start: started" if endless(0) => Some("start: endless digits in program 0"),
        "start: started" if (1..SLOTS).any(endless) => Some("start: endless digits in another program"),
        "start: refused image-bad" if (0..SLOTS).any(occur) => {
            Some("start: refused with endless digits in a program")
        }
        "turn: act none" if endless(before?.jump?.into()) => Some("e: endless digits"),
        _ => None,
    }
}

fn of_frame(before: Glance, after: Glance) -> Option<&'static str> {
    Some(match (before.phase, after.phase) {
        _ if before.image != after.image => "frame: the image changes",
        (Phase::Idle, Phase::Idle) if before.loaded == after.loaded => return None,
        (Phase::Idle, Phase::Idle) => "frame: a line is loaded",
        (Phase::Idle, _) => "frame: a run starts",
        (Phase::Away | Phase::Toward, Phase::Idle) => "frame: T ends a homing",
        (Phase::Move | Phase::Endless, Phase::Idle) => "frame: T ends a move",
        (_, Phase::Idle) => "frame: T ends a run",
        (Phase::Input, Phase::Command(_) | Phase::End) => "frame: R ends a wait at H",
        (Phase::Endless, Phase::Endless) if before.endless_speed != after.endless_speed => {
            "frame: the endless speed changes"
        }
        _ => return None,
    })
}

fn of_turn(before: Glance, after: Glance) -> String {
    match before.phase {
        Phase::Idle => "turn: idle".to_string(),
        Phase::End if before.text_length == 0 => "turn: end of an empty text".to_string(),
        Phase::End => "turn: end of text".to_string(),
        Phase::Command(letter) => format!("{}: {}", letter as char, of_command(letter, before, after)),
        wait => format!("{}: {}", wait.waiting(), of_wait(before, after)),
    }
}

fn of_command(letter: u8, before: Glance, after: Glance) -> String {
    match letter {
        _ if after.phase == Phase::Idle => format!("stops with {}", after.code as u8),
        b'G' if after.next <= before.next => "goes back".to_string(),
        b'G' => "goes on".to_string(),
        b'S' if after.next == before.next + 2 => "skips".to_string(),
        b'S' => "does not skip".to_string(),
        b'e' if after.text_length == 0 => "an empty text".to_string(),
        b'e' => "a text".to_string(),
        _ => after.phase.begun().unwrap_or("at once").to_string(),
    }
}

fn of_wait(before: Glance, after: Glance) -> String {
    match after.phase {
        Phase::Idle => format!("stops with {}", after.code as u8),
        same if same == before.phase => "goes on".to_string(),
        other => other.begun().unwrap_or("ends").to_string(),
    }
}

/// How often each kind occurred.
#[derive(Clone, Debug)]
pub struct Counts(BTreeMap<String, u64>);

impl Counts {
    /// All kinds, none of them seen.
    pub fn new() -> Self {
        Counts(all().into_iter().map(|kind| (kind, 0)).collect())
    }

    /// Counts one of a kind.
    pub fn add(&mut self, kind: String) {
        *self.0.entry(kind).or_default() += 1;
    }

    /// The kinds and their counts, by name.
    pub fn iter(&self) -> impl Iterator<Item = (&str, u64)> {
        self.0.iter().map(|(kind, &count)| (kind.as_str(), count))
    }

    /// The kinds that did not occur, and those that occurred without being in
    /// the list.
    pub fn faults(&self) -> Vec<String> {
        let listed = all();
        let missing =
            listed.iter().filter(|kind| self.0[*kind] == 0).map(|kind| format!("{kind} did not occur"));
        let strange =
            self.0.keys().filter(|kind| !listed.contains(kind)).map(|kind| format!("{kind} is no kind"));
        missing.chain(strange).collect()
    }
}

impl Default for Counts {
    fn default() -> Self {
        Counts::new()
    }
}

#[cfg(test)]
mod tests {
    use super::*;

    #[test]
    fn names_are_of_the_list_and_differ() {
        let all = all();
        for (place, kind) in all.iter().enumerate() {
            assert!(!all[..place].contains(kind), "{kind}");
        }
    }

    #[test]
    fn answers() {
        for (operation, answer, kind) in [
            ("feed 2f31", "fed 2 -", "feed: all consumed, no answer"),
            ("feed -", "fed 0 -", "feed: all consumed, no answer"),
            ("feed 2f5f0d00", "fed 3 -", "feed: part consumed, no answer"),
            ("feed 2f310d", "fed 3 2f3060030d0a", "feed: idle 0"),
            ("feed 2f310d\r", "fed 3 2f304f030d0a", "feed: busy 15"),
            ("feed 2f310d", "fed 3 2f306b30030d0a", "feed: idle 11 with data"),
            ("/1?0", "idle 0 12", "typed: idle 0 with data"),
            ("/1?0", "busy 2", "typed: busy 2"),
            ("/1?1", "busy 2 1", "typed: busy 2 with data"),
            ("line 41", "line 3 1", "line: 3 with a place"),
            ("count 41", "refused 3 1", "count: refused 3 with a place"),
            ("write 3 -", "refused 2 3", "write: refused 2 with a place"),
            ("/2?0", "-", "typed: -"),
            ("turn 1 1 1", "act up 5", "turn: act up"),
            ("turn 256 1 1", "?", "turn: ?"),
            ("", "?", "other: ?"),
            ("room 261", "room 261", "room: too short"),
            ("image -", "image 0", "image: another length"),
            ("ramp 1 1 endless", "ramp 1 0 0 0 0", "ramp: endless"),
            ("write - -", "wrote -", "write: wrote nothing"),
            ("read -", "refused packet", "read: refused packet"),
            ("listen -", "heard 1 0 0 --; 2 0 0 --", "listen: silence"),
            ("listen 2f310d", "heard 1 1 0 --; 2 0 0 --", "listen: frames"),
            ("listen 2f310d", "heard 1 0 0 --; 2 10 10 60", "listen: frames and answers"),
            ("older -", "older - slowed=0", "older: nothing"),
            ("older 4c31", "older 4c31 slowed=1", "older: slowed=1"),
            ("newer 41", "refused operand 1", "newer: refused operand"),
            ("unit", "unit idle code=0", "unit: idle"),
        ] {
            let found = of_answer(operation.as_bytes(), answer.as_bytes());
            assert_eq!(found, kind);
            assert!(all().contains(&found), "{found}");
        }
    }

    #[test]
    fn missing_and_strange_kinds() {
        let mut counts = Counts::new();
        assert_eq!(counts.faults().len(), all().len());
        all().into_iter().for_each(|kind| counts.add(kind));
        assert!(counts.faults().is_empty());
        counts.add("feed: busy 1".to_string());
        assert_eq!(counts.faults(), ["feed: busy 1 is no kind"]);
    }
}
