//! The tester's program over the model: one operation a line, one line of
//! answer for each.

use std::io::Write;

use crate::count::{self, Uncounted};
use crate::course::{self, End};
use crate::host::{self, HostRefusal, Item};
use crate::image;
use crate::line;
use crate::listen::Table;
use crate::older;
use crate::packet::{self, Packet};
use crate::ramp::{self, Length, RampRefusal};
use crate::shared::Way;
use crate::turn::TurnRefusal;
use crate::unit::{FeedRefusal, StartRefusal, Unit};

/// Appends formatted text to bytes, which cannot fail.
macro_rules! say {
    ($out:expr, $($form:tt)*) => {{
        let _ = write!($out, $($form)*);
    }};
}

/// The longest image that can be lent.
pub const LONGEST_IMAGE: usize = 4200;
/// The longest answer buffer that can be lent.
pub const LONGEST_ROOM: usize = 512;

/// What the answer buffer holds before anything is written in it.
const BLANK: u8 = 0xa5;

/// What `help` answers.
const HELP: &str = "\
image HEX : lend these bytes as the image
image empty : lend the image with all slots empty
room N : lend an answer buffer of N bytes, each a5
buffer : tell the answer buffer
start N : start unit N
feed HEX : feed these bytes
turn SAMPLE MS STEPS : make one turn
run SAMPLE MS : make turns until the unit is idle or waits for an input
timeline SAMPLE MS : the same, with a line for each turn
unit : tell the unit
store : tell the image
line HEX : judge a body
text HEX : judge a text to be stored
ramp V L N : tell the ramp of N microsteps
ramp V L endless : tell the ramp of an endless move
write SLOT RUN LIST : write a line from a list of commands
read HEX : read an answer packet, OEM where it begins with 02
oem SEQ TEXT : feed an OEM frame for this unit, with its checksum
count HEX : count the commands of a body's run
listen HEX : hear these bytes of the line from a fresh table
older HEX : read a text of the older drive into ours
newer HEX : write a text of ours back for the older drive
/... : feed a line as it is typed, with a CR
help : tell the operations";

/// "It holds one image (at first: all slots empty), one unit (at first: none)
/// and an answer buffer (at first 262 bytes)."
#[derive(Clone, Debug)]
pub struct Bench {
    image: Vec<u8>,
    unit: Option<Unit>,
    buffer: [u8; LONGEST_ROOM],
    room: usize,
    /// Bytes of the operation at hand.
    bytes: Vec<u8>,
    /// List of the operation at hand.
    list: Vec<Item>,
}

/// "A line that is none of these": it is answered `?` and changes nothing;
/// "behind `?` and a space a few words may say why".
struct Unreadable(&'static str);

const MISSING: Unreadable = Unreadable("a field is missing");
const TOO_MANY: Unreadable = Unreadable("a field too many");
const TOO_GREAT: Unreadable = Unreadable("a number is too great");

type Answered = Result<(), Unreadable>;

impl Bench {
    /// The bench at its start.
    pub fn new() -> Self {
        Bench {
            image: image::empty().to_vec(),
            unit: None,
            buffer: [BLANK; LONGEST_ROOM],
            room: packet::PACKET,
            bytes: Vec::new(),
            list: Vec::new(),
        }
    }

    /// The unit that was started.
    pub fn unit(&self) -> Option<&Unit> {
        self.unit.as_ref()
    }

    /// The image that is lent.
    pub fn image(&self) -> &[u8] {
        &self.image
    }

    /// The bytes of the answer buffer that is lent.
    pub fn room(&self) -> usize {
        self.room
    }

    /// Does one operation, a line without its LF ("a CR before it is
    /// dropped"), and appends its answer, without a line end.
    pub fn answer(&mut self, operation: &[u8], out: &mut Vec<u8>) {
        let operation = operation.strip_suffix(b"\r").unwrap_or(operation);
        let begin = out.len();
        if let Err(Unreadable(why)) = self.operate(operation, out) {
            out.truncate(begin);
            say!(out, "? {why}");
        }
    }

    fn operate(&mut self, operation: &[u8], out: &mut Vec<u8>) -> Answered {
        if operation.starts_with(b"/") {
            self.typed(operation, out);
            return Ok(());
        }
        let (word, fields) = cut(operation);
        match word {
            b"image" => self.lend_image(only(fields)?, out),
            b"room" => self.lend_room(only(fields)?, out),
            b"start" => self.start(only(fields)?, out),
            b"feed" => self.feed(only(fields)?, out),
            b"turn" => self.turn(fields.ok_or(MISSING)?, out),
            b"run" => self.run(fields.ok_or(MISSING)?, false, out),
            b"timeline" => self.run(fields.ok_or(MISSING)?, true, out),
            b"unit" | b"store" | b"buffer" | b"help" => self.tell(word, fields, out),
            b"line" => self.line(only(fields)?, out),
            b"text" => self.text(only(fields)?, out),
            b"ramp" => ramp(fields.ok_or(MISSING)?, out),
            b"write" => self.write(fields.ok_or(MISSING)?, out),
            b"read" => self.read(only(fields)?, out),
            b"count" => self.count(only(fields)?, out),
            b"listen" => self.listen(only(fields)?, out),
            b"older" => self.turn_text("older", Way::Inward, only(fields)?, out),
            b"newer" => self.turn_text("newer", Way::Outward, only(fields)?, out),
            b"oem" => self.oem(fields.ok_or(MISSING)?, out),
            _ => Err(Unreadable("no such operation")),
        }
    }

    /// The operations that are one word.
    fn tell(&self, word: &[u8], fields: Option<&[u8]>, out: &mut Vec<u8>) -> Answered {
        match word {
            _ if fields.is_some() => return Err(TOO_MANY),
            b"unit" => self.tell_unit(out),
            b"store" => tell_bytes("store", &self.image, out),
            b"buffer" => tell_bytes("buffer", &self.buffer[..self.room], out),
            _ => out.extend(HELP.as_bytes()),
        }
        Ok(())
    }

    fn lend_image(&mut self, field: &[u8], out: &mut Vec<u8>) -> Answered {
        if field == b"empty" {
            self.image = image::empty().to_vec();
        } else {
            read_hex(field, &mut self.bytes)?;
            if self.bytes.len() > LONGEST_IMAGE {
                return Err(Unreadable("too many bytes"));
            }
            self.image.clear();
            self.image.extend(&self.bytes);
        }
        say!(out, "image {}", self.image.len());
        Ok(())
    }

    fn lend_room(&mut self, field: &[u8], out: &mut Vec<u8>) -> Answered {
        let room = number(field)? as usize;
        if room > LONGEST_ROOM {
            return Err(TOO_GREAT);
        }
        self.room = room;
        self.buffer.fill(BLANK);
        say!(out, "room {room}");
        Ok(())
    }

    fn start(&mut self, field: &[u8], out: &mut Vec<u8>) -> Answered {
        let answer = match Unit::start(byte(field)?, &self.image) {
            Ok(unit) => {
                self.unit = Some(unit);
                "started"
            }
            Err(StartRefusal::UnitNumber) => "refused unit-number",
            Err(StartRefusal::ImageLength) => "refused image-length",
            Err(StartRefusal::ImageBad) => "refused image-bad",
        };
        say!(out, "{answer}");
        Ok(())
    }

    fn feed(&mut self, field: &[u8], out: &mut Vec<u8>) -> Answered {
        read_hex(field, &mut self.bytes)?;
        let Some(unit) = &mut self.unit else {
            return no_unit(out);
        };
        match unit.feed(&self.bytes, &mut self.image, &mut self.buffer[..self.room]) {
            Ok(fed) => {
                say!(out, "fed {} ", fed.consumed);
                write_hex(&self.buffer[..fed.answered], out);
            }
            Err(refusal) => say!(out, "{}", feed_refusal(refusal)),
        }
        Ok(())
    }

    /// "a line as a person types it: fed with a CR; the answer as text"
    fn typed(&mut self, line: &[u8], out: &mut Vec<u8>) {
        let Some(unit) = &mut self.unit else {
            say!(out, "no unit");
            return;
        };
        self.bytes.clear();
        self.bytes.extend(line);
        self.bytes.push(b'\r');
        match unit.feed(&self.bytes, &mut self.image, &mut self.buffer[..self.room]) {
            Ok(fed) => match read_either(&self.buffer[..fed.answered]) {
                Ok(packet) => tell_packet(packet, out),
                Err(_) => out.push(b'-'),
            },
            Err(refusal) => say!(out, "{}", feed_refusal(refusal)),
        }
    }

    /// "SEQ two hex digits, TEXT as typed: an OEM frame for this unit with its
    /// checksum; answered as a typed line"
    fn oem(&mut self, fields: &[u8], out: &mut Vec<u8>) -> Answered {
        let (sequence, text) = cut(fields);
        let text = text.ok_or(MISSING)?;
        let [high, low] = sequence else {
            return Err(Unreadable("not two hex digits"));
        };
        let sequence = hex_digit(*high)? << 4 | hex_digit(*low)?;
        let Some(unit) = &mut self.unit else {
            return no_unit(out);
        };
        self.bytes.clear();
        self.bytes.extend([0x02, 0x30 + unit.number(), sequence]);
        self.bytes.extend(text);
        self.bytes.push(0x03);
        self.bytes.push(packet::checksum(&self.bytes));
        match unit.feed(&self.bytes, &mut self.image, &mut self.buffer[..self.room]) {
            Ok(fed) => match read_either(&self.buffer[..fed.answered]) {
                Ok(packet) => tell_packet(packet, out),
                Err(_) => out.push(b'-'),
            },
            Err(refusal) => say!(out, "{}", feed_refusal(refusal)),
        }
        Ok(())
    }

    fn turn(&mut self, fields: &[u8], out: &mut Vec<u8>) -> Answered {
        let [sample, elapsed, steps] = three(fields)?;
        let (sample, elapsed, steps) = (byte(sample)?, number(elapsed)?, number(steps)?);
        let Some(unit) = &mut self.unit else {
            return no_unit(out);
        };
        match unit.turn(&self.image, sample, elapsed, steps) {
            Ok(action) => say!(out, "{}", course::told(action)),
            Err(refusal) => say!(out, "{}", turn_refusal(refusal)),
        }
        Ok(())
    }

    /// `run SAMPLE MS`, and `timeline SAMPLE MS`, which tells each turn.
    fn run(&mut self, fields: &[u8], tells: bool, out: &mut Vec<u8>) -> Answered {
        let (sample, elapsed) = cut(fields);
        let (sample, elapsed) = (byte(sample)?, number(only(elapsed)?)?);
        let Some(unit) = &mut self.unit else {
            return no_unit(out);
        };
        match unit.course(&self.image, sample, elapsed, tells.then_some(&mut *out)) {
            Ok((turns, End::Idle)) => say!(out, "ran {turns} idle {}", unit.code() as u8),
            Ok((turns, End::Waits)) => say!(out, "ran {turns} waits"),
            Ok((turns, End::Busy)) => say!(out, "ran {turns} busy"),
            Err(refusal) => say!(out, "{}", turn_refusal(refusal)),
        }
        Ok(())
    }

    fn tell_unit(&self, out: &mut Vec<u8>) {
        let Some(unit) = &self.unit else {
            say!(out, "no unit");
            return;
        };
        let (position, set) = (unit.position(), unit.settings());
        let state = if unit.is_running() { "running" } else { "idle" };
        say!(out, "unit {state} code={}", unit.code() as u8);
        say!(out, " position={} known={}", position.number, u8::from(position.known));
        say!(out, " V={} L={} j={} o={}", set.speed, set.slope, 1 << set.resolution, set.offset);
        say!(out, " m={} h={}", set.move_current, set.hold_current);
        say!(out, " f={} F={}", u8::from(set.flag_low), u8::from(set.turned));
        say!(out, " J={} baud={} sample={}", set.outputs, set.baud, unit.sample());
        match unit.last() {
            Some(number) => say!(out, " last={number}"),
            None => say!(out, " last=-"),
        }
        say!(out, " speed={}", unit.endless_speed());
        say!(out, " text=");
        write_hex(unit.text(), out);
    }

    fn line(&mut self, field: &[u8], out: &mut Vec<u8>) -> Answered {
        read_hex(field, &mut self.bytes)?;
        match line::check_idle(&self.bytes) {
            Ok(()) => say!(out, "line 0"),
            Err(fault) => say!(out, "line {fault}"),
        }
        Ok(())
    }

    fn text(&mut self, field: &[u8], out: &mut Vec<u8>) -> Answered {
        read_hex(field, &mut self.bytes)?;
        let good = line::is_stored_text(&self.bytes);
        say!(out, "text {}", if good { "ok" } else { "bad" });
        Ok(())
    }

    fn count(&mut self, field: &[u8], out: &mut Vec<u8>) -> Answered {
        read_hex(field, &mut self.bytes)?;
        match count::count(&self.bytes) {
            Ok(count) => say!(out, "count {count}"),
            Err(Uncounted::Line(fault)) => say!(out, "refused {fault}"),
            Err(Uncounted::Letter) => say!(out, "refused letter"),
            Err(Uncounted::Count) => say!(out, "refused count"),
        }
        Ok(())
    }

    /// "`heard ` and the sixteen lines joined by `; `"
    fn listen(&mut self, field: &[u8], out: &mut Vec<u8>) -> Answered {
        read_hex(field, &mut self.bytes)?;
        say!(out, "heard {}", Table::of(&self.bytes).lines().join("; "));
        Ok(())
    }

    /// "`older HEX slowed=0|1`, `newer HEX slowed=0|1`"
    fn turn_text(&mut self, word: &str, way: Way, field: &[u8], out: &mut Vec<u8>) -> Answered {
        read_hex(field, &mut self.bytes)?;
        match older::turned(&self.bytes, way) {
            Ok(turned) => {
                tell_bytes(word, turned.text.as_bytes(), out);
                say!(out, " slowed={}", u8::from(turned.slowed));
            }
            Err(fault) => say!(out, "refused {fault}"),
        }
        Ok(())
    }

    fn read(&mut self, field: &[u8], out: &mut Vec<u8>) -> Answered {
        read_hex(field, &mut self.bytes)?;
        match read_either(&self.bytes) {
            Ok(Packet { status, data }) => {
                say!(out, "packet {status:02x} ");
                write_hex(data, out);
            }
            Err(_) => say!(out, "refused packet"),
        }
        Ok(())
    }

    fn write(&mut self, fields: &[u8], out: &mut Vec<u8>) -> Answered {
        let (slot, rest) = cut(fields);
        let slot = match slot {
            b"-" => None,
            slot => Some(number(slot)?),
        };
        let (run, list) = cut(rest.ok_or(MISSING)?);
        let run = match run {
            b"R" => true,
            b"-" => false,
            _ => return Err(Unreadable("neither R nor -")),
        };
        read_list(list, &mut self.list)?;
        match host::write(slot, &self.list, run, &mut self.buffer[..self.room]) {
            Ok(length) => {
                out.extend(b"wrote ");
                write_hex(&self.buffer[..length], out);
            }
            Err(HostRefusal::Line(fault)) => say!(out, "refused {fault}"),
            Err(HostRefusal::Buffer) => say!(out, "refused buffer"),
        }
        Ok(())
    }
}

impl Default for Bench {
    fn default() -> Self {
        Bench::new()
    }
}

fn no_unit(out: &mut Vec<u8>) -> Answered {
    say!(out, "no unit");
    Ok(())
}

fn feed_refusal(refusal: FeedRefusal) -> &'static str {
    match refusal {
        FeedRefusal::Buffer => "refused buffer",
        FeedRefusal::ImageLength => "refused image-length",
    }
}

fn turn_refusal(refusal: TurnRefusal) -> &'static str {
    match refusal {
        TurnRefusal::ImageLength => "refused image-length",
        TurnRefusal::Sample => "refused sample",
        TurnRefusal::Steps => "refused steps",
    }
}

/// "also an OEM answer (begins with 02)"
fn read_either(slice: &[u8]) -> Result<Packet<'_>, packet::NoPacket> {
    match slice {
        [0x02, ..] => packet::read_oem(slice),
        _ => packet::read(slice),
    }
}

fn tell_bytes(word: &str, bytes: &[u8], out: &mut Vec<u8>) {
    say!(out, "{word} ");
    write_hex(bytes, out);
}

/// "`idle 0 1000`, `busy 15`"
fn tell_packet(packet: Packet, out: &mut Vec<u8>) {
    let state = if packet.is_idle() { "idle" } else { "busy" };
    say!(out, "{state} {}", packet.code());
    if !packet.data.is_empty() {
        out.push(b' ');
        out.extend(packet.data);
    }
}

fn ramp(fields: &[u8], out: &mut Vec<u8>) -> Answered {
    let [speed, slope, length] = three(fields)?;
    let (speed, slope) = (number(speed)?, number(slope)?);
    let length = match length {
        b"endless" => Length::Endless,
        steps => Length::Finite(number(steps)?),
    };
    match ramp::figures(speed, slope, length) {
        Ok(found) => {
            let bits = [found.ramp.speed, found.ramp.acceleration, found.ramp.time].map(f64::to_bits);
            say!(out, "ramp {} {}", found.peak, found.distance);
            say!(out, " {:016x} {:016x} {:016x}", bits[0], bits[1], bits[2]);
        }
        Err(RampRefusal::Speed) => say!(out, "refused V"),
        Err(RampRefusal::Slope) => say!(out, "refused L"),
        Err(RampRefusal::Length) => say!(out, "refused N"),
    }
    Ok(())
}

/// The first field and what comes after its space, if one does.
fn cut(fields: &[u8]) -> (&[u8], Option<&[u8]>) {
    match fields.iter().position(|&byte| byte == b' ') {
        Some(space) => (&fields[..space], Some(&fields[space + 1..])),
        None => (fields, None),
    }
}

/// The one field that there is.
fn only(fields: Option<&[u8]>) -> Result<&[u8], Unreadable> {
    match fields {
        Some(field) if !field.contains(&b' ') => Ok(field),
        Some(_) => Err(TOO_MANY),
        None => Err(MISSING),
    }
}

/// The three fields that there are.
fn three(fields: &[u8]) -> Result<[&[u8]; 3], Unreadable> {
    let (first, rest) = cut(fields);
    let (second, rest) = cut(rest.ok_or(MISSING)?);
    Ok([first, second, only(rest)?])
}

/// A decimal number up to 4294967295.
fn number(field: &[u8]) -> Result<u32, Unreadable> {
    if field.is_empty() || !field.iter().all(u8::is_ascii_digit) {
        return Err(Unreadable("not a number"));
    }
    let add = |sum: u32, digit: &u8| sum.checked_mul(10)?.checked_add(u32::from(digit - b'0'));
    field.iter().try_fold(0, add).ok_or(TOO_GREAT)
}

/// "SAMPLE and the unit's number": a number up to 255.
fn byte(field: &[u8]) -> Result<u8, Unreadable> {
    number(field)?.try_into().map_err(|_| TOO_GREAT)
}

/// "LIST is nothing, or letter and operand parted by spaces".
fn read_list(list: Option<&[u8]>, items: &mut Vec<Item>) -> Answered {
    items.clear();
    let mut rest = list;
    while let Some(fields) = rest {
        let (letter, after) = cut(fields);
        let (operand, after) = cut(after.ok_or(Unreadable("an operand is missing"))?);
        items.push(item(letter, operand)?);
        rest = after;
    }
    Ok(())
}

/// "an operand is a number up to 4294967295, of `H` and `S` two digits, of `g`
/// a `-`"
fn item(letter: &[u8], operand: &[u8]) -> Result<Item, Unreadable> {
    let &[letter] = letter else {
        return Err(Unreadable("no such command"));
    };
    let operand = match letter {
        b'g' if operand == b"-" => 0,
        b'g' => return Err(Unreadable("the operand of g is -")),
        b'H' | b'S' if operand.len() != 2 => return Err(Unreadable("not two digits")),
        _ => number(operand)?,
    };
    Item::new(letter, operand).ok_or(Unreadable("no such command"))
}

/// Bytes as "hex digits, either case, two a byte; no bytes is `-`".
pub(crate) fn read_hex_field(field: &[u8]) -> Option<Vec<u8>> {
    let mut bytes = Vec::new();
    read_hex(field, &mut bytes).ok().map(|()| bytes)
}

fn read_hex(field: &[u8], bytes: &mut Vec<u8>) -> Answered {
    bytes.clear();
    if field == b"-" {
        return Ok(());
    }
    let (pairs, odd) = field.as_chunks::<2>();
    if !odd.is_empty() {
        return Err(Unreadable("an odd hex digit"));
    }
    if pairs.is_empty() {
        return Err(MISSING);
    }
    for &[high, low] in pairs {
        bytes.push(hex_digit(high)? << 4 | hex_digit(low)?);
    }
    Ok(())
}

fn hex_digit(byte: u8) -> Result<u8, Unreadable> {
    match byte {
        b'0'..=b'9' => Ok(byte - b'0'),
        b'a'..=b'f' => Ok(byte - b'a' + 10),
        b'A'..=b'F' => Ok(byte - b'A' + 10),
        _ => Err(Unreadable("not a hex digit")),
    }
}

/// An operation with bytes as its one field.
pub fn with_hex(word: &str, bytes: &[u8]) -> Vec<u8> {
    let mut operation = format!("{word} ").into_bytes();
    write_hex(bytes, &mut operation);
    operation
}

/// Appends bytes as lower-case hex digits, or `-`.
pub fn write_hex(bytes: &[u8], out: &mut Vec<u8>) {
    const DIGITS: &[u8; 16] = b"0123456789abcdef";
    if bytes.is_empty() {
        out.push(b'-');
    }
    for byte in bytes {
        out.push(DIGITS[usize::from(byte >> 4)]);
        out.push(DIGITS[usize::from(byte & 15)]);
    }
}
