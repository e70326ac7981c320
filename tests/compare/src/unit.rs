//! A unit's record, its start, and what a frame does to it.

use crate::address::Reach;
use crate::command::Level;
use crate::decimal::Decimal;
use crate::fault::Fault;
use crate::image::{self, Image};
use crate::line::{self, Body, Drive, Immediate, Line};
use crate::packet;
use crate::receiver::{Framing, Receiver};
use crate::text::Text;
use crate::turn::{Loops, Motion, Wait};
use crate::Code;

/// What the setting commands set.
#[derive(Clone, Copy, Debug, PartialEq, Eq)]
pub struct Settings {
    /// `V`
    pub speed: u32,
    /// `L`
    pub slope: u16,
    /// `j`, its exponent.
    pub resolution: u8,
    /// `o`
    pub offset: u16,
    /// `m`
    pub move_current: u8,
    /// `h`
    pub hold_current: u8,
    /// `f`: the flag is cut when input 3 is low.
    pub flag_low: bool,
    /// `F`: every action is turned.
    pub turned: bool,
    /// `J`
    pub outputs: u8,
    /// `b`
    pub baud: u16,
}

impl Default for Settings {
    /// "Defaults: V 305175, L 1000, j 256, o 1500, m 25, h 10, last sample 15,
    /// all else 0, baud 9600."
    fn default() -> Self {
        Settings {
            speed: 305_175,
            slope: 1000,
            resolution: 8,
            offset: 1500,
            move_current: 25,
            hold_current: 10,
            flag_low: false,
            turned: false,
            outputs: 0,
            baud: 9600,
        }
    }
}

/// The position, and whether it is known.
#[derive(Clone, Copy, Debug, PartialEq, Eq)]
pub struct Position {
    /// Its number; the last one when unknown.
    pub number: u32,
    /// "makes the position unknown until `z` or a homing that finds"
    pub known: bool,
}

/// The record of one drive.
#[derive(Clone, Debug)]
pub struct Unit {
    receiver: Receiver,
    pub(crate) settings: Settings,
    pub(crate) position: Position,
    /// The last sample of the inputs.
    pub(crate) sample: u8,
    /// The held code.
    pub(crate) code: Code,
    /// The current text.
    pub(crate) text: Text,
    /// Whether the current text is "a loaded line not yet run".
    pub(crate) loaded: bool,
    /// Whether a run is on; the next three belong to it.
    pub(crate) running: bool,
    /// The place of the next command.
    pub(crate) next: usize,
    /// The open loops.
    pub(crate) loops: Loops,
    /// "what it waits for".
    pub(crate) wait: Wait,
    /// "the last action answered".
    pub(crate) motion: Motion,
    /// E3: "the endless speed, new in the unit's record".
    pub(crate) endless_speed: u32,
    /// The number "of the last OEM frame for this unit or its groups not
    /// refused (at start there is none)".
    last: Option<u8>,
}

/// "at start: unit number not 1 to 16, then image not 4,160 bytes, then bad
/// image"
#[derive(Clone, Copy, Debug, PartialEq, Eq)]
pub enum StartRefusal {
    /// The unit's number is not 1 to 16.
    UnitNumber,
    /// The image has another length.
    ImageLength,
    /// The image breaks its rules.
    ImageBad,
}

/// What a feed call has done.
#[derive(Clone, Copy, Debug, PartialEq, Eq)]
pub struct Fed {
    /// How many bytes were consumed.
    pub consumed: usize,
    /// The length of the answer; 0 without one.
    pub answered: usize,
}

/// Why a feed call is refused; nothing is consumed.
#[derive(Clone, Copy, Debug, PartialEq, Eq)]
pub enum FeedRefusal {
    /// "answer buffer under 262 bytes"
    Buffer,
    /// "image not 4,160 bytes [..]; tested after the buffer"
    ImageLength,
}

/// What a taken frame is answered with.
#[derive(Clone, Copy, Debug, PartialEq, Eq)]
enum Data {
    Nothing,
    Number(u32),
    Text,
}

impl Unit {
    /// A fresh unit. "At start a non-empty program 0 becomes the current text
    /// and runs; else the current text is empty." E9: endless digits "as program
    /// 0" leave it "idle, the current text empty, holding 1".
    pub fn start(number: u8, image: &[u8]) -> Result<Unit, StartRefusal> {
        if !(1..=16).contains(&number) {
            return Err(StartRefusal::UnitNumber);
        }
        let Ok(image) = <&Image>::try_from(image) else {
            return Err(StartRefusal::ImageLength);
        };
        if !image::was_good(image) {
            return Err(StartRefusal::ImageBad);
        }
        let mut unit = Unit::fresh(number);
        match image::text(image, 0) {
            None => unit.code = Code::NotFound,
            Some([]) => {}
            Some(program) => {
                unit.text.set(program);
                unit.begin();
            }
        }
        Ok(unit)
    }

    fn fresh(number: u8) -> Unit {
        Unit {
            receiver: Receiver::new(number),
            settings: Settings::default(),
            position: Position { number: 0, known: true },
            sample: 15,
            code: Code::Clear,
            text: Text::new(),
            loaded: false,
            running: false,
            next: 0,
            loops: Loops::default(),
            wait: Wait::Nothing,
            motion: Motion::STILL,
            endless_speed: 0,
            last: None,
        }
    }

    /// Feeds bytes from the line. "A feed call consumes up to and with the CR
    /// of the first frame for this unit or its groups, else all it was given".
    pub fn feed(&mut self, bytes: &[u8], image: &mut [u8], answer: &mut [u8]) -> Result<Fed, FeedRefusal> {
        if answer.len() < packet::PACKET {
            return Err(FeedRefusal::Buffer);
        }
        let Ok(image) = <&mut Image>::try_from(image) else {
            return Err(FeedRefusal::ImageLength);
        };
        let (consumed, frame) = self.receiver.take(bytes);
        let answered = match frame {
            None => 0,
            Some((reach, framing)) => {
                let outcome = self.heed(framing, image);
                match reach {
                    Reach::Alone => self.answer(outcome, framing, answer),
                    Reach::Group => 0,
                }
            }
        };
        Ok(Fed { consumed, answered })
    }

    /// Obeys a frame, or answers a repeat; the number of an OEM frame that is
    /// not refused is kept.
    fn heed(&mut self, framing: Framing, image: &mut Image) -> Result<Data, Fault> {
        let Framing::Oem { number, repeat } = framing else {
            return self.obey(image);
        };
        if repeat && self.last == Some(number) {
            return Ok(self.afresh());
        }
        let outcome = self.obey(image);
        if outcome.is_ok() {
            self.last = Some(number);
        }
        outcome
    }

    /// "is answered as an empty body, or, if a query other than `?9`, by that
    /// query afresh; it is not obeyed."
    fn afresh(&self) -> Data {
        match self.receiver.body() {
            Some(b"$") => Data::Text,
            Some(b"?0") => Data::Number(self.position.number),
            Some(b"?2") => Data::Number(self.settings.speed),
            Some(b"?4") => Data::Number(self.sample.into()),
            Some(b"?5") => Data::Number(self.endless_speed),
            Some(b"?6") => Data::Number(1 << self.settings.resolution),
            Some(b"?7") => Data::Number(self.settings.offset.into()),
            _ => Data::Nothing,
        }
    }

    /// Does what the received body asks for.
    fn obey(&mut self, image: &mut Image) -> Result<Data, Fault> {
        let body = self.receiver.body().ok_or(Fault::nowhere(Code::Letter))?;
        match line::check(body, self.drive())? {
            Body::Immediate(immediate) => return Ok(self.immediate(immediate, image)),
            Body::Again => self.begin(),
            Body::EndlessSpeed(speed) => self.endless_speed = speed,
            Body::Go => self.go(),
            Body::Line(Line { slot: Some(slot), text, .. }) => image::store(image, slot.into(), text),
            Body::Line(Line { slot: None, text, run }) => {
                self.text.set(text);
                self.loaded = true;
                if run {
                    self.begin();
                }
            }
        }
        Ok(Data::Nothing)
    }

    /// What the line check must know.
    fn drive(&self) -> Drive {
        match (self.running, self.wait) {
            (false, _) => Drive::Idle,
            (true, Wait::Input(_)) => Drive::AtInput,
            (true, Wait::Move(on)) if on.is_endless() => Drive::Endless,
            (true, _) => Drive::Running,
        }
    }

    fn immediate(&mut self, immediate: Immediate, image: &mut Image) -> Data {
        match immediate {
            Immediate::Stop => {
                self.halt();
                Data::Nothing
            }
            Immediate::Status => Data::Nothing,
            Immediate::Text => Data::Text,
            Immediate::Position => Data::Number(self.position.number),
            Immediate::Speed => Data::Number(self.settings.speed),
            Immediate::Sample => Data::Number(self.sample.into()),
            Immediate::EndlessSpeed => Data::Number(self.endless_speed),
            Immediate::Resolution => Data::Number(1 << self.settings.resolution),
            Immediate::Offset => Data::Number(self.settings.offset.into()),
            Immediate::ClearAll => {
                image::clear(image);
                Data::Nothing
            }
        }
    }

    /// "`R` alone ends a wait at `H`; when idle it runs a loaded line not yet
    /// run, else does nothing."
    fn go(&mut self) {
        if self.running {
            self.wait = Wait::Nothing;
        } else if self.loaded {
            self.begin();
        }
    }

    /// Starts a run of the current text; the held code is "set to 0 when a run
    /// starts".
    fn begin(&mut self) {
        self.running = true;
        self.loaded = false;
        self.next = 0;
        self.loops = Loops::default();
        self.wait = Wait::Nothing;
        self.code = Code::Clear;
    }

    /// `T`: "A failed homing, or `T` during one, makes the position unknown".
    fn halt(&mut self) {
        if let Wait::Home(_) = self.wait {
            self.position.known = false;
        }
        self.running = false;
        self.wait = Wait::Nothing;
    }

    /// Writes the answer: "A refused frame carries its own code", with E6 "the
    /// place of the fault as decimal data"; "all others carry the held code".
    fn answer(&self, outcome: Result<Data, Fault>, framing: Framing, answer: &mut [u8]) -> usize {
        let (code, data) = match outcome {
            Ok(data) => (self.code, data),
            Err(Fault { code, place }) => (code, place.map_or(Data::Nothing, Data::Number)),
        };
        let status = packet::status(!self.running, code);
        let write = match framing {
            Framing::Plain => packet::write,
            Framing::Oem { .. } => packet::write_oem,
        };
        match data {
            Data::Nothing => write(answer, status, b""),
            Data::Number(number) => write(answer, status, Decimal::new(number).bytes()),
            Data::Text => write(answer, status, self.text.bytes()),
        }
    }

    /// The number of the last OEM frame that was not refused.
    pub fn last(&self) -> Option<u8> {
        self.last
    }

    /// The endless speed: "0 before the first endless move".
    pub fn endless_speed(&self) -> u32 {
        self.endless_speed
    }

    /// The unit's number.
    pub fn number(&self) -> u8 {
        self.receiver.unit()
    }

    /// Whether a run is on.
    pub fn is_running(&self) -> bool {
        self.running
    }

    /// The held code.
    pub fn code(&self) -> Code {
        self.code
    }

    /// The position.
    pub fn position(&self) -> Position {
        self.position
    }

    /// The settings.
    pub fn settings(&self) -> Settings {
        self.settings
    }

    /// The last sample.
    pub fn sample(&self) -> u8 {
        self.sample
    }

    /// The current text.
    pub fn text(&self) -> &[u8] {
        self.text.bytes()
    }

    /// What the run waits for.
    pub fn wait(&self) -> Wait {
        self.wait
    }

    /// The greatest report that the next turn takes.
    pub fn greatest_report(&self) -> u32 {
        self.motion.number
    }

    /// The level that a wait at `H` waits for.
    pub fn awaited(&self) -> Option<Level> {
        match self.wait {
            Wait::Input(level) => Some(level),
            _ => None,
        }
    }
}
