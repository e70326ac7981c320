//! A turn: it "either serves that wait or takes exactly one command, and
//! answers the next motor action".

use crate::command::{Command, Level, FARTHEST};
use crate::image::{self, Image};
use crate::structure::OPEN_LOOPS;
use crate::unit::Unit;
use crate::Code;

/// Inputs 1 to 4, all high: the greatest sample.
const ALL_HIGH: u8 = 15;
/// Input 2, whose fall ends an endless move.
const INPUT_2: u8 = 0b0010;
/// Input 3, the flag.
const INPUT_3: u8 = 0b0100;
/// "If cut, move away at most 10,000 until clear".
const AWAY: u32 = 10_000;
/// E2: the leg toward zero is "n + 400".
const EXTRA: u32 = 400;

/// A direction as the position counts, before `F1` turns it.
#[derive(Clone, Copy, Debug, PartialEq, Eq)]
pub enum Direction {
    /// Greater positions; away from the flag.
    Up,
    /// Smaller positions; toward zero.
    Down,
}

/// What a turn answers: "direction and greatest number of microsteps. A number
/// of 0 has no direction."
#[derive(Clone, Copy, Debug, PartialEq, Eq)]
pub enum Action {
    /// No step.
    None,
    /// At most so many steps up.
    Up(u32),
    /// At most so many steps down.
    Down(u32),
}

/// "sample over 15, then too many microsteps, in a turn [..]; tested after the
/// image length"
#[derive(Clone, Copy, Debug, PartialEq, Eq)]
pub enum TurnRefusal {
    /// The image has another length.
    ImageLength,
    /// The sample is over 15.
    Sample,
    /// More microsteps than the last action's number.
    Steps,
}

/// The action of a turn as it is kept for the report that belongs to it.
#[derive(Clone, Copy, Debug, PartialEq, Eq)]
pub struct Motion {
    pub(crate) number: u32,
    direction: Direction,
    /// "Homing steps do not count in the position."
    homing: bool,
}

impl Motion {
    pub(crate) const STILL: Motion = Motion { number: 0, direction: Direction::Up, homing: false };

    /// The action as it is answered: "`F1` turns the direction of every
    /// action".
    fn action(self, turned: bool) -> Action {
        match (self.number, self.direction) {
            (0, _) => Action::None,
            (number, direction) if (direction == Direction::Up) != turned => Action::Up(number),
            (number, _) => Action::Down(number),
        }
    }
}

/// A move that is on.
#[derive(Clone, Copy, Debug, PartialEq, Eq)]
pub struct Move {
    direction: Direction,
    left: u32,
    endless: bool,
}

impl Move {
    /// Whether this is `P0` or `D0`.
    pub fn is_endless(self) -> bool {
        self.endless
    }

    /// The microsteps that are left.
    pub fn left(self) -> u32 {
        self.left
    }

    fn motion(self) -> Motion {
        Motion { number: self.left, direction: self.direction, homing: false }
    }
}

/// A leg of `Z` that is on.
#[derive(Clone, Copy, Debug, PartialEq, Eq)]
pub enum Leg {
    /// "move away at most 10,000 until clear", `then` the next leg's number.
    Away { left: u32, then: u32 },
    /// "toward zero at most n until cut", with E2's 400 more.
    Toward { left: u32 },
}

impl Leg {
    fn motion(self) -> Motion {
        match self {
            Leg::Away { left, .. } => Motion { number: left, direction: Direction::Up, homing: true },
            Leg::Toward { left } => Motion { number: left, direction: Direction::Down, homing: true },
        }
    }
}

/// "what it waits for: nothing, a move, a homing leg, a delay or an input".
#[derive(Clone, Copy, Debug, PartialEq, Eq)]
pub enum Wait {
    Nothing,
    Move(Move),
    Home(Leg),
    /// Milliseconds left.
    Delay(u32),
    Input(Level),
}

/// The open loops, the nearest last.
#[derive(Clone, Copy, Debug, Default)]
pub struct Loops {
    open: [Loop; OPEN_LOOPS],
    depth: usize,
}

/// An open loop.
#[derive(Clone, Copy, Debug, Default)]
struct Loop {
    /// The place of "the command after its `g`".
    begin: usize,
    /// How many times the body was run.
    done: u16,
}

impl Loops {
    fn open(&mut self, begin: usize) {
        self.open[self.depth] = Loop { begin, done: 0 };
        self.depth += 1;
    }

    /// "`G n` has run its body n times in all, going back to the command after
    /// its `g`; 0 is for ever": where it goes back to, if it does.
    fn close(&mut self, times: u16) -> Option<usize> {
        let nearest = &mut self.open[self.depth - 1];
        if times == 0 {
            return Some(nearest.begin);
        }
        nearest.done += 1;
        if nearest.done < times {
            return Some(nearest.begin);
        }
        self.depth -= 1;
        None
    }
}

/// What a turn was called with.
#[derive(Clone, Copy, Debug)]
struct Moment<'a> {
    image: &'a Image,
    sample: u8,
    /// The sample of the turn before.
    before: u8,
    elapsed: u32,
    steps: u32,
}

impl Unit {
    /// A turn "with a sample of inputs 1 to 4 (bits 0 to 3), elapsed
    /// milliseconds, and microsteps done since the last turn".
    pub fn turn(
        &mut self,
        image: &[u8],
        sample: u8,
        elapsed: u32,
        steps: u32,
    ) -> Result<Action, TurnRefusal> {
        let Ok(image) = <&Image>::try_from(image) else {
            return Err(TurnRefusal::ImageLength);
        };
        if sample > ALL_HIGH {
            return Err(TurnRefusal::Sample);
        }
        if steps > self.motion.number {
            return Err(TurnRefusal::Steps);
        }
        self.count(steps);
        let before = std::mem::replace(&mut self.sample, sample);
        self.motion = if self.running {
            self.advance(Moment { image, sample, before, elapsed, steps })
        } else {
            Motion::STILL
        };
        Ok(self.motion.action(self.settings.turned))
    }

    /// "The report belongs to the last action answered, even when `T` came
    /// between, and is counted first".
    fn count(&mut self, steps: u32) {
        match self.motion {
            Motion { homing: true, .. } => {}
            Motion { direction: Direction::Up, .. } => self.position.number += steps,
            Motion { direction: Direction::Down, .. } => self.position.number -= steps,
        }
    }

    fn advance(&mut self, now: Moment) -> Motion {
        match self.wait {
            Wait::Nothing => self.take(now),
            Wait::Move(on) => self.serve_move(on, now),
            Wait::Home(leg) => self.serve_leg(leg, now),
            Wait::Delay(left) => self.serve_delay(left, now.elapsed),
            Wait::Input(level) => self.await_level(level, now.sample),
        }
    }

    /// A finite move ends when it is used up. Of an endless one "steps count
    /// first, then the edge, then the end of the range".
    fn serve_move(&mut self, on: Move, now: Moment) -> Motion {
        let on = Move { left: on.left - now.steps, ..on };
        let fell = now.before & !now.sample & INPUT_2 != 0;
        if on.endless && fell {
            return self.done();
        }
        match (on.left, on.endless) {
            (0, true) => self.stop(Code::Range),
            (0, false) => self.done(),
            _ => self.wait_for_move(on),
        }
    }

    /// "steps count before the sample, and the awaited level wins over a leg
    /// used up".
    fn serve_leg(&mut self, leg: Leg, now: Moment) -> Motion {
        let cut = self.flag_is_cut(now.sample);
        match leg {
            Leg::Away { then, .. } if !cut => self.wait_for_leg(Leg::Toward { left: then }),
            Leg::Away { left, then } => self.leg_left(Leg::Away { left: left - now.steps, then }),
            Leg::Toward { .. } if cut => {
                self.set_position(0);
                self.done()
            }
            Leg::Toward { left } => self.leg_left(Leg::Toward { left: left - now.steps }),
        }
    }

    /// Goes on with a leg, or fails: "flag not found within a leg (1)".
    fn leg_left(&mut self, leg: Leg) -> Motion {
        match leg {
            Leg::Away { left: 0, .. } | Leg::Toward { left: 0 } => {
                self.position.known = false;
                self.stop(Code::NotFound)
            }
            _ => self.wait_for_leg(leg),
        }
    }

    /// "`M` counts down elapsed time".
    fn serve_delay(&mut self, left: u32, elapsed: u32) -> Motion {
        match left.saturating_sub(elapsed) {
            0 => self.done(),
            left => {
                self.wait = Wait::Delay(left);
                Motion::STILL
            }
        }
    }

    /// "`H` tests each turn's sample, the first included".
    fn await_level(&mut self, level: Level, sample: u8) -> Motion {
        if level.is_in(sample) {
            return self.done();
        }
        self.wait = Wait::Input(level);
        Motion::STILL
    }

    /// Takes one command. "The first turn with no wait and no command left ends
    /// the run."
    fn take(&mut self, now: Moment) -> Motion {
        let Some(command) = self.text.command(self.next) else {
            self.running = false;
            return Motion::STILL;
        };
        self.next += 1;
        match command {
            Command::MoveTo(_) | Command::MoveUp(_) | Command::MoveDown(_) => return self.take_move(command),
            Command::Home(limit) => return self.take_home(limit, now.sample),
            Command::Delay(time) => return self.serve_delay(time.into(), 0),
            Command::Await(level) => return self.await_level(level, now.sample),
            Command::Execute(slot) => return self.execute(slot, now.image),
            Command::Skip(level) => self.next += usize::from(level.is_in(now.sample)),
            Command::Open => self.loops.open(self.next),
            Command::Close(times) => self.next = self.loops.close(times).unwrap_or(self.next),
            Command::SetPosition(number) => self.set_position(number),
            Command::Speed(speed) => self.settings.speed = speed,
            Command::Slope(slope) => self.settings.slope = slope,
            Command::FlagLow(low) => self.settings.flag_low = low,
            Command::Turned(turned) => self.settings.turned = turned,
            Command::MoveCurrent(current) => self.settings.move_current = current,
            Command::HoldCurrent(current) => self.settings.hold_current = current,
            Command::Resolution(exponent) => self.settings.resolution = exponent,
            Command::Offset(offset) => self.settings.offset = offset,
            Command::Outputs(outputs) => self.settings.outputs = outputs,
            Command::Baud(baud) => self.settings.baud = baud,
        }
        Motion::STILL
    }

    /// `A`, `P`, `D`: "7 comes before 11. Such a finite move makes no step."
    fn take_move(&mut self, command: Command) -> Motion {
        if !self.position.known {
            return self.stop(Code::Unknown);
        }
        let here = self.position.number;
        let (up, down) = (FARTHEST - here, here);
        let (direction, left, room, endless) = match command {
            Command::MoveTo(there) if there == here => return self.done(),
            Command::MoveTo(there) if there > here => (Direction::Up, there - here, up, false),
            Command::MoveTo(there) => (Direction::Down, here - there, down, false),
            Command::MoveUp(0) => (Direction::Up, up, up, true),
            Command::MoveUp(steps) => (Direction::Up, steps, up, false),
            Command::MoveDown(0) => (Direction::Down, down, down, true),
            Command::MoveDown(steps) => (Direction::Down, steps, down, false),
            _ => return Motion::STILL,
        };
        if left > room {
            return self.stop(Code::Range);
        }
        if endless {
            // "a new `P0` or `D0` starts it from `V`"
            self.endless_speed = self.settings.speed;
        }
        self.wait_for_move(Move { direction, left, endless })
    }

    /// `Z n`: "If cut, move away at most 10,000 until clear; then toward zero at
    /// most n until cut", which E2 makes n + 400.
    fn take_home(&mut self, limit: u32, sample: u8) -> Motion {
        let toward = limit + EXTRA;
        if self.flag_is_cut(sample) {
            self.wait_for_leg(Leg::Away { left: AWAY, then: toward })
        } else {
            self.wait_for_leg(Leg::Toward { left: toward })
        }
    }

    /// "`e` makes the slot's text the current text (not where it stops the run
    /// with 1), closes all loops and begins it."
    fn execute(&mut self, slot: u8, image: &Image) -> Motion {
        let Some(text) = image::text(image, slot.into()) else {
            return self.stop(Code::NotFound);
        };
        self.text.set(text);
        self.next = 0;
        self.loops = Loops::default();
        Motion::STILL
    }

    /// "the flag is cut when input 3 is high (`f0`) or low (`f1`)".
    fn flag_is_cut(&self, sample: u8) -> bool {
        (sample & INPUT_3 != 0) != self.settings.flag_low
    }

    fn set_position(&mut self, number: u32) {
        self.position.number = number;
        self.position.known = true;
    }

    fn wait_for_move(&mut self, on: Move) -> Motion {
        self.wait = Wait::Move(on);
        on.motion()
    }

    fn wait_for_leg(&mut self, leg: Leg) -> Motion {
        self.wait = Wait::Home(leg);
        leg.motion()
    }

    /// Nothing is left to wait for; the next turn takes the next command.
    fn done(&mut self) -> Motion {
        self.wait = Wait::Nothing;
        Motion::STILL
    }

    /// A fault stops the run: the held code is "set by a fault stop".
    fn stop(&mut self, code: Code) -> Motion {
        self.running = false;
        self.wait = Wait::Nothing;
        self.code = code;
        Motion::STILL
    }
}
