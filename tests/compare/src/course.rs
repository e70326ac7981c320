//! Turns made one after another, for `run` and `timeline`.

use std::io::Write;

use crate::command;
use crate::turn::{Action, Leg, TurnRefusal, Wait};
use crate::unit::Unit;

/// "or 100,000 turns are made"
pub const TURNS: u32 = 100_000;

/// How a course ends.
#[derive(Clone, Copy, Debug, PartialEq, Eq)]
pub enum End {
    /// The unit is idle.
    Idle,
    /// It "waits for an input that the sample does not have".
    Waits,
    /// All turns are made.
    Busy,
}

impl Unit {
    /// Makes turns, "each reporting all its steps": how many, and how that
    /// ended. With `lines` each turn is told there. Refused as a turn is.
    pub fn course(
        &mut self,
        image: &[u8],
        sample: u8,
        elapsed: u32,
        mut lines: Option<&mut Vec<u8>>,
    ) -> Result<(u32, End), TurnRefusal> {
        self.clone().turn(image, sample, elapsed, self.greatest_report())?;
        for made in 0..TURNS {
            if let Some(end) = self.end(sample) {
                return Ok((made, end));
            }
            let taken = lines.is_some().then(|| taken(self));
            let action = self.turn(image, sample, elapsed, self.greatest_report())?;
            if let (Some(lines), Some(taken)) = (&mut lines, taken) {
                let _ = writeln!(lines, "turn {}: at {taken}, {}", made + 1, left(self, action));
            }
        }
        Ok((TURNS, self.end(sample).unwrap_or(End::Busy)))
    }

    fn end(&self, sample: u8) -> Option<End> {
        match self.awaited() {
            _ if !self.is_running() => Some(End::Idle),
            Some(level) if !level.is_in(sample) => Some(End::Waits),
            _ => None,
        }
    }
}

/// What a turn leaves: position, with a `?` where it is unknown, wait, action.
fn left(unit: &Unit, action: Action) -> String {
    let position = unit.position();
    let doubt = if position.known { "" } else { "?" };
    format!("position {}{doubt}, wait {}, {}", position.number, waiting(unit.wait()), told(action))
}

/// The action as `turn` answers it.
pub fn told(action: Action) -> String {
    match action {
        Action::None => "act none".to_string(),
        Action::Up(number) => format!("act up {number}"),
        Action::Down(number) => format!("act down {number}"),
    }
}

/// The place of the next command, from 1 on, and the command that the turn
/// takes: `-` where it serves a wait, `end` where none is left.
fn taken(unit: &Unit) -> String {
    let mut rest = unit.text();
    for _ in 0..unit.next {
        rest = command::read(rest).map_or(&[], |(_, after)| after);
    }
    let place = unit.text().len() - rest.len() + 1;
    let taken = match (unit.wait(), command::read(rest)) {
        (Wait::Nothing, Ok((_, after))) => {
            String::from_utf8_lossy(&rest[..rest.len() - after.len()]).into_owned()
        }
        (Wait::Nothing, Err(_)) => "end".to_string(),
        _ => "-".to_string(),
    };
    format!("{place} {taken}")
}

fn waiting(wait: Wait) -> String {
    match wait {
        Wait::Nothing => "none".to_string(),
        Wait::Move(on) if on.is_endless() => format!("endless {}", on.left()),
        Wait::Move(on) => format!("move {}", on.left()),
        Wait::Home(Leg::Away { left, .. }) => format!("away {left}"),
        Wait::Home(Leg::Toward { left }) => format!("toward {left}"),
        Wait::Delay(left) => format!("delay {left}"),
        Wait::Input(level) => format!("input {}{}", u8::from(level.high), level.bit.trailing_zeros() + 1),
    }
}
