//! How many commands a run takes when nothing stops it: paper 02, E14.

use crate::command::{self, Command};
use crate::fault::Fault;
use crate::line::{self, Body, Drive};

/// Why no count is told, "by name".
#[derive(Clone, Copy, Debug, PartialEq, Eq)]
pub enum Uncounted {
    /// "the line check's code", with E6's place
    Line(Fault),
    /// "then a letter from that list"
    Letter,
    /// "then a count over 2^63 − 1"
    Count,
}

/// "work out how many commands a run takes when nothing stops it"
pub fn count(body: &[u8]) -> Result<u64, Uncounted> {
    let Body::Line(line) = line::check(body, Drive::Idle).map_err(Uncounted::Line)? else {
        return Ok(0);
    };
    let mut commands = Vec::new();
    let mut rest = line.text;
    while let Ok((command, after)) = command::read(rest) {
        commands.push(command);
        rest = after;
    }
    if commands.iter().any(|&command| is_listed(command)) {
        return Err(Uncounted::Letter);
    }
    match u64::try_from(cost(&mut commands.into_iter()).0) {
        Ok(count) if count <= i64::MAX as u64 => Ok(count),
        _ => Err(Uncounted::Count),
    }
}

/// "`e`, `S`, `H`, bare `G` or a `G`, `P` or `D` of 0"
fn is_listed(command: Command) -> bool {
    use Command::{Await, Close, Execute, MoveDown, MoveUp, Skip};
    matches!(command, Execute(_) | Skip(_) | Await(_) | Close(0) | MoveUp(0) | MoveDown(0))
}

/// What stands up to the end or to the `G` that closes it, and that `G`'s
/// number: "a loop costs 1 + n × (body + 1)". Four deep it is below 2^70.
fn cost(commands: &mut impl Iterator<Item = Command>) -> (u128, u16) {
    let mut total = 0;
    while let Some(command) = commands.next() {
        match command {
            Command::Open => {
                let (body, n) = cost(commands);
                total += 1 + u128::from(n) * (body + 1);
            }
            Command::Close(n) => return (total, n),
            _ => total += 1,
        }
    }
    (total, 0)
}

#[cfg(test)]
mod tests {
    use super::*;
    use crate::Code;

    #[test]
    fn the_papers_example() {
        assert_eq!(count(b"gP5gD1G2G3"), Ok(22));
        assert_eq!(count(b"s3gP5gD1G2G3R"), Ok(22));
    }

    #[test]
    fn no_text() {
        for body in [&b""[..], b"R", b"X", b"T", b"TR", b"Q", b"$", b"?0", b"s3R"] {
            assert_eq!(count(body), Ok(0));
        }
    }

    #[test]
    fn refusals_in_order() {
        assert_eq!(count(b"P0A2147483648R"), Err(Uncounted::Line(Fault::after(2, Code::Operand))));
        let over = "A1".repeat(11);
        let over = format!("gggg{over}G30000G30000G30000G30000");
        assert_eq!(count(format!("{over}H").as_bytes()), Err(Uncounted::Letter));
        assert_eq!(count(over.as_bytes()), Err(Uncounted::Count));
    }
}
