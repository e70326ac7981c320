//! Whom an address byte speaks to.

/// How a frame came to a unit.
#[derive(Clone, Copy, Debug, PartialEq, Eq)]
pub enum Reach {
    /// By the unit's own byte: it is answered.
    Alone,
    /// "A group frame is obeyed and never answered (house)."
    Group,
}

/// How a frame with this address byte reaches the unit, if it does.
pub fn reach(address: u8, unit: u8) -> Option<Reach> {
    let (first, count) = addressed(address)?;
    let named = first <= unit && unit < first + count;
    named.then_some(if count == 1 { Reach::Alone } else { Reach::Group })
}

/// The one unit that an address byte names, if it names one alone.
pub fn alone(address: u8) -> Option<u8> {
    match addressed(address)? {
        (unit, 1) => Some(unit),
        _ => None,
    }
}

/// The first unit that an address byte names, and how many.
///
/// "Units 1 to 16 are bytes 31 to 40 hex. Pairs are `A C E G I K M O` (units
/// 1,2 up to 15,16), fours are `Q U Y ]`, all is `_`. Other bytes, `0`
/// included, address nobody."
fn addressed(address: u8) -> Option<(u8, u8)> {
    match address {
        0x31..=0x40 => Some((address - 0x30, 1)),
        b'A' | b'C' | b'E' | b'G' | b'I' | b'K' | b'M' | b'O' => Some((address - b'A' + 1, 2)),
        b'Q' | b'U' | b'Y' | b']' => Some((address - b'Q' + 1, 4)),
        b'_' => Some((1, 16)),
        _ => None,
    }
}

#[cfg(test)]
mod tests {
    use super::*;

    fn units(address: u8) -> Vec<u8> {
        (1..=16).filter(|&unit| reach(address, unit).is_some()).collect()
    }

    #[test]
    fn single_units() {
        for unit in 1..=16 {
            assert_eq!(units(0x30 + unit), [unit]);
            assert_eq!(reach(0x30 + unit, unit), Some(Reach::Alone));
        }
    }

    #[test]
    fn groups() {
        for (pair, address) in b"ACEGIKMO".iter().enumerate() {
            let first = 2 * pair as u8 + 1;
            assert_eq!(units(*address), [first, first + 1]);
        }
        for (four, address) in b"QUY]".iter().enumerate() {
            let first = 4 * four as u8 + 1;
            assert_eq!(units(*address), (first..first + 4).collect::<Vec<_>>());
        }
        assert_eq!(units(b'_').len(), 16);
        assert_eq!(reach(b'_', 16), Some(Reach::Group));
        assert_eq!(reach(b'A', 2), Some(Reach::Group));
    }

    #[test]
    fn nobody() {
        let named = |byte: &u8| !units(*byte).is_empty();
        assert_eq!((0..=255u8).filter(named).count(), 16 + 8 + 4 + 1);
        for byte in *b"0/BDPRSTV[\\^`az" {
            assert!(units(byte).is_empty());
        }
    }
}
