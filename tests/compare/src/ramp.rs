//! "Ramp figures".

use crate::command::{FARTHEST, FASTEST, STEEPEST};

/// Twice the acceleration of L 1, in microsteps per second squared.
const TWICE: u64 = 12_207;

/// What the caller says of the move.
#[derive(Clone, Copy, Debug, PartialEq, Eq)]
pub enum Length {
    /// "finite, with N 1 to 2147483647"
    Finite(u32),
    /// "endless, where N is not looked at"
    Endless,
}

/// "The ramp record holds speed, acceleration and time as f64".
#[derive(Clone, Copy, Debug, PartialEq)]
pub struct Ramp {
    /// Microsteps per second.
    pub speed: f64,
    /// Microsteps per second squared.
    pub acceleration: f64,
    /// Seconds.
    pub time: f64,
}

/// The figures of a move.
#[derive(Clone, Copy, Debug, PartialEq)]
pub struct Figures {
    /// The greatest speed that is reached.
    pub peak: u32,
    /// The microsteps of one ramp.
    pub distance: u64,
    /// The record.
    pub ramp: Ramp,
}

/// "ramp: V, then L, then N outside the ranges of this paper"
#[derive(Clone, Copy, Debug, PartialEq, Eq)]
pub enum RampRefusal {
    /// V is outside.
    Speed,
    /// L is outside.
    Slope,
    /// N is outside.
    Length,
}

/// The figures of a move with `V`, `L` and a length.
pub fn figures(speed: u32, slope: u32, length: Length) -> Result<Figures, RampRefusal> {
    if !(1..=FASTEST).contains(&speed) {
        return Err(RampRefusal::Speed);
    }
    if !(1..=STEEPEST).contains(&slope) {
        return Err(RampRefusal::Slope);
    }
    let peak = match length {
        Length::Finite(steps) if !(1..=FARTHEST).contains(&steps) => return Err(RampRefusal::Length),
        Length::Finite(steps) => peak(speed, slope, steps),
        Length::Endless => speed,
    };
    Ok(Figures { peak, distance: distance(peak, slope), ramp: record(peak, slope) })
}

/// "the greatest whole v ≤ V with 2v² ≤ 12207·L·N"
fn peak(speed: u32, slope: u32, steps: u32) -> u32 {
    let bound = TWICE * u64::from(slope) * u64::from(steps) / 2;
    root(bound).min(speed.into()) as u32
}

/// "v² / (12207·L) rounded down"
fn distance(peak: u32, slope: u32) -> u64 {
    u64::from(peak).pow(2) / (TWICE * u64::from(slope))
}

/// "speed and acceleration are exact, and time is their one rounded quotient"
fn record(peak: u32, slope: u32) -> Ramp {
    let speed = f64::from(peak);
    let acceleration = f64::from(slope) * 6103.5;
    Ramp { speed, acceleration, time: speed / acceleration }
}

/// The greatest whole number whose square is at most this: the float's root,
/// put right by whole numbers.
fn root(square: u64) -> u64 {
    let over = |root: u64| root.checked_mul(root).is_none_or(|found| found > square);
    let mut root = (square as f64).sqrt() as u64;
    while over(root) {
        root -= 1;
    }
    while !over(root + 1) {
        root += 1;
    }
    root
}

#[cfg(test)]
mod tests {
    use super::*;

    fn finite(speed: u32, slope: u32, steps: u32) -> (u32, u64) {
        let found = figures(speed, slope, Length::Finite(steps)).unwrap();
        (found.peak, found.distance)
    }

    #[test]
    fn roots() {
        for low in (0..100).chain([65_535, 4_294_967_294]) {
            assert_eq!(root(low * low), low);
            assert_eq!(root(low * low + 2 * low), low);
        }
        assert_eq!(root(u64::MAX), 4_294_967_295);
    }

    #[test]
    fn ranges() {
        let refused = |v, l, n| figures(v, l, n).err();
        let finite = Length::Finite;
        assert_eq!(refused(0, 0, finite(0)), Some(RampRefusal::Speed));
        assert_eq!(refused(16_777_217, 1, Length::Endless), Some(RampRefusal::Speed));
        assert_eq!(refused(16_777_216, 0, finite(0)), Some(RampRefusal::Slope));
        assert_eq!(refused(1, 65_001, Length::Endless), Some(RampRefusal::Slope));
        assert_eq!(refused(1, 65_000, finite(0)), Some(RampRefusal::Length));
        assert_eq!(refused(1, 65_000, finite(2_147_483_648)), Some(RampRefusal::Length));
        assert_eq!(refused(1, 1, finite(2_147_483_647)), None);
        assert_eq!(refused(16_777_216, 65_000, Length::Endless), None);
    }

    #[test]
    fn edges() {
        assert_eq!(finite(1, 1, 1), (1, 0));
        assert_eq!(finite(16_777_216, 1, 1), (78, 0));
        assert_eq!(finite(16_777_216, 65_000, 2_147_483_647), (16_777_216, 354_745));
        let found = figures(16_777_216, 1, Length::Endless).unwrap();
        assert_eq!((found.peak, found.distance), (16_777_216, 23_058_489_121));
        assert_eq!(found.ramp.acceleration, 6103.5);
        assert_eq!(found.ramp.time, 16_777_216.0 / 6103.5);
    }

    #[test]
    fn the_peak_is_the_greatest() {
        for slope in [1, 7, 1000, 65_000] {
            for steps in [1, 2, 3, 99, 15_258, 2_147_483_647] {
                let (peak, _) = finite(FASTEST, slope, steps);
                let bound = 12_207 * u128::from(slope) * u128::from(steps);
                let fits = |v: u32| 2 * u128::from(v).pow(2) <= bound;
                assert!(fits(peak));
                assert!(peak == FASTEST || !fits(peak + 1));
            }
        }
    }
}
