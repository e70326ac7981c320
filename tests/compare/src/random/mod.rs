//! Random scripts in the bench's language, the same for the same seed.

mod bus;
mod endless;
mod faulty;
mod lines;
mod older;
mod rare;
mod script;

pub use bus::Bus;
pub use lines::Lines;
pub use older::Older;
pub use rare::Rare;
pub use script::{Round, Step};

/// A small generator of random numbers (splitmix64).
#[derive(Clone, Debug)]
pub struct Random(u64);

impl Random {
    /// The generator of a seed.
    pub fn new(seed: u64) -> Self {
        Random(seed)
    }

    /// 64 random bits.
    pub fn bits(&mut self) -> u64 {
        self.0 = self.0.wrapping_add(0x9e37_79b9_7f4a_7c15);
        let mixed = (self.0 ^ (self.0 >> 30)).wrapping_mul(0xbf58_476d_1ce4_e5b9);
        let mixed = (mixed ^ (mixed >> 27)).wrapping_mul(0x94d0_49bb_1331_11eb);
        mixed ^ (mixed >> 31)
    }

    /// A number under `bound`, which is not 0.
    pub fn below(&mut self, bound: u64) -> u64 {
        ((u128::from(self.bits()) * u128::from(bound)) >> 64) as u64
    }

    /// The same for places and lengths.
    pub fn under(&mut self, bound: usize) -> usize {
        self.below(bound as u64) as usize
    }

    /// True in so many of a hundred cases.
    pub fn chance(&mut self, percent: u64) -> bool {
        self.below(100) < percent
    }

    /// One of these, which are not none.
    pub fn pick<T: Copy>(&mut self, from: &[T]) -> T {
        from[self.under(from.len())]
    }

    /// One of these, each as often as its weight says.
    pub fn weighted<T: Copy>(&mut self, from: &[(u64, T)]) -> T {
        let total = from.iter().map(|(weight, _)| weight).sum();
        let mut place = self.below(total);
        for &(weight, item) in from {
            if place < weight {
                return item;
            }
            place -= weight;
        }
        from[0].1
    }

    /// A number up to `greatest`, of any length in bits.
    pub fn of_any_size(&mut self, greatest: u64) -> u64 {
        let bits = 64 - greatest.leading_zeros();
        let size = self.below(u64::from(bits) + 1);
        let number = self.bits().checked_shr(64 - size as u32).unwrap_or(0);
        number.min(greatest)
    }
}

#[cfg(test)]
mod tests {
    use super::*;

    #[test]
    fn numbers() {
        let mut random = Random::new(1);
        let same = random.clone().bits();
        assert_eq!(random.bits(), same);
        let mut seen = [0; 5];
        for _ in 0..1000 {
            seen[random.under(5)] += 1;
            assert!(random.of_any_size(1000) <= 1000);
            assert_eq!(random.weighted(&[(0, 'a'), (3, 'b'), (0, 'c')]), 'b');
        }
        assert!(seen.iter().all(|&count| count > 150));
        assert!(!random.chance(0) && random.chance(100));
    }
}
