//! Numbers "in decimal without leading zeros".

/// The digits of a number.
#[derive(Clone, Copy, Debug)]
pub struct Decimal {
    digits: [u8; 10],
    first: usize,
}

impl Decimal {
    /// Writes the number.
    pub fn new(mut number: u32) -> Self {
        let mut digits = [b'0'; 10];
        let mut first = digits.len() - 1;
        digits[first] += (number % 10) as u8;
        while number >= 10 {
            number /= 10;
            first -= 1;
            digits[first] += (number % 10) as u8;
        }
        Decimal { digits, first }
    }

    /// The digits, one at least.
    pub fn bytes(&self) -> &[u8] {
        &self.digits[self.first..]
    }
}

#[cfg(test)]
mod tests {
    use super::*;

    #[test]
    fn edges() {
        for number in [0, 1, 9, 10, 99, 100, 999_999_999, 1_000_000_000, u32::MAX] {
            assert_eq!(Decimal::new(number).bytes(), number.to_string().as_bytes());
        }
    }
}
