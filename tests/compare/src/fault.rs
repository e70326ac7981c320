//! Where in the line a fault is: paper 02, E6.

use std::fmt;

use crate::Code;

/// Why a body is refused: "A line refused with 2 or 3 answers the place of the
/// fault as decimal data, counting body bytes from 1."
#[derive(Clone, Copy, Debug, PartialEq, Eq)]
pub struct Fault {
    /// The code.
    pub code: Code,
    /// The place; 15 has none, and "an overlong body has no place".
    pub place: Option<u32>,
}

impl Fault {
    /// The fault of the byte that has so many bytes of the body before it.
    pub fn after(before: usize, code: Code) -> Self {
        Fault { code, place: Some(before as u32 + 1) }
    }

    /// A fault that has no place.
    pub fn nowhere(code: Code) -> Self {
        Fault { code, place: None }
    }
}

impl fmt::Display for Fault {
    /// "the place after the code, nothing where there is none"
    fn fmt(&self, form: &mut fmt::Formatter) -> fmt::Result {
        write!(form, "{}", self.code as u8)?;
        self.place.map_or(Ok(()), |place| write!(form, " {place}"))
    }
}

#[cfg(test)]
mod tests {
    use super::*;

    #[test]
    fn told() {
        assert_eq!(Fault::after(4, Code::Letter).to_string(), "2 5");
        assert_eq!(Fault::after(256, Code::Operand).to_string(), "3 257");
        assert_eq!(Fault::nowhere(Code::Letter).to_string(), "2");
    }
}
