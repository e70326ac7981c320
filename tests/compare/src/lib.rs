//! One drive's side of the DT protocol, and the host's side, written from
//! paper 01 ("The work covered and the rules it follows"), the requests of
//! paper 02 that it knows (E1, E2, E3, E4, E6, E9, E10, E12, E14) and the
//! decided readings of their open points, and from nothing else.
//!
//! The words in quotes in the comments are the papers'. The model is the
//! judge in a comparison: [`bench`] speaks the tester's language over it,
//! [`course`] makes turns one after another for it, [`random`] writes scripts
//! in that language, [`kinds`] names what came back, [`causes`] what a body is
//! refused for, [`digits`] how long its operands are, from what [`handed`]
//! finds in an operation, [`overheard`] what stands in a listener's bytes,
//! [`crossed`] what stands in a text for the other drive, and [`shrink`] makes
//! a disagreement short. [`pace`] repeats feed and turn, to time them.

pub mod address;
pub mod command;
pub mod count;
pub mod decimal;
pub mod fault;
pub mod host;
pub mod image;
pub mod line;
pub mod listen;
pub mod old;
pub mod older;
pub mod packet;
pub mod pieces;
pub mod ramp;
pub mod receiver;
pub mod shared;
pub mod speed;
pub mod structure;
pub mod text;
pub mod turn;
pub mod unit;

pub mod bench;
pub mod causes;
pub mod course;
pub mod crossed;
pub mod digits;
pub mod handed;
pub mod kinds;
pub mod overheard;
pub mod pace;
pub mod random;
pub mod shrink;

/// "The body has 0 to 256 bytes."
pub const BODY: usize = 256;

/// The low four bits of a status.
#[derive(Clone, Copy, Debug, PartialEq, Eq)]
#[repr(u8)]
pub enum Code {
    /// No fault.
    Clear = 0,
    /// "flag not found within a leg", or `e` to a bad slot.
    NotFound = 1,
    /// "unknown or misplaced letter", and all faults of a line's structure.
    Letter = 2,
    /// "operand missing or out of range".
    Operand = 3,
    /// "`A P D` with position unknown".
    Unknown = 7,
    /// A move that leaves the range.
    Range = 11,
    /// "running, and not immediate nor a resuming `R`".
    Busy = 15,
}
