//! Programs from the older drive, and for it: paper 02, E12.

use std::fmt;

use crate::command::{split_digits, Command, Level, Misread};
use crate::shared::{self, Way};
use crate::structure::Structure;

/// Why a text is refused, "at one place in this order".
#[derive(Clone, Copy, Debug, PartialEq, Eq, PartialOrd, Ord)]
pub enum Why {
    /// "a letter that the other side lacks"
    Letter,
    /// "an operand missing or outside either range"
    Operand,
    /// "a structure fault"
    Structure,
    /// "a command past 14 inward or 25 outward"
    Commands,
}

/// A fault and the bytes before it, of which the leftmost is the least.
#[derive(Clone, Copy, Debug, PartialEq, Eq, PartialOrd, Ord)]
pub struct Fault {
    /// The bytes before the command.
    pub before: usize,
    /// What is wrong with it.
    pub why: Why,
}

impl fmt::Display for Fault {
    /// "by name with the place", counted from 1.
    fn fmt(&self, form: &mut fmt::Formatter) -> fmt::Result {
        let name = match self.why {
            Why::Letter => "letter",
            Why::Operand => "operand",
            Why::Structure => "structure",
            Why::Commands => "commands",
        };
        write!(form, "{name} {}", self.before + 1)
    }
}

/// A text for the other side.
#[derive(Clone, Debug, PartialEq, Eq)]
pub struct Turned {
    /// Its commands.
    pub text: String,
    /// "the answer says that a ramp was slowed": no `L` comes out as fast as it
    /// was, as 5000x = 4069y has no x from 1 to 20.
    pub slowed: bool,
}

/// A letter with the digits behind it that are its operand.
#[derive(Clone, Copy, Debug, PartialEq, Eq)]
pub struct Item<'a> {
    /// The bytes of the text before it.
    pub before: usize,
    /// The letter, or any other byte.
    pub letter: u8,
    /// The operand.
    pub digits: &'a [u8],
}

/// The text for the other side, or its leftmost fault.
pub fn turned(text: &[u8], way: Way) -> Result<Turned, Fault> {
    if let Some(fault) = faults(text, way).into_iter().min() {
        return Err(fault);
    }
    let items = items(text);
    let slowed = items.iter().any(|item| item.letter == b'L');
    let text = items.iter().filter_map(|item| shared::turned(item.letter, item.digits, way).ok()).collect();
    Ok(Turned { text, slowed })
}

/// All faults of a text, as "reading goes on past a fault".
pub fn faults(text: &[u8], way: Way) -> Vec<Fault> {
    let items = items(text);
    let at = |why| move |before| Fault { before, why };
    let misread = items.iter().filter_map(|item| misread(item, way));
    let structure = structure_faults(&items).into_iter().map(at(Why::Structure));
    let past = items.iter().skip(most(way)).map(|item| item.before).map(at(Why::Commands));
    misread.chain(structure).chain(past).collect()
}

/// "a command past 14 inward or 25 outward"
pub fn most(way: Way) -> usize {
    match way {
        Way::Inward => 14,
        Way::Outward => 25,
    }
}

/// A text cut into letters and operands. A letter that is not shared has no
/// operand, and neither has `g`: the byte behind it is the next one.
pub fn items(text: &[u8]) -> Vec<Item<'_>> {
    let mut items = Vec::new();
    let mut rest = text;
    while let Some((&letter, after)) = rest.split_first() {
        let bare = letter == b'g' || !shared::LETTERS.contains(&letter);
        let digits = if bare { &[] } else { split_digits(after).0 };
        items.push(Item { before: text.len() - rest.len(), letter, digits });
        rest = &after[digits.len()..];
    }
    items
}

fn misread(item: &Item, way: Way) -> Option<Fault> {
    let why = match shared::turned(item.letter, item.digits, way).err()? {
        Misread::Letter => Why::Letter,
        Misread::Operand => Why::Operand,
    };
    Some(Fault { before: item.before, why })
}

/// The places where the structure is broken: a `G` or an `S` is one whatever
/// its operand, and any other letter is neither loop nor skip.
fn structure_faults(items: &[Item]) -> Vec<usize> {
    let mut structure = Structure::new(false);
    for item in items {
        let stands_for = match item.letter {
            b'g' => Command::Open,
            b'G' => Command::Close(0),
            b'S' => Command::Skip(Level::BARE),
            _ => Command::Execute(0),
        };
        structure.add(item.before, stands_for);
    }
    structure.end(0, false);
    structure.faults().iter().map(|&(before, _)| before).collect()
}
