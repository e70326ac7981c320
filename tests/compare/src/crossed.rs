//! What occurs in the texts that `older` and `newer` are given, by name, so
//! that a comparison can say that all of it occurred: paper 02, E12.

use std::collections::BTreeSet;
use std::sync::LazyLock;

use crate::command::DIGITS;
use crate::older::{faults, items, most, Fault, Item, Why};
use crate::shared::{Way, LETTERS};
use crate::BODY;

/// What [`names`] gives for either way, beside what each letter and each two
/// faults make.
const NAMES: &[&str] = &[
    "no command",
    "the most commands",
    "zeros before a number",
    "ten digits",
    "a bare G",
    "a bare H",
    "four loops open",
    "the least L",
    "the greatest L",
    "refused: eleven digits",
    "refused: an operand is missing",
    "refused: just under the least L",
    "refused: just over the greatest L",
    "refused: a letter of ours alone",
    "refused: a letter of the older drive alone",
    "refused: s, R or X",
    "refused: an immediate letter",
    "refused: a digit",
    "refused: over 256 bytes",
    "refused: G with nothing open",
    "refused: a fifth g",
    "refused: an unclosed g",
    "refused: S last",
    "refused: S before g",
    "refused: S before G",
    "refused: one command too many",
];

/// Two faults of a text: the first one is told.
const LEFT_OF: [&str; 12] = [
    "letter left of operand",
    "letter left of structure",
    "letter left of commands",
    "operand left of letter",
    "operand left of structure",
    "operand left of commands",
    "structure left of letter",
    "structure left of operand",
    "structure left of commands",
    "commands left of letter",
    "commands left of operand",
    "commands left of structure",
];

/// Two faults of one command: the first one is told.
const AT_ONE_PLACE: [&str; 4] = [
    "letter and commands at one place",
    "operand and structure at one place",
    "operand and commands at one place",
    "structure and commands at one place",
];

/// Outward 25 commands of eleven bytes are taken.
const LONG: &str = "over 256 bytes";
const FAR: &str = "refused: a place over 256";

/// The words of both ways.
pub const WAYS: [(&str, Way); 2] = [("older", Way::Inward), ("newer", Way::Outward)];

/// The list that names are looked up in, made once.
static ALL: LazyLock<BTreeSet<String>> = LazyLock::new(|| all().into_iter().collect());

/// Every name that [`names`] gives.
pub fn all() -> Vec<String> {
    let taken = LETTERS.iter().filter(|letter| **letter != b'o').map(|letter| taken(*letter));
    let refused = LETTERS.iter().filter(|letter| **letter != b'g').map(|letter| refused(*letter));
    let fixed = NAMES.iter().chain(&LEFT_OF).chain(&AT_ONE_PLACE).map(|name| name.to_string());
    let both: Vec<String> = fixed.chain(taken).chain(refused).collect();
    let named =
        |(word, _): (&str, Way)| both.iter().map(move |name| format!("{word}: {name}")).collect::<Vec<_>>();
    WAYS.into_iter().flat_map(named).chain([LONG, FAR].map(|name| format!("newer: {name}"))).collect()
}

fn taken(letter: u8) -> String {
    format!("{} taken", char::from(letter))
}

fn refused(letter: u8) -> String {
    format!("refused: the operand of {}", char::from(letter))
}

/// The names of what occurs in a text that is turned this way, each once.
pub fn names(word: &str, way: Way, text: &[u8]) -> Vec<String> {
    let items = items(text);
    let mut faults = faults(text, way);
    faults.sort();
    let found = match faults[..] {
        [] => of_taken(&items, way, text.len()),
        [first, ..] => of_refused(&items, way, text, first, &faults),
    };
    let found: BTreeSet<String> = found.into_iter().map(|name| format!("{word}: {name}")).collect();
    found.intersection(&ALL).cloned().collect()
}

/// The least and the greatest `L` that this way takes.
fn slopes(way: Way) -> (&'static str, &'static str) {
    match way {
        Way::Inward => ("L1", "L20"),
        Way::Outward => ("L2", "L25"),
    }
}

/// A letter and its number without zeros before it.
fn plainly(item: &Item) -> String {
    let digits = String::from_utf8_lossy(item.digits);
    format!("{}{}", char::from(item.letter), digits.trim_start_matches('0'))
}

fn of_taken(items: &[Item], way: Way, length: usize) -> Vec<String> {
    let any = |test: &dyn Fn(&Item) -> bool| items.iter().any(test);
    let number = |item: &Item| !b"HS".contains(&item.letter);
    let (least, greatest) = slopes(way);
    let found = [
        ("no command", items.is_empty()),
        ("the most commands", items.len() == most(way)),
        (
            "zeros before a number",
            any(&|item| number(item) && item.digits.len() > 1 && item.digits[0] == b'0'),
        ),
        ("ten digits", any(&|item| item.digits.len() == DIGITS)),
        ("a bare G", any(&|item| item.letter == b'G' && item.digits.is_empty())),
        ("a bare H", any(&|item| item.letter == b'H' && item.digits.is_empty())),
        ("four loops open", deepest(items) == 4),
        ("the least L", any(&|item| plainly(item) == least)),
        ("the greatest L", any(&|item| plainly(item) == greatest)),
        (LONG, length > BODY),
    ];
    let found = found.into_iter().filter(|(_, holds)| *holds).map(|(name, _)| name.to_string());
    found.chain(items.iter().map(|item| taken(item.letter))).collect()
}

/// How many loops of a good text are open at a time.
fn deepest(items: &[Item]) -> usize {
    let mut open = 0;
    let mut deepest = 0;
    for item in items {
        match item.letter {
            b'g' => open += 1,
            b'G' => open -= 1,
            _ => {}
        }
        deepest = deepest.max(open);
    }
    deepest
}

fn of_refused(items: &[Item], way: Way, text: &[u8], first: Fault, faults: &[Fault]) -> Vec<String> {
    let place = items.iter().position(|item| item.before == first.before).unwrap_or(0);
    let item = &items[place];
    let long = (text.len() > BODY).then_some("refused: over 256 bytes");
    let why = match first.why {
        Why::Letter => of_letter(item.letter),
        Why::Operand => of_operand(item, way),
        Why::Structure => Some(of_structure(items, place)),
        Why::Commands => (items.len() == most(way) + 1).then_some("refused: one command too many"),
    };
    let operand = (first.why == Why::Operand).then(|| refused(item.letter));
    let others = faults.iter().map(|fault| of_two(first, *fault));
    let far = (first.before >= BODY).then_some(FAR);
    long.into_iter().chain(far).chain(why).map(String::from).chain(operand).chain(others).collect()
}

fn of_letter(letter: u8) -> Option<&'static str> {
    Some(match letter {
        b'F' | b'b' => "refused: a letter of ours alone",
        b'v' | b'c' | b'l' | b'n' | b'N' => "refused: a letter of the older drive alone",
        b's' | b'R' | b'X' => "refused: s, R or X",
        b'T' | b'Q' | b'$' | b'?' => "refused: an immediate letter",
        b'0'..=b'9' => "refused: a digit",
        _ => return None,
    })
}

fn of_operand(item: &Item, way: Way) -> Option<&'static str> {
    let (under, over) = match way {
        Way::Inward => ("L", "L21"),
        Way::Outward => ("L1", "L26"),
    };
    Some(match item.digits.len() {
        0 => "refused: an operand is missing",
        11 => "refused: eleven digits",
        12.. => return None,
        _ if plainly(item) == under => "refused: just under the least L",
        _ if plainly(item) == over => "refused: just over the greatest L",
        _ => return None,
    })
}

/// What breaks the structure at a command.
fn of_structure(items: &[Item], place: usize) -> &'static str {
    let next = items.get(place + 1).map(|item| item.letter);
    match (items[place].letter, next) {
        (b'G', _) => "refused: G with nothing open",
        (b'S', None) => "refused: S last",
        (b'S', Some(b'g')) => "refused: S before g",
        (b'S', _) => "refused: S before G",
        _ if is_fifth(items, place) => "refused: a fifth g",
        _ => "refused: an unclosed g",
    }
}

/// Whether four loops are open before a command.
fn is_fifth(items: &[Item], place: usize) -> bool {
    let count = |letter| items[..place].iter().filter(|item| item.letter == letter).count();
    count(b'g') >= count(b'G') + 4
}

/// The fault that is told, and another.
fn of_two(first: Fault, other: Fault) -> String {
    let name = |fault: Fault| fault.to_string().split(' ').next().unwrap_or_default().to_string();
    if first.before == other.before {
        format!("{} and {} at one place", name(first), name(other))
    } else {
        format!("{} left of {}", name(first), name(other))
    }
}

#[cfg(test)]
mod tests {
    use super::*;

    #[track_caller]
    fn check(word: &str, text: &str, expected: &[&str]) {
        let mut expected: Vec<String> = expected.iter().map(|name| format!("{word}: {name}")).collect();
        let way = if word == "older" { Way::Inward } else { Way::Outward };
        let mut found = names(word, way, text.as_bytes());
        expected.sort();
        found.sort();
        assert_eq!(found, expected, "{word} {text}");
    }

    #[test]
    fn of_good_texts() {
        check("older", "", &["no command"]);
        check("older", "L020", &["zeros before a number", "the greatest L", "L taken"]);
        check("newer", "L25", &["the greatest L", "L taken"]);
        check("newer", "gHG", &["a bare G", "a bare H", "g taken", "G taken", "H taken"]);
        let long = "A0000000000".repeat(25);
        check("newer", &long, &["the most commands", "zeros before a number", "ten digits", "A taken", LONG]);
    }

    #[test]
    fn of_bad_texts() {
        check("older", "x", &[]);
        check("older", "gx", &["refused: an unclosed g", "structure left of letter"]);
        check("older", "gg5G", &["refused: an unclosed g", "structure left of letter"]);
        check("newer", "L1", &["refused: just under the least L", "refused: the operand of L"]);
        check("older", "L0", &["refused: just under the least L", "refused: the operand of L"]);
        check("older", "S99gG", &["refused: the operand of S", "operand and structure at one place"]);
        check("older", "S01gG", &["refused: S before g"]);
        check("older", "gggggGGGGG", &["refused: a fifth g"]);
        check("older", &"H".repeat(15), &["refused: one command too many"]);
    }

    #[test]
    fn names_of_two_faults_are_of_the_list() {
        let why = [Why::Letter, Why::Operand, Why::Structure, Why::Commands];
        for first in why {
            for other in why.into_iter().filter(|other| *other != first) {
                let fault = |before, why| Fault { before, why };
                assert!(LEFT_OF.contains(&&of_two(fault(0, first), fault(1, other))[..]));
            }
        }
    }
}
