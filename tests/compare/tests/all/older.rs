//! Programs from the older drive, and for it (paper 02, E12).

use drive_model::bench::{with_hex, Bench};
use drive_model::command::Command;
use drive_model::random::Random;
use drive_model::text::Text;

const WAYS: [&str; 2] = ["older", "newer"];

fn told(operation: &[u8]) -> String {
    let mut answer = Vec::new();
    Bench::new().answer(operation, &mut answer);
    String::from_utf8(answer).unwrap()
}

/// What `older` or `newer` answers for a text.
fn turned(word: &str, text: &str) -> String {
    told(&with_hex(word, text.as_bytes()))
}

/// The text becomes this one.
#[track_caller]
fn gives(word: &str, text: &str, becomes: &str, slowed: u8) {
    let mut answer = with_hex(word, becomes.as_bytes());
    answer.extend(format!(" slowed={slowed}").as_bytes());
    assert_eq!(turned(word, text), String::from_utf8(answer).unwrap(), "{word} {text}");
}

/// The text is refused, whichever way.
#[track_caller]
fn refused(text: &str, why: &str) {
    for word in WAYS {
        assert_eq!(turned(word, text), format!("refused {why}"), "{word} {text}");
    }
}

/// The text becomes this one without a slower ramp, whichever way.
#[track_caller]
fn both(text: &str, becomes: &str) {
    for word in WAYS {
        gives(word, text, becomes, 0);
    }
}

#[test]
fn the_papers_numbers() {
    gives("older", "L20", "L24", 1);
    assert_eq!(told(b"older 4c3230"), "older 4c3234 slowed=1");
    gives("older", "L1", "L1", 1);
    gives("newer", "L24", "L19", 1);
    gives("newer", "L25", "L20", 1);
    gives("newer", "L2", "L1", 1);
    assert_eq!(turned("newer", "L1"), "refused operand 1");
    assert_eq!(turned("newer", "L26"), "refused operand 1");
    for text in ["L0", "L21", "L24", "L65000", "L"] {
        assert_eq!(turned("older", &format!("P5{text}")), "refused operand 3", "{text}");
    }
}

#[test]
fn written_plainly() {
    both("", "");
    assert_eq!(told(b"older -"), "older - slowed=0");
    assert_eq!(told(b"newer -"), "newer - slowed=0");
    both("A0P005D2147483647z0Z0000000400", "A0P5D2147483647z0Z400");
    both("V050f1m100h50j0256J3M030000e15", "V50f1m100h50j256J3M30000e15");
    both("gHS14P1G", "gH02S14P1G0");
    both("gA1G007", "gA1G7");
    gives("older", "A5L020P6", "A5L24P6", 1);
    gives("newer", "A5L024P6", "A5L19P6", 1);
}

#[test]
fn letters() {
    // What ours alone has, what the older drive alone has, and what is no command of a text.
    for letter in
        ["F1", "b9600", "v200", "c200", "l30", "n1", "N1", "B5", "s1", "R", "X", "T", "Q", "$", "?0"]
    {
        refused(letter, "letter 1");
        refused(&format!("A5{letter}"), "letter 3");
    }
    for letter in ["p", "&", "a", "r", "u", "x", "5", " ", "/", "\r", "\0", "\u{7f}"] {
        refused(letter, "letter 1");
    }
    refused("g5G", "letter 2");
    refused("H013x", "operand 1");
}

#[test]
fn operands() {
    for text in ["V49", "V10001", "V305175", "j1", "j3", "o0", "o250", "o1400", "o1650", "m101", "h51", "J4"]
    {
        refused(text, "operand 1");
        refused(&format!("H{text}H"), "operand 2");
    }
    for text in ["A", "A2147483648", "Z4294967296", "M30001", "f2", "e16", "S", "H00", "S05"] {
        refused(text, "operand 1");
    }
    both("A0000000005", "A5");
    refused("A00000000005", "operand 1");
    refused("gG00000000000", "operand 2");
    refused("gG0000000000x", "letter 13");
}

#[test]
fn structure() {
    refused("G1", "structure 1");
    refused("GG99999", "structure 1");
    refused("gx", "structure 1");
    refused("gxG2", "letter 2");
    refused("A5S01", "structure 3");
    refused("S01gG", "structure 1");
    refused("gS01G", "structure 2");
    both("S01S02A1", "S01S02A1");
    both("ggggG1G2G3G4", "ggggG1G2G3G4");
    refused("gggggGGGGG", "structure 5");
    refused("gggggGGGG", "structure 1");
    refused("ggGgG", "structure 1");
}

#[test]
fn a_bad_loop_or_skip_is_still_one() {
    refused("S99gG", "operand 1");
    refused("S99", "operand 1");
    refused("gG30001", "operand 2");
    refused("gG30001G", "operand 2");
    refused("S01G30001", "structure 1");
    refused("S01x", "letter 4");
    refused("S01S99", "operand 4");
    refused("S01xg", "letter 4");
    refused("S01V1gG", "operand 4");
    refused("gS01Ax", "structure 1");
    refused("gS01G30001x", "structure 2");
}

#[test]
fn the_leftmost_counts() {
    refused("A1xV1", "letter 3");
    refused("A1V1x", "operand 3");
    refused("V1G", "operand 1");
    refused("GV1", "structure 1");
    refused("GxV1", "structure 1");
    refused("xG", "letter 1");
    refused("xg", "letter 1");
    refused("gxV1", "structure 1");
}

#[test]
fn commands() {
    for (word, most) in [("older", 14), ("newer", 25)] {
        gives(word, &"H01".repeat(most), &"H01".repeat(most), 0);
        let full = "H01".repeat(most);
        let place = 3 * most + 1;
        for (more, why) in [("H", "commands"), ("x", "letter"), ("V1", "operand"), ("G", "structure")] {
            assert_eq!(turned(word, &format!("{full}{more}")), format!("refused {why} {place}"));
        }
        assert_eq!(turned(word, &format!("{full}HxV1G")), format!("refused commands {place}"));
        assert_eq!(turned(word, &format!("g{full}")), "refused structure 1");
        let skip = format!("{}S01", "H01".repeat(most - 1));
        assert_eq!(turned(word, &skip), format!("refused structure {}", place - 3));
        assert_eq!(turned(word, &format!("{skip}H")), format!("refused commands {place}"));
    }
    assert_eq!(turned("newer", &"A".repeat(5000)), "refused operand 1");
    assert_eq!(turned("newer", &"H".repeat(5000)), "refused commands 26");
    assert_eq!(turned("older", &"S01".repeat(5000)), "refused commands 43");
}

/// A good text of both sides, without `L`.
fn good_text(random: &mut Random) -> String {
    let pool = "A P0 P0000000007 D2147483647 z5 Z00 V50 V010000 f0 f1 m0 m100 h050 j2 j0256 J3 M0 M30000 \
                gG gG0 gHG007 ggP1G2G30000 H H01 H14 S02A1 S13S04e15 e0";
    let pool: Vec<&str> = pool.split(' ').collect();
    (0..random.under(5)).map(|_| random.pick(&pool)).collect()
}

/// What the hex of an answer reads as.
fn text_of(answer: &str) -> Vec<u8> {
    let hex = answer.split(' ').nth(1).unwrap();
    let pairs = hex.as_bytes().chunks(2).filter(|pair| pair.len() == 2);
    pairs.map(|pair| u8::from_str_radix(std::str::from_utf8(pair).unwrap(), 16).unwrap()).collect()
}

fn commands_of(text: &[u8]) -> Vec<Command> {
    let mut read = Text::new();
    read.set(text);
    (0..).map_while(|place| read.command(place)).collect()
}

/// "A text without `L` that passes both ways returns the same commands."
#[test]
fn both_ways() {
    let mut random = Random::new(12);
    let mut passed = 0;
    for _ in 0..2000 {
        let text = good_text(&mut random);
        let [inward, outward] = WAYS.map(|word| turned(word, &text));
        if inward.starts_with("refused") {
            continue;
        }
        assert!(inward.ends_with(" slowed=0") && outward.ends_with(" slowed=0"), "{text}");
        let there = text_of(&inward);
        assert_eq!(there, text_of(&outward));
        for word in WAYS {
            assert_eq!(text_of(&told(&with_hex(word, &there))), there, "{text}");
        }
        assert_eq!(commands_of(&there), commands_of(text.as_bytes()), "{text}");
        passed += 1;
    }
    assert!(passed > 1500, "{passed}");
}

#[test]
fn what_the_bench_takes() {
    assert_eq!(told(b"older 4C3230\r"), "older 4c3234 slowed=1");
    for unreadable in ["older", "older ", "newer 4", "newer zz", "older 41 35", "Older -", "newer - -"] {
        assert!(told(unreadable.as_bytes()).starts_with('?'), "{unreadable}");
    }
    let help = told(b"help");
    assert!(help.contains(
        "a fresh table\nolder HEX : read a text of the older drive into ours\n\
         newer HEX : write a text of ours back for the older drive\n/... : "
    ));
}
