//! What frames do to a unit: the rules of "Lines" and "What comes back".

use crate::rig::Rig;
use drive_model::image;
use drive_model::turn::Action;
use drive_model::unit::{FeedRefusal, StartRefusal, Unit};

fn answered(status: u8, data: &str) -> (u8, String) {
    (status, data.to_string())
}

#[test]
fn queries_of_a_fresh_unit() {
    let mut rig = Rig::new();
    for (body, data) in [
        ("?0", "0"),
        ("?2", "305175"),
        ("?4", "15"),
        ("?6", "256"),
        ("?7", "1500"),
        ("$", ""),
        ("", ""),
        ("Q", ""),
    ] {
        assert_eq!(rig.say(body), answered(0x60, data), "{body}");
    }
    for body in ["T", "TR", "R", "?9"] {
        assert_eq!(rig.status(body), 0x60);
    }
    assert_eq!(rig.fault("?1"), (0x62, 1));
}

#[test]
fn queries_of_a_set_unit() {
    let mut rig = Rig::running("z77V16777216j1o1650m100h50f1F1J3b38400L65000");
    assert_eq!(rig.finish(9), 11 + 1);
    assert_eq!(rig.say("?0").1, "77");
    assert_eq!(rig.say("?2").1, "16777216");
    assert_eq!(rig.say("?4").1, "9");
    assert_eq!(rig.say("?6").1, "1");
    assert_eq!(rig.say("?7").1, "1650");
    let set = rig.unit.settings();
    assert_eq!((set.move_current, set.hold_current, set.outputs), (100, 50, 3));
    assert_eq!((set.baud, set.slope), (38_400, 65_000));
    assert!(set.flag_low && set.turned);
}

#[test]
fn loaded_lines() {
    let mut rig = Rig::new();
    assert_eq!(rig.status("A05"), 0x60);
    assert_eq!(rig.say("$"), answered(0x60, "A05"));
    assert_eq!(rig.status("s1A7R"), 0x60);
    assert_eq!(rig.status("T"), 0x60);
    assert_eq!(rig.fault("A"), (0x63, 1));
    assert_eq!(rig.status("R"), 0x40);
    rig.finish(15);
    assert_eq!(rig.position(), 5);
    assert_eq!(rig.status("R"), 0x60);
    assert_eq!(rig.status("X"), 0x40);
    rig.finish(15);
    assert_eq!(rig.status("P1"), 0x60);
    assert_eq!(rig.status("X"), 0x40);
    rig.finish(15);
    assert_eq!(rig.position(), 6);
    assert_eq!(rig.status("R"), 0x60, "the loaded line was run by X");
    assert_eq!(rig.status("P1R"), 0x40);
    rig.finish(15);
    assert_eq!(rig.say("$"), answered(0x60, "P1"));
}

#[test]
fn again_with_an_empty_text() {
    let mut rig = Rig::new();
    assert_eq!(rig.status("X"), 0x40);
    assert_eq!(rig.status("X"), 0x4f);
    assert_eq!(rig.step(0), Action::None);
    assert_eq!(rig.status("Q"), 0x60);
}

#[test]
fn go_ends_a_wait_at_an_input() {
    let mut rig = Rig::running("H01P3");
    assert_eq!(rig.status("R"), 0x4f, "not yet at H");
    assert_eq!(rig.step(0), Action::None);
    assert_eq!(rig.status("X"), 0x4f);
    assert_eq!(rig.status("RR"), 0x4f);
    assert_eq!(rig.status("R"), 0x40);
    assert_eq!(rig.status("R"), 0x4f);
    assert_eq!(rig.step(0), Action::Up(3));
}

#[test]
fn stop() {
    let mut rig = Rig::running("P9");
    assert_eq!(rig.step(0), Action::Up(9));
    assert_eq!(rig.status("TR"), 0x60);
    assert_eq!(rig.say("?0").1, "0");
    assert_eq!(rig.say("$").1, "P9");
    assert_eq!(rig.step(4), Action::None);
    assert_eq!(rig.position(), 4);
    assert_eq!(rig.status("X"), 0x40);
    assert_eq!(rig.step(0), Action::Up(9));
}

#[test]
fn the_held_code() {
    let mut rig = Rig::running("D1");
    rig.step(0);
    for body in ["Q", "", "R", "T", "s1R", "A5"] {
        assert_eq!(rig.status(body), 0x6b, "{body}");
    }
    assert_eq!(rig.fault("A"), (0x63, 1));
    assert_eq!(rig.say("?0"), answered(0x6b, "0"));
    assert_eq!(rig.status("X"), 0x40);
    rig.finish(15);
    assert_eq!(rig.status("Q"), 0x60);
}

#[test]
fn a_refused_frame_changes_nothing() {
    let mut rig = Rig::running("H01");
    rig.step(0);
    for (body, status) in [("A5R", 0x4f), (&"A".repeat(257), 0x42), ("s1A5R", 0x4f), ("X", 0x4f)] {
        assert_eq!(rig.status(body), status);
    }
    assert_eq!(rig.fault("?1"), (0x42, 1));
    assert_eq!(rig.image, image::empty());
    assert_eq!(rig.say("$"), answered(0x40, "H01"));
}

#[test]
fn groups_are_obeyed_and_not_answered() {
    let mut rig = Rig::new();
    for address in ['A', 'Q', '_'] {
        assert_eq!(rig.frame(address, "z5"), []);
        assert_eq!(rig.frame(address, "?0"), []);
        assert_eq!(rig.frame(address, "zz"), []);
    }
    assert_eq!(rig.say("$").1, "z5");
    assert_eq!(rig.frame('A', "s3z7R"), []);
    assert_eq!(image::text(&rig.image, 3), Some(&b"z7"[..]));
    assert_eq!(rig.frame('C', "?9"), []);
    assert_eq!(rig.frame('0', "?9"), []);
    assert_ne!(rig.image, image::empty());
    assert_eq!(rig.frame('Q', "?9"), []);
    assert_eq!(rig.image, image::empty());
}

#[test]
fn feeds_cut_at_every_place() {
    let bytes = b"\n/2Q\r/_z5R\r/1?0\r";
    for cut in 0..=bytes.len() {
        let mut rig = Rig::new();
        let mut answers = Vec::new();
        for part in [&bytes[..cut], &bytes[cut..]] {
            let mut rest = part;
            while !rest.is_empty() {
                let (consumed, answer) = rig.feed(rest);
                answers.extend(answer);
                rest = &rest[consumed..];
            }
        }
        assert_eq!(answers, b"/0\x400\x03\r\n", "{cut}");
    }
}

#[test]
fn one_frame_a_feed() {
    let mut rig = Rig::new();
    assert_eq!(rig.feed(b"/1Q\r/1Q\r").0, 4);
    assert_eq!(rig.feed(b"/_Q\r/1Q\r"), (4, vec![]));
    assert_eq!(rig.feed(b"/2Q\r/1Q\rz").0, 8);
    assert_eq!(rig.feed(b"").0, 0);
}

#[test]
fn stored_programs() {
    let mut rig = Rig::new();
    assert_eq!(rig.status("s03HA005R"), 0x60);
    assert_eq!(image::text(&rig.image, 3), Some(&b"HA005"[..]));
    assert_eq!(rig.say("$").1, "");
    assert_eq!(rig.status("s3R"), 0x60);
    assert_eq!(rig.image, image::empty());
    assert_eq!(rig.fault("s3"), (0x62, 3));
    assert_eq!(rig.fault("s16R"), (0x63, 1));
    assert_eq!(rig.status("s15P1R"), 0x60);
    assert_eq!(rig.status("?9"), 0x60);
    assert_eq!(rig.image, image::empty());
}

#[test]
fn a_long_text_comes_back_whole() {
    let mut rig = Rig::new();
    let text = "H".repeat(256);
    assert_eq!(rig.status(&text), 0x60);
    let answer = rig.frame('1', "$");
    assert_eq!(answer.len(), 262);
    assert_eq!(rig.status(&"H".repeat(257)), 0x62);
    assert_eq!(rig.say("$").1, text);
}

#[test]
fn start() {
    let image = image::empty();
    for number in 1..=16 {
        assert!(Unit::start(number, &image).is_ok());
    }
    for number in [0, 17, 255] {
        assert_eq!(Unit::start(number, &[]).unwrap_err(), StartRefusal::UnitNumber);
    }
    for length in [0, 4159] {
        assert_eq!(Unit::start(1, &image[..length]).unwrap_err(), StartRefusal::ImageLength);
    }
    assert_eq!(Unit::start(1, &[0; 4160]).unwrap_err(), StartRefusal::ImageBad);
    let mut programmed = image;
    image::store(&mut programmed, 0, b"P5");
    let unit = Unit::start(16, &programmed).unwrap();
    assert!(unit.is_running());
    assert_eq!(unit.text(), b"P5");
    image::store(&mut programmed, 0, b"");
    image::store(&mut programmed, 1, b"P5");
    let unit = Unit::start(16, &programmed).unwrap();
    assert!(!unit.is_running());
    assert_eq!(unit.text(), b"");
}

#[test]
fn refused_feeds() {
    let mut rig = Rig::new();
    let mut answer = [0xee; 262];
    let fed = rig.unit.feed(b"/1z5R\r", &mut [], &mut answer[..261]);
    assert_eq!(fed, Err(FeedRefusal::Buffer));
    for length in [0, 4159] {
        let fed = rig.unit.feed(b"/1z5R\r", &mut rig.image[..length], &mut answer);
        assert_eq!(fed, Err(FeedRefusal::ImageLength));
    }
    assert_eq!(answer, [0xee; 262]);
    assert!(!rig.unit.is_running());
    assert_eq!(rig.feed(b"Q\r").1, [], "the refused bytes were not taken");
}
