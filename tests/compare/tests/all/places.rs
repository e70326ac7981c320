//! "Where in the line?": paper 02, E6.

use crate::rig::Rig;
use drive_model::bench::{with_hex, Bench};
use drive_model::packet;

/// The answers of the bench to `line`, `count` and a typed line of this body.
fn judged(body: &str) -> [String; 3] {
    let mut bench = Bench::new();
    let mut answer = |operation: &[u8]| {
        let mut answer = Vec::new();
        bench.answer(operation, &mut answer);
        String::from_utf8(answer).unwrap()
    };
    assert_eq!(answer(b"start 1"), "started");
    let (line, count) = (with_hex("line", body.as_bytes()), with_hex("count", body.as_bytes()));
    [answer(&line), answer(&count), answer(format!("/1{body}").as_bytes())]
}

#[test]
fn every_judge_tells_the_same_place() {
    let fifteen = "H".repeat(15);
    for (body, fault) in [
        ("A5q", "2 3"),
        ("A5RA", "2 3"),
        ("AX", "3 1"),
        ("GA", "3 2"),
        ("?1", "2 1"),
        ("s16R", "3 1"),
        ("s3A5", "2 5"),
        ("gggggGGGGR", "2 1"),
        (&format!("s3{fifteen}R"), "2 17"),
        (&"H".repeat(257), "2"),
        (&format!("{}q", "H".repeat(255)), "2 256"),
    ] {
        assert_eq!(
            judged(body),
            [format!("line {fault}"), format!("refused {fault}"), format!("idle {fault}")]
        );
    }
    // "then a letter from that list"
    assert_eq!(judged("H")[1], "refused letter");
}

#[test]
fn oem_frames_count_behind_the_sequence_byte() {
    let mut rig = Rig::new();
    let mut frame = b"\x0211A5q\x03".to_vec();
    frame.push(packet::checksum(&frame));
    let (consumed, answer) = rig.feed(&frame);
    assert_eq!(consumed, frame.len());
    let read = packet::read_oem(&answer).unwrap();
    assert_eq!((read.status, read.data), (0x62, &b"3"[..]));
    assert_eq!(rig.unit.last(), None);
}

#[test]
fn groups_and_running_units() {
    let mut rig = Rig::new();
    assert_eq!(rig.frame('_', "A5q"), []);
    let mut rig = Rig::running("M5");
    assert_eq!(rig.status("A5q"), 0x4f);
    assert_eq!(rig.fault("TT"), (0x42, 1));
    assert_eq!(rig.status(&"T".repeat(257)), 0x42);
}

#[test]
fn the_hosts_list() {
    let mut bench = Bench::new();
    let long = format!("write - R{}", " g -".repeat(257));
    for (operation, expected) in [
        ("write - R P 5 G 3", "refused 2 3"),
        ("write 12 R H 02 L 0", "refused 3 7"),
        ("write 12 - H 02", "refused 2 7"),
        ("write 16 -", "refused 3 1"),
        (&long, "refused 2"),
    ] {
        let mut answer = Vec::new();
        bench.answer(operation.as_bytes(), &mut answer);
        assert_eq!(String::from_utf8(answer).unwrap(), expected, "{operation}");
    }
}
