//! "Speed while turning": paper 02, E3.

use crate::rig::Rig;
use drive_model::packet;
use drive_model::turn::Action::{None as Rest, Up};

const FAR: u32 = 2_147_483_647;

fn asked(rig: &mut Rig) -> String {
    rig.say("?5").1
}

/// Status and data of the answer to an OEM frame for unit 1.
fn oem(rig: &mut Rig, sequence: u8, body: &str) -> (u8, String) {
    let mut frame = [&[0x02, b'1', sequence], body.as_bytes(), &[0x03]].concat();
    frame.push(packet::checksum(&frame));
    let (_, answer) = rig.feed(&frame);
    let read = packet::read_oem(&answer).unwrap();
    (read.status, String::from_utf8(read.data.to_vec()).unwrap())
}

#[test]
fn a_stirrer() {
    let mut rig = Rig::running("V500P0P3");
    assert_eq!(rig.step(0), Rest);
    assert_eq!(asked(&mut rig), "0", "before the first endless move");
    assert_eq!(rig.status("V600R"), 0x4f, "not yet on");
    assert_eq!(rig.step(0), Up(FAR));
    assert_eq!(asked(&mut rig), "500");
    assert_eq!(rig.status("V0600R"), 0x40);
    assert_eq!(asked(&mut rig), "600");
    assert_eq!((rig.say("?2").1, rig.say("$").1), ("500".to_string(), "V500P0P3".to_string()));
    assert_eq!(rig.step(7), Up(FAR - 7), "the move goes on");
    for body in ["VR", "V0R", "V16777217R"] {
        assert_eq!(rig.fault(body), (0x43, 1), "{body}");
    }
    for body in ["V700", "V700RR", "V700P0R", "R", "X", "L5R"] {
        assert_eq!(rig.status(body), 0x4f, "{body}");
    }
    assert_eq!(asked(&mut rig), "600");
    assert_eq!(rig.turn(13, 1, 1), Rest, "the edge");
    assert_eq!(asked(&mut rig), "600", "it stays when the move ends");
    assert_eq!(rig.status("V700R"), 0x4f);
    assert_eq!(rig.step(0), Up(3));
    assert_eq!(rig.status("VR"), 0x4f, "a finite move");
}

#[test]
fn a_new_endless_move_starts_from_v() {
    let mut rig = Rig::running("P0D0");
    rig.step(0);
    assert_eq!(rig.status("V9R"), 0x40);
    rig.turn(13, 1, 5);
    assert_eq!(asked(&mut rig), "9");
    rig.step(0);
    assert_eq!(asked(&mut rig), "305175");
    assert_eq!(rig.status("V9R"), 0x40);
    assert_eq!(rig.status("T"), 0x60);
    assert_eq!(asked(&mut rig), "9");
    assert_eq!(rig.status("V8R"), 0x40, "an ordinary line");
    assert_eq!((asked(&mut rig), rig.say("$").1), ("9".to_string(), "V8".to_string()));
}

#[test]
fn no_step_can_be_made() {
    let mut rig = Rig::running("V44D0");
    rig.step(0);
    assert_eq!(rig.step(0), Rest);
    assert_eq!(asked(&mut rig), "44");
    assert_eq!(rig.status("V45R"), 0x40);
    assert_eq!(rig.step(0), Rest);
    assert_eq!(rig.say("?5"), (0x6b, "45".to_string()));
}

#[test]
fn not_where_it_stops_with_7() {
    let mut rig = Rig::running("Z1");
    rig.turn(0, 1, 0);
    assert_eq!(rig.status("V5R"), 0x4f, "a homing");
    assert_eq!(rig.status("T"), 0x60);
    assert_eq!(rig.status("P0R"), 0x40);
    assert_eq!(rig.step(0), Rest);
    assert_eq!(rig.say("?5"), (0x67, "0".to_string()));
}

#[test]
fn other_waits() {
    for line in ["M50", "H01", "P5"] {
        let mut rig = Rig::running(line);
        rig.step(0);
        for body in ["V5R", "VR", "V0R"] {
            assert_eq!(rig.status(body), 0x4f, "{line} {body}");
        }
        assert_eq!(asked(&mut rig), "0");
    }
}

#[test]
fn oem_frames_and_groups() {
    let mut rig = Rig::running("P0");
    rig.step(0);
    assert_eq!(oem(&mut rig, 0x31, "V0R"), (0x43, "1".to_string()));
    assert_eq!(rig.unit.last(), None);
    assert_eq!(oem(&mut rig, 0x31, "V7R"), (0x40, String::new()));
    assert_eq!(rig.unit.last(), Some(1));
    assert_eq!(oem(&mut rig, 0x39, "V8R"), (0x40, String::new()), "a repeat is not obeyed");
    assert_eq!(oem(&mut rig, 0x39, "?5"), (0x40, "7".to_string()), "a query afresh");
    assert_eq!(oem(&mut rig, 0x39, "V0R"), (0x40, String::new()));
    assert_eq!(rig.frame('_', "V9R"), []);
    assert_eq!(asked(&mut rig), "9");
}
