//! "Endless digits": paper 02, E9.

use crate::rig::Rig;
use drive_model::image;
use drive_model::turn::Action::None as Rest;
use drive_model::unit::{StartRefusal, Unit};
use drive_model::Code;

#[test]
fn lines() {
    let mut rig = Rig::new();
    assert_eq!(rig.status("P0000000005"), 0x60);
    assert_eq!(rig.fault("P00000000005"), (0x63, 1));
    assert_eq!(rig.fault(&format!("z7P{}5R", "0".repeat(240))), (0x63, 3));
    assert_eq!(rig.fault("z7P10000000000R"), (0x63, 3));
    assert_eq!(rig.say("$").1, "P0000000005");
    assert_eq!(rig.fault("s00000000003P5R"), (0x63, 1), "the slot is an operand too");
    assert_eq!(rig.fault("s3P00000000005R"), (0x63, 3));
    assert_eq!(rig.image, image::empty());
    assert_eq!(rig.status("s0000000003P0000000005R"), 0x60);
    assert_eq!(image::text(&rig.image, 3), Some(&b"P0000000005"[..]));
}

#[test]
fn speed_while_turning() {
    let mut rig = Rig::running("P0");
    rig.step(0);
    assert_eq!(rig.status("V0000000005R"), 0x40);
    assert_eq!(rig.fault("V00000000006R"), (0x43, 1));
    assert_eq!(rig.say("?5").1, "5");
}

#[test]
fn a_program_stored_earlier_stops_a_run() {
    for text in ["z00000000009", "gz9G00000000002", "V00000000005z9"] {
        let mut rig = Rig::with(&[(5, text)]);
        assert_eq!(rig.status("e5R"), 0x40);
        assert_eq!(rig.step(0), Rest);
        assert_eq!(rig.status("Q"), 0x61, "{text}");
        assert_eq!(rig.say("$").1, "e5");
    }
    let mut rig = Rig::with(&[(5, "z0000000009")]);
    assert_eq!(rig.status("e5R"), 0x40);
    rig.finish(15);
    assert_eq!((rig.unit.code(), rig.position()), (Code::Clear, 9));
}

#[test]
fn at_start() {
    let mut rig = Rig::with(&[(0, "P5"), (5, "z00000000009")]);
    rig.unit = Unit::start(1, &rig.image).unwrap();
    assert_eq!(rig.status("Q"), 0x40, "another program does not matter");

    let mut rig = Rig::with(&[(0, "P00000000005"), (1, "P5")]);
    rig.unit = Unit::start(1, &rig.image).unwrap();
    assert_eq!(rig.say("$"), (0x61, String::new()), "idle, the current text empty, holding 1");
    assert_eq!(rig.step(0), Rest);
    assert_eq!(rig.status("R"), 0x61, "no line is loaded");
    assert_eq!(rig.status("X"), 0x40);
    rig.finish(15);
    assert_eq!(rig.status("Q"), 0x60);
}

#[test]
fn start_bears_nothing_else() {
    for text in [
        "P99999999999",
        "V00000000000",
        "H00000000002",
        "P00000000005g",
        "P00000000005R",
        "A00002147483648",
        "HHHHHHHHHHHHHHA00000000005",
    ] {
        for slot in [0, 7] {
            let rig = Rig::with(&[(slot, text)]);
            assert_eq!(Unit::start(1, &rig.image).unwrap_err(), StartRefusal::ImageBad, "{text}");
        }
    }
    let mut rig = Rig::with(&[(5, "z00000000009")]);
    rig.image[4 * 6] ^= 1;
    assert_eq!(Unit::start(1, &rig.image).unwrap_err(), StartRefusal::ImageBad);
    let long = format!("z{}9", "0".repeat(254));
    let mut rig = Rig::with(&[(5, &long)]);
    assert!(Unit::start(1, &rig.image).is_ok());
    rig.image[4 * 5 + 2] ^= 1;
    assert_eq!(Unit::start(1, &rig.image).unwrap_err(), StartRefusal::ImageBad, "a length of 257");
}
