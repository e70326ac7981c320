//! "A turn".

use crate::rig::Rig;
use drive_model::count::count;
use drive_model::image;
use drive_model::turn::Action::{Down, None as Rest, Up};
use drive_model::turn::TurnRefusal;
use drive_model::Code;

const FAR: u32 = 2_147_483_647;

#[test]
fn idle_turns() {
    let mut rig = Rig::new();
    assert_eq!(rig.turn(3, 9, 0), Rest);
    assert_eq!(rig.unit.sample(), 3);
    assert_eq!(rig.refused(3, 0, 1), TurnRefusal::Steps);
}

#[test]
fn refused_turns_change_nothing() {
    let mut rig = Rig::running("P5P6");
    assert_eq!(rig.turn(7, 1, 0), Up(5));
    assert_eq!(rig.unit.turn(&[], 16, 0, 9), Err(TurnRefusal::ImageLength));
    assert_eq!(rig.refused(16, 0, 9), TurnRefusal::Sample);
    assert_eq!(rig.refused(255, 0, 0), TurnRefusal::Sample);
    assert_eq!(rig.refused(15, 0, 6), TurnRefusal::Steps);
    assert_eq!(rig.unit.sample(), 7);
    assert_eq!(rig.position(), 0);
    assert_eq!(rig.turn(7, 1, 3), Up(2));
    assert_eq!(rig.refused(15, 0, 3), TurnRefusal::Steps);
    assert_eq!(rig.turn(7, 1, 2), Rest);
    assert_eq!(rig.turn(7, 1, 0), Up(6));
}

/// Paper 02, E14: "a run that reaches its end took exactly that many". Without a
/// wait each turn takes a command, and one more ends the run.
#[test]
fn as_many_commands_as_counted() {
    for text in ["z1", "gG1", "gG300", "gz1gV7G2G3", "A0gggM0G2z1G3G4L7", "ggggz1G3gf1G2G3z2G3F1G2J1"] {
        let counted = count(text.as_bytes()).unwrap();
        assert_eq!(Rig::running(text).finish(15) as u64, counted + 1, "{text}");
    }
}

#[test]
fn finite_moves() {
    let mut rig = Rig::running("A10A4P3D7A0");
    assert_eq!(rig.step(0), Up(10));
    assert_eq!(rig.step(0), Up(10));
    assert_eq!(rig.step(10), Rest);
    assert_eq!(rig.step(0), Down(6));
    assert_eq!(rig.step(6), Rest);
    assert_eq!(rig.step(0), Up(3));
    assert_eq!(rig.step(3), Rest);
    assert_eq!(rig.step(0), Down(7));
    assert_eq!(rig.step(7), Rest);
    assert_eq!(rig.step(0), Rest, "A to the present position");
    assert!(rig.unit.is_running());
    assert_eq!(rig.step(0), Rest);
    assert!(!rig.unit.is_running());
    assert_eq!(rig.position(), 0);
}

#[test]
fn moves_at_the_ends_of_the_range() {
    for (line, last) in
        [("z5D5", Down(5)), ("z2147483640P7", Up(7)), ("A2147483647", Up(FAR)), ("z2147483647A0", Down(FAR))]
    {
        let mut rig = Rig::running(line);
        let mut action = rig.step(0);
        if action == Rest {
            action = rig.step(0);
        }
        assert_eq!(action, last, "{line}");
    }
    for line in ["z5D6", "z2147483640P8", "z1P2147483647", "z0D1"] {
        let mut rig = Rig::running(line);
        let before = rig.step(0);
        assert_eq!((before, rig.step(0)), (Rest, Rest));
        assert_eq!(rig.unit.code(), Code::Range, "{line}");
        assert!(!rig.unit.is_running());
    }
}

#[test]
fn endless_moves() {
    let mut rig = Rig::running("z10P0D0P1");
    assert_eq!(rig.turn(0, 0, 0), Rest);
    assert_eq!(rig.turn(0, 0, 0), Up(FAR - 10));
    assert_eq!(rig.turn(2, 0, 5), Up(FAR - 15));
    assert_eq!(rig.turn(15, 0, 5), Up(FAR - 20));
    assert_eq!(rig.turn(13, 0, 5), Rest, "the edge");
    assert_eq!(rig.position(), 25);
    assert_eq!(rig.turn(15, 0, 0), Down(25));
    assert_eq!(rig.turn(15, 0, 24), Down(1));
    assert_eq!(rig.turn(0, 0, 1), Rest, "the edge before the end of the range");
    assert_eq!(rig.position(), 0);
    assert_eq!(rig.turn(0, 0, 0), Up(1));
}

#[test]
fn the_edge_counts_from_the_turn_after() {
    let mut rig = Rig::running("P0");
    assert_eq!(rig.turn(0, 0, 0), Up(FAR), "the fall from 15 is before the move");
    assert_eq!(rig.turn(0, 0, 1), Up(FAR - 1));
    assert_eq!(rig.turn(2, 0, 1), Up(FAR - 2));
    assert_eq!(rig.turn(0, 0, 1), Rest);
    assert_eq!(rig.position(), 3);
}

#[test]
fn endless_moves_to_the_end_of_the_range() {
    let mut rig = Rig::running("P0");
    assert_eq!(rig.step(0), Up(FAR));
    assert_eq!(rig.step(FAR - 1), Up(1));
    assert_eq!(rig.step(1), Rest);
    assert_eq!((rig.unit.code(), rig.position()), (Code::Range, FAR));
    for line in ["D0", "z2147483647P0"] {
        let mut rig = Rig::running(line);
        assert_eq!(rig.step(0), Rest);
        if line != "D0" {
            assert_eq!(rig.step(0), Rest);
        }
        assert!(rig.unit.is_running());
        assert_eq!(rig.step(0), Rest);
        assert_eq!(rig.unit.code(), Code::Range);
        assert!(!rig.unit.is_running());
    }
    let mut rig = Rig::running("D0M1");
    assert_eq!(rig.step(0), Rest);
    assert_eq!(rig.turn(0, 0, 0), Rest);
    assert!(rig.unit.is_running(), "the edge comes before the end");
}

#[test]
fn homing_from_clear() {
    let mut rig = Rig::running("z100Z50P1");
    assert_eq!(rig.turn(0, 0, 0), Rest);
    assert_eq!(rig.turn(0, 0, 0), Down(450));
    assert_eq!(rig.turn(0, 0, 20), Down(430));
    assert_eq!(rig.position(), 100);
    assert_eq!(rig.turn(4, 0, 430), Rest, "the level wins over a leg used up");
    assert_eq!(rig.position(), 0);
    assert_eq!(rig.turn(0, 0, 0), Up(1));
}

#[test]
fn homing_from_cut() {
    let mut rig = Rig::running("z100Z50");
    assert_eq!(rig.step(0), Rest);
    assert_eq!(rig.step(0), Up(10_000));
    assert_eq!(rig.step(1), Up(9_999));
    assert_eq!(rig.turn(0, 0, 9_999), Down(450), "the next leg in the same turn");
    assert_eq!(rig.turn(0, 0, 0), Down(450));
    assert_eq!(rig.turn(4, 0, 10), Rest);
    assert_eq!(rig.position(), 0);
}

#[test]
fn homing_that_fails() {
    let mut rig = Rig::running("z7Z3");
    assert_eq!(rig.turn(0, 0, 0), Rest);
    assert_eq!(rig.turn(0, 0, 0), Down(403));
    assert_eq!(rig.turn(0, 0, 402), Down(1));
    assert_eq!(rig.turn(0, 0, 1), Rest);
    assert_eq!((rig.unit.code(), rig.lost()), (Code::NotFound, 7));
    for line in ["A7R", "A5R", "P1R", "P0R", "D9R", "D0R"] {
        assert_eq!(rig.status(line), 0x40);
        assert_eq!(rig.step(0), Rest);
        assert_eq!(rig.status("Q"), 0x67, "{line}");
        assert_eq!(rig.say("?0").1, "7");
    }
    assert_eq!(rig.status("z9P1R"), 0x40);
    rig.finish(0);
    assert_eq!(rig.position(), 10);

    let mut rig = Rig::running("Z3");
    assert_eq!(rig.step(0), Up(10_000));
    assert_eq!(rig.step(10_000), Rest);
    assert_eq!((rig.unit.code(), rig.lost()), (Code::NotFound, 0));
    assert_eq!(rig.status("Z1R"), 0x40);
    assert_eq!(rig.turn(0, 0, 0), Down(401));
    assert_eq!(rig.lost(), 0);
    assert_eq!(rig.turn(4, 0, 0), Rest);
    assert_eq!(rig.position(), 0);
}

#[test]
fn homing_by_400_at_least() {
    let mut rig = Rig::running("Z0");
    assert_eq!(rig.turn(0, 0, 0), Down(400));
    assert_eq!(rig.turn(0, 0, 400), Rest);
    assert_eq!(rig.unit.code(), Code::NotFound);
    let mut rig = Rig::running("Z0");
    assert_eq!(rig.turn(4, 0, 0), Up(10_000));
    assert_eq!(rig.turn(0, 0, 5), Down(400));
    assert_eq!(rig.turn(4, 0, 400), Rest, "found with the last step");
    assert_eq!(rig.position(), 0);
    assert!(rig.unit.is_running());
}

#[test]
fn homing_by_the_greatest_number() {
    let mut rig = Rig::running("Z2147483647");
    assert_eq!(rig.turn(0, 0, 0), Down(2_147_484_047));
    assert_eq!(rig.refused(0, 0, 2_147_484_048), TurnRefusal::Steps);
    assert_eq!(rig.turn(0, 0, 2_147_484_047), Rest);
    assert_eq!(rig.unit.code(), Code::NotFound);
}

#[test]
fn the_flag_turned_and_the_direction_turned() {
    let mut rig = Rig::running("z5f1F1Z9P2D1");
    for _ in 0..3 {
        rig.turn(0, 0, 0);
    }
    assert_eq!(rig.turn(0, 0, 0), Down(10_000));
    assert_eq!(rig.turn(4, 0, 1), Up(409));
    assert_eq!(rig.turn(0, 0, 1), Rest);
    assert_eq!(rig.position(), 0);
    assert_eq!(rig.turn(0, 0, 0), Down(2));
    assert_eq!(rig.turn(0, 0, 2), Rest);
    assert_eq!(rig.position(), 2);
    assert_eq!(rig.turn(0, 0, 0), Up(1));
    assert_eq!(rig.turn(0, 0, 1), Rest);
    assert_eq!(rig.position(), 1);
}

#[test]
fn stop_during_homing() {
    let mut rig = Rig::running("z5Z9");
    rig.turn(0, 0, 0);
    assert_eq!(rig.turn(0, 0, 0), Down(409));
    assert_eq!(rig.status("T"), 0x60);
    assert_eq!(rig.lost(), 5);
    assert_eq!(rig.refused(0, 0, 410), TurnRefusal::Steps);
    assert_eq!(rig.turn(0, 0, 409), Rest);
    assert_eq!(rig.lost(), 5);
}

#[test]
fn the_report_after_a_stop_belongs_to_the_old_action() {
    let mut rig = Rig::running("z5D4");
    rig.step(0);
    assert_eq!(rig.step(0), Down(4));
    rig.status("T");
    assert_eq!(rig.status("P3R"), 0x40);
    assert_eq!(rig.step(4), Up(3));
    assert_eq!(rig.position(), 1);
}

#[test]
fn delays() {
    let mut rig = Rig::running("M0M5M30000z1");
    rig.turn(15, 99, 0);
    rig.turn(15, 99, 0);
    rig.turn(15, 4, 0);
    rig.turn(15, 0, 0);
    rig.turn(15, 1, 0);
    rig.turn(15, u32::MAX, 0);
    rig.turn(15, u32::MAX, 0);
    assert_eq!(rig.position(), 0);
    rig.turn(15, 0, 0);
    assert_eq!(rig.position(), 1);
}

#[test]
fn inputs() {
    let mut rig = Rig::running("H11H01z1");
    rig.turn(1, 0, 0);
    rig.turn(15, 0, 0);
    rig.turn(1, 0, 0);
    rig.turn(14, 0, 0);
    assert_eq!(rig.position(), 0);
    rig.turn(14, 0, 0);
    assert_eq!(rig.position(), 1);
}

#[test]
fn skips() {
    for (sample, position) in [(0, 0), (1, 1), (8, 2), (9, 2)] {
        let mut rig = Rig::running("S01z1S04z2");
        rig.finish(sample);
        assert_eq!(rig.position(), position, "{sample}");
    }
    for (sample, position) in [(0, 2), (15, 0)] {
        let mut rig = Rig::running("S12z1S13z2");
        rig.finish(sample);
        assert_eq!(rig.position(), position, "{sample}");
    }
    let mut rig = Rig::running("S01S02z1z2");
    assert_eq!(rig.finish(0), 1 + 1 + 1 + 1);
    assert_eq!(rig.position(), 2);
}

#[test]
fn loops() {
    for (line, position, turns) in [
        ("gP1G1", 1, 1 + 2 + 1 + 1),
        ("gP1G3", 3, 1 + 3 * 3 + 1),
        ("gG5", 0, 1 + 5 + 1),
        ("ggP1G2G3", 6, 1 + 3 * (1 + 2 * 3 + 1) + 1),
        ("ggggP1G2G2G2G2", 16, 1 + 2 * (1 + 2 * (1 + 2 * (1 + 2 * 3 + 1) + 1) + 1) + 1),
    ] {
        let mut rig = Rig::running(line);
        assert_eq!(rig.finish(15), turns, "{line}");
        assert_eq!(rig.position(), position, "{line}");
    }
    let mut rig = Rig::running("gP1G0");
    for _ in 0..100_000 {
        let steps = rig.unit.greatest_report();
        rig.step(steps);
    }
    assert!(rig.unit.is_running());
    let mut rig = Rig::running("gG30000");
    for _ in 0..30_001 {
        assert!(rig.unit.is_running());
        rig.step(0);
    }
    rig.step(0);
    assert!(!rig.unit.is_running());
}

#[test]
fn programs() {
    let mut rig = Rig::with(&[(3, "z7e4"), (4, "gz8G1")]);
    assert_eq!(rig.status("ge3G0R"), 0x40);
    assert_eq!(rig.finish(15), 1 + 1 + 1 + 1 + 3 + 1);
    assert_eq!(rig.position(), 8);
    assert_eq!(rig.say("$").1, "gz8G1");
    assert_eq!(rig.status("X"), 0x40);
}

#[test]
fn an_empty_slot() {
    let mut rig = Rig::running("e5");
    assert_eq!(rig.step(0), Rest);
    assert!(rig.unit.is_running());
    assert_eq!(rig.unit.text(), b"");
    assert_eq!(rig.step(0), Rest);
    assert!(!rig.unit.is_running());
    assert_eq!(rig.status("Q"), 0x60);
}

#[test]
fn a_bad_slot() {
    for damage in [4 * 5, 4 * 5 + 3, 64 + 256 * 5, 64 + 256 * 5 + 255] {
        let mut rig = Rig::with(&[(5, "z9")]);
        assert_eq!(rig.status("e5R"), 0x40);
        rig.image[damage] ^= 0x40;
        assert_eq!(rig.step(0), Rest);
        assert_eq!(rig.status("Q"), 0x61);
        assert_eq!(rig.say("$").1, "e5");
        assert!(rig.unit.position().known);
    }
    let mut rig = Rig::with(&[(5, "z9")]);
    rig.image[0] ^= 1;
    assert_eq!(rig.status("e5R"), 0x40);
    rig.step(0);
    assert_eq!(rig.unit.text(), b"z9", "the other slots do not matter");
}

#[test]
fn clearing_the_image_in_a_run() {
    let mut rig = Rig::with(&[(1, "z9")]);
    assert_eq!(rig.status("M5e1R"), 0x40);
    rig.step(0);
    assert_eq!(rig.status("?9"), 0x40);
    assert_eq!(rig.image, image::empty());
    assert_eq!(rig.say("$").1, "M5e1");
    rig.finish(15);
    assert_eq!(rig.position(), 0);
    assert_eq!(rig.unit.text(), b"");
}

#[test]
fn the_program_at_start() {
    let mut rig = Rig::with(&[(0, "P5")]);
    rig.unit = drive_model::unit::Unit::start(1, &rig.image).unwrap();
    assert_eq!(rig.status("Q"), 0x40);
    assert_eq!(rig.step(0), Up(5));
}
