//! "Lines at the edges": the cases K1 to K14, with E6's places.

use crate::rig::Rig;
use drive_model::ramp::{figures, Length};

#[test]
fn k1() {
    assert_eq!(Rig::new().frame('1', "A1000R"), [0x2f, 0x30, 0x40, 0x03, 0x0d, 0x0a]);
}

#[test]
fn k2() {
    assert_eq!(Rig::new().frame('1', "?0"), [0x2f, 0x30, 0x60, 0x30, 0x03, 0x0d, 0x0a]);
}

#[test]
fn k3() {
    let mut rig = Rig::new();
    assert_eq!(rig.frame('2', "A1000R"), []);
    assert!(!rig.unit.is_running());
}

#[test]
fn k4() {
    let mut rig = Rig::new();
    assert_eq!(rig.frame('_', "M10R"), []);
    assert!(rig.unit.is_running());
}

#[test]
fn k5() {
    assert_eq!(Rig::new().status("A2147483647R"), 0x40);
    assert_eq!(Rig::new().fault("A2147483648R"), (0x63, 1));
}

#[test]
fn k6() {
    assert_eq!(Rig::new().status("ggggA0G1G1G1G1R"), 0x40);
    assert_eq!(Rig::new().fault("gggggA0G1G1G1G1G1R"), (0x62, 5));
}

#[test]
fn k7() {
    assert_eq!(Rig::new().fault("G1R"), (0x62, 1));
}

#[test]
fn k8() {
    assert_eq!(Rig::new().fault("gS03G2R"), (0x62, 2));
    assert_eq!(Rig::new().status("gA0S03e0G0R"), 0x40);
}

#[test]
fn k9() {
    let mut rig = Rig::running("M10");
    assert_eq!(rig.status("A0R"), 0x4f);
}

#[test]
fn k10() {
    let mut rig = Rig::new();
    let (consumed, answer) = rig.feed(b"/1/1Q\r");
    assert_eq!(consumed, 6);
    assert_eq!(answer, [0x2f, 0x30, 0x60, 0x03, 0x0d, 0x0a]);
}

#[test]
fn k11() {
    for body in ["j3R", "L0R", "V0R"] {
        assert_eq!(Rig::new().fault(body), (0x63, 1));
    }
}

#[test]
fn k12() {
    let mut rig = Rig::new();
    assert_eq!(rig.status("D1R"), 0x40);
    rig.step(0);
    assert_eq!(rig.status("Q"), 0x6b);
}

#[test]
fn k13() {
    let mut rig = Rig::running("gP5gD1G2G3");
    rig.finish(15);
    assert_eq!(rig.position(), 9);
    assert_eq!(rig.status("Q"), 0x60);
}

#[test]
fn k14() {
    let finite = |v, l, n| figures(v, l, Length::Finite(n)).unwrap();
    assert_eq!(finite(305_175, 1000, 15_259).peak, 305_175);
    assert_eq!(finite(305_175, 1000, 15_259).distance, 7629);
    assert_eq!(finite(305_175, 1000, 15_258).peak, 305_167);
    assert_eq!(finite(305_175, 1000, 1).peak, 2470);
    assert_eq!(finite(305_175, 1, 1).peak, 78);
}
