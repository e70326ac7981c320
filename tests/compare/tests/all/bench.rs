//! The bench's language.

use drive_model::bench::Bench;

fn answers(script: &[&str]) -> Vec<String> {
    let mut bench = Bench::new();
    let answer = |line: &&str| {
        let mut answer = Vec::new();
        bench.answer(line.as_bytes(), &mut answer);
        String::from_utf8(answer).unwrap()
    };
    script.iter().map(answer).collect()
}

#[track_caller]
fn check(script: &[(&str, &str)]) {
    let operations: Vec<&str> = script.iter().map(|(operation, _)| *operation).collect();
    for ((operation, expected), found) in script.iter().zip(answers(&operations)) {
        assert_eq!(found, *expected, "{operation}");
    }
}

#[test]
fn the_example() {
    check(&[
        ("start 1", "started"),
        ("/1A1000R", "busy 0"),
        ("turn 15 1 0", "act up 1000"),
        ("turn 15 1 1000", "act none"),
        ("turn 15 1 0", "act none"),
        ("/1?0", "idle 0 1000"),
    ]);
}

#[test]
fn without_a_unit() {
    check(&[
        ("feed 2f31510d", "no unit"),
        ("turn 15 0 0", "no unit"),
        ("unit", "no unit"),
        ("/1Q", "no unit"),
        ("start 0", "refused unit-number"),
        ("unit", "no unit"),
        ("feed zz", "? not a hex digit"),
        ("turn 256 0 0", "? a number is too great"),
    ]);
}

#[test]
fn a_fresh_unit() {
    check(&[
        ("start 2", "started"),
        (
            "unit",
            "unit idle code=0 position=0 known=1 V=305175 L=1000 j=256 o=1500 m=25 h=10 f=0 F=0 J=0 baud=9600 \
             sample=15 last=- speed=0 text=-",
        ),
        ("/2H", "idle 0"),
        ("/2$", "idle 0 H"),
        ("/1$", "-"),
        ("/_X", "-"),
        (
            "unit",
            "unit running code=0 position=0 known=1 V=305175 L=1000 j=256 o=1500 m=25 h=10 f=0 F=0 J=0 baud=9600 \
             sample=15 last=- speed=0 text=48",
        ),
        ("/2A5R", "busy 15"),
        ("/2Q\r/2$", "busy 0"),
    ]);
}

#[test]
fn feeds_and_turns() {
    check(&[
        ("start 1", "started"),
        ("feed 2F31510d2f31510d", "fed 4 2f3060030d0a"),
        ("feed 2f31", "fed 2 -"),
        ("feed -", "fed 0 -"),
        ("feed 510D", "fed 2 2f3060030d0a"),
        ("turn 16 0 1", "refused sample"),
        ("turn 15 0 1", "refused steps"),
        ("room 261", "room 261"),
        ("/1Q", "refused buffer"),
        ("image -", "image 0"),
        ("feed -", "refused buffer"),
        ("room 262", "room 262"),
        ("feed -", "refused image-length"),
        ("turn 16 0 1", "refused image-length"),
        ("store", "store -"),
        ("start 17", "refused unit-number"),
        ("start 1", "refused image-length"),
        ("image empty", "image 4160"),
        ("/1Q", "idle 0"),
    ]);
}

#[test]
fn a_refused_start_leaves_the_unit() {
    let bad = format!("image {}", "00".repeat(4160));
    check(&[
        ("start 1", "started"),
        ("/1z5R", "busy 0"),
        (&bad, "image 4160"),
        ("start 2", "refused image-bad"),
        ("turn 15 0 0", "act none"),
        ("/1?0", "busy 0 5"),
    ]);
}

#[test]
fn calls_without_a_unit() {
    check(&[
        ("line -", "line 0"),
        ("line 41", "line 3 1"),
        ("line 61", "line 2 1"),
        ("text -", "text ok"),
        ("text 52", "text bad"),
        ("ramp 305175 1000 1", "ramp 2470 0 40a34c0000000000 4157487300000000 3f3a85806e460887"),
        ("ramp 0 0 0", "refused V"),
        ("ramp 1 0 0", "refused L"),
        ("ramp 1 1 0", "refused N"),
        ("ramp 1 1 endless", "ramp 1 0 3ff0000000000000 40b7d78000000000 3f2579927c8779f3"),
        ("write - R g - P 5 H 02 G 3", "wrote 675035483032473352"),
        ("write - -", "wrote -"),
        ("write 3 -", "refused 2 3"),
        ("write 16 R", "refused 3 1"),
        ("write - R A 007", "wrote 413752"),
        ("room 1", "room 1"),
        ("write - R A 7", "refused buffer"),
        ("write - R", "wrote 52"),
        ("read 2f3060030d0a", "packet 60 -"),
        ("read 2f304f41030d0a", "packet 4f 41"),
        ("read -", "refused packet"),
    ]);
}

#[test]
fn the_answer_buffer() {
    let blank = |count: usize| format!("buffer {}", "a5".repeat(count));
    check(&[
        ("buffer", &blank(262)),
        ("room 8", "room 8"),
        ("write - R A 7", "wrote 413752"),
        ("buffer", "buffer 413752a5a5a5a5a5"),
        ("write - R A 12345678", "refused buffer"),
        ("write - R L 0", "refused 3 1"),
        ("buffer", "buffer 413752a5a5a5a5a5"),
        ("room 4", "room 4"),
        ("buffer", &blank(4)),
        ("room 0", "room 0"),
        ("buffer", "buffer -"),
        ("room 262", "room 262"),
        ("start 1", "started"),
        ("/1Q", "idle 0"),
        ("buffer", &format!("buffer 2f3060030d0a{}", "a5".repeat(256))),
    ]);
}

#[test]
fn runs() {
    check(&[
        ("run 15 1", "no unit"),
        ("start 1", "started"),
        ("run 15 1", "ran 0 idle 0"),
        ("run 16 1", "refused sample"),
        ("/1gP5gD1G2G3R", "busy 0"),
        ("run 15 1", "ran 32 idle 0"),
        ("/1?0", "idle 0 9"),
        ("/1gG1200R", "busy 0"),
        ("run 15 1", "ran 1202 idle 0"),
        ("/1H02P1R", "busy 0"),
        ("run 15 1", "ran 1 waits"),
        ("run 15 1", "ran 0 waits"),
        ("run 13 1", "ran 4 idle 0"),
        ("/1gG0R", "busy 0"),
        ("run 15 1", "ran 100000 busy"),
        ("image -", "image 0"),
        ("run 16 1", "refused image-length"),
        ("run 15", "? a field is missing"),
        ("run 15 1 0", "? a field too many"),
    ]);
}

#[test]
fn a_timeline() {
    let script = ["start 1", "/1F1M2P3Z4R", "timeline 15 1"];
    let told = "\
turn 1: at 1 F1, position 0, wait none, act none
turn 2: at 3 M2, position 0, wait delay 2, act none
turn 3: at 5 -, position 0, wait delay 1, act none
turn 4: at 5 -, position 0, wait none, act none
turn 5: at 5 P3, position 0, wait move 3, act down 3
turn 6: at 7 -, position 3, wait none, act none
turn 7: at 7 Z4, position 3, wait away 10000, act down 10000
turn 8: at 9 -, position 3?, wait none, act none
ran 8 idle 1";
    assert_eq!(answers(&script)[2], told);
    let script = ["start 1", "/1P0D0H14R", "timeline 15 1", "timeline 7 1", "/1T", "/1H14R", "timeline 7 1"];
    let found = answers(&script);
    assert_eq!(
        found[2].lines().next(),
        Some("turn 1: at 1 P0, position 0, wait endless 2147483647, act up 2147483647")
    );
    assert!(found[2].ends_with("\nran 2 idle 11"));
    assert_eq!(found[6], "turn 1: at 1 H14, position 2147483647, wait input 14, act none\nran 1 waits");
}

#[test]
fn help() {
    let lines = answers(&["help"]).concat();
    assert_eq!(lines.lines().count(), 24);
    assert!(lines.lines().all(|line| line.contains(" : ")));
}

#[test]
fn line_ends() {
    const NO_SUCH: &str = "? no such operation";
    assert_eq!(answers(&["start 1\r", "unit\r\r", "\r", ""]), ["started", NO_SUCH, NO_SUCH, NO_SUCH]);
}
