//! Listening on the bus (paper 02, E10).

use drive_model::bench::{with_hex, Bench};
use drive_model::packet::checksum;

/// The lines that `listen` answers for these bytes.
fn heard(bytes: &[u8]) -> Vec<String> {
    let mut answer = Vec::new();
    Bench::new().answer(&with_hex("listen", bytes), &mut answer);
    let answer = String::from_utf8(answer).unwrap();
    let lines: Vec<String> = answer.strip_prefix("heard ").unwrap().split("; ").map(String::from).collect();
    assert_eq!(lines.len(), 16);
    lines
}

/// These lines are heard, and of all other units nothing.
#[track_caller]
fn check(bytes: &[u8], expected: &[&str]) {
    let silent = |unit: usize| format!("{unit} 0 0 --");
    for (unit, line) in (1..).zip(heard(bytes)) {
        let told = expected.iter().find(|told| told.starts_with(&format!("{unit} ")));
        assert_eq!(line, told.map_or(silent(unit), |told| told.to_string()), "{}", bytes.escape_ascii());
    }
}

/// Bytes from 02 to 03, with their checksum.
fn oem(bytes: &[u8]) -> Vec<u8> {
    [bytes, &[checksum(bytes)]].concat()
}

/// A frame of unit 1, then an answer in either framing.
fn answered(status: u8, data: &[u8]) -> [Vec<u8>; 2] {
    let plain = [&b"/1\r/0"[..], &[status], data, b"\x03\r\n"].concat();
    [plain, [b"/1\r".to_vec(), oem(&[&b"\x020"[..], &[status], data, b"\x03"].concat())].concat()]
}

#[test]
fn the_papers_example() {
    check(b"/1Q\r\x2f\x30\x60\x03\x0d\x0a", &["1 1 1 60"]);
    check(b"", &[]);
    assert_eq!(heard(b"")[15], "16 0 0 --");
}

#[test]
fn each_unit() {
    for unit in 1..=16 {
        let line = format!("{unit} 2 1 4F");
        let frame = oem(&[0x02, 0x30 + unit, 0x3f, b'Q', 0x03]);
        check(&[&[b'/', 0x30 + unit, b'\r'], &frame[..], b"/0\x4f\x03\r"].concat(), &[&line]);
    }
}

#[test]
fn frames_that_count() {
    check(b"/1\r/1Q\r/1no line\r/1\n\x03\x80\r", &["1 4 0 --"]);
    check(&[b"/2", &[b'R'; 300][..], b"\r"].concat(), &["2 1 0 --"]);
    check(&[oem(b"\x0211P5R\x03"), oem(b"\x0219P5R\x03"), oem(b"\x0210\r\n\x03")].concat(), &["1 3 0 --"]);
    check(&oem(&[&b"\x02@8"[..], &[b'R'; 300], b"\x03"].concat()), &["16 1 0 --"]);
}

#[test]
fn frames_that_do_not_count() {
    // Groups, nobody, not finished, dropped, CR in the address place.
    check(b"/AQ\r/QQ\r/_Q\r/BQ\r/\xb1Q\r/1Q/\x02", &[]);
    check(&[oem(b"\x02A1Q\x03"), oem(b"\x02_1Q\x03")].concat(), &[]);
    check(b"/\r1Q\r", &[]);
    check(b"1Q\r\x03", &[]);
    check(b"/1Q\x02\r", &[]);
}

#[test]
fn skipped_frames() {
    // A wrong checksum; a sequence byte outside 30 to 3F, with the right one.
    check(b"\x0211Q\x03\x51", &[]);
    for sequence in [0x2e, 0x40, 0x60, 0xb1, 0x00, b'\r'] {
        check(&oem(&[0x02, b'1', sequence, b'Q', 0x03]), &[]);
    }
    // An answer does not belong to them.
    check(b"/2\r\x0211Q\x03\x51/0\x60\x03\r", &["2 1 1 60"]);
    check(&[b"/2\r", &oem(b"\x021@Q\x03")[..], b"/0\x60\x03\r"].concat(), &["2 1 1 60"]);
}

#[test]
fn the_checksum_place() {
    // Checksums of 2F and 02 that are right, and what would be a frame if they began one.
    check(b"\x0211.\x03/1Q\r", &["1 1 0 --"]);
    check(b"\x0212\x03\x0211Q\x03\x50", &["1 1 0 --"]);
    // Wrong ones; of frames to others and of answers, too.
    for head in [
        &b"\x0211Q\x03"[..],
        b"\x02A1Q\x03",
        b"\x02~1Q\x03",
        b"\x021@\x03",
        b"\x020\x60\x03",
        b"\x020\x00\x03",
    ] {
        check(&[head, b"/1Q\r"].concat(), &[]);
        check(&[head, b"\x0211Q\x03\x50"].concat(), &[]);
        check(&[head, b"\x03/1Q\r"].concat(), &["1 1 0 --"]);
    }
}

#[test]
fn a_03_too_early() {
    check(b"\x02\x03/1\r", &["1 1 0 --"]);
    check(b"\x021\x03/1\r", &["1 1 0 --"]);
    check(b"/2\r\x020\x03/1\r", &["1 1 0 --", "2 1 0 --"]);
    check(b"/1\r/0\x03\r/0\x60\x03\r", &["1 1 1 60"]);
}

#[test]
fn whose_answer_it_is() {
    let answer = b"/0\x60\x03\r\n";
    check(answer, &[]);
    check(&[&answer[..], b"/1\r"].concat(), &["1 1 0 --"]);
    check(&[b"/_Q\r", &answer[..]].concat(), &[]);
    check(&[b"/3\r/_Q\r/A\r/0Q\r", &answer[..], answer].concat(), &["3 1 2 60"]);
    check(b"/3\r/4\r/0\x60\x03\r/3\r/0\x41\x03\r", &["3 2 1 41", "4 1 1 60"]);
    // Whatever the frame's framing was.
    check(&[b"/1\r".to_vec(), oem(b"\x020\x6b12\x03")].concat(), &["1 1 1 6B"]);
    check(&[oem(b"\x0251\x03"), b"/0\x4312\x03\r".to_vec()].concat(), &["5 1 1 43"]);
}

#[test]
fn a_plain_answer_counts_at_its_cr() {
    check(b"/1\r/0\x60\x03", &["1 1 0 --"]);
    check(b"/1\r/0\x60\x03\r", &["1 1 1 60"]);
    check(b"/1\r/0\x60\x03\r/0\x40\x03\rx", &["1 1 2 40"]);
    for broken in [
        &b"/0\x60\r"[..],
        b"/0\x60\x03\n\r",
        b"/0\x60\x03\x03\r",
        b"/0\x60\x03 \r",
        b"/0\r",
        b"/0\x60\r\x03\r",
    ] {
        check(&[b"/1\r", broken].concat(), &["1 1 0 --"]);
    }
}

#[test]
fn statuses() {
    for status in 0..=255u8 {
        let good = status & 0xd0 == 0x40;
        let line = if good { format!("1 1 1 {status:02X}") } else { "1 1 0 --".to_string() };
        answered(status, b"").iter().for_each(|bytes| check(bytes, &[&line]));
    }
    // A broken answer leaves the status.
    check(b"/1\r/0\x6f\x03\r/0\x70\x03\r", &["1 1 1 6F"]);
}

#[test]
fn data() {
    for byte in 0..=255u8 {
        let good = (0x20..=0x7e).contains(&byte) && byte != b'/';
        let line = if good { "1 1 1 60" } else { "1 1 0 --" };
        // A CR ends a plain answer, a 03 an OEM one; a second 03 is no data.
        answered(0x60, &[b'1', byte, b'z']).iter().for_each(|bytes| check(bytes, &[line]));
    }
    for (length, line) in
        [(0, "1 1 1 60"), (255, "1 1 1 60"), (256, "1 1 1 60"), (257, "1 1 0 --"), (600, "1 1 0 --")]
    {
        answered(0x60, &vec![b'~'; length]).iter().for_each(|bytes| check(bytes, &[line]));
    }
}

#[test]
fn an_answer_within_an_answer() {
    check(b"/1\r/0\x6012/0\x4134\x03\r", &["1 1 1 41"]);
    check(b"/1\r/0\x6012/2\x03\r/0\x60\x03\r", &["1 1 0 --", "2 1 1 60"]);
    check(&[&b"/1\r/0\x60"[..], &oem(b"\x020\x42\x03"), b"\x03\r"].concat(), &["1 1 1 42"]);
}

#[test]
fn counts_over_a_byte() {
    check(&b"/7\r/0\x60\x03\r".repeat(300), &["7 300 300 60"]);
}

#[test]
fn the_table_is_fresh_and_nothing_else_changes() {
    let mut bench = Bench::new();
    let mut told = |operation: &str| {
        let mut answer = Vec::new();
        bench.answer(operation.as_bytes(), &mut answer);
        String::from_utf8(answer).unwrap()
    };
    let silent: Vec<String> = (1..=16).map(|unit| format!("{unit} 0 0 --")).collect();
    assert!(told("listen 2f31510D").starts_with("heard 1 1 0 --; 2 0 0 --; "));
    assert_eq!(told("listen -"), format!("heard {}", silent.join("; ")));
    assert_eq!(told("start 1"), "started");
    let before = told("unit");
    told("listen 2f315635520d");
    assert_eq!(told("unit"), before);
    for unreadable in ["listen", "listen ", "listen 2", "listen zz", "listen 2f 31", "Listen -"] {
        assert!(told(unreadable).starts_with("? "), "{unreadable}");
    }
}
