//! The programs: `compare` run on `model`, as it is and broken on purpose.

use std::io::{BufRead, BufReader, Write};
use std::process::{Command, Output, Stdio};

fn compare(arguments: &[&str], broken: bool) -> Output {
    let mut command = Command::new(env!("CARGO_BIN_EXE_compare"));
    command.args(arguments);
    if broken {
        command.env("MODEL_BROKEN", "1");
    }
    command.output().unwrap()
}

#[test]
fn the_model_agrees_with_itself() {
    let output = compare(&[env!("CARGO_BIN_EXE_model"), "7", "200000"], false);
    let text = String::from_utf8(output.stdout).unwrap();
    assert!(output.status.success(), "{text}");
    assert!(text.ends_with("200000 passed, 0 failed\n"), "{text}");
}

#[test]
fn a_broken_model_is_found_and_the_script_is_short() {
    let output = compare(&[env!("CARGO_BIN_EXE_model"), "7", "200000"], true);
    let text = String::from_utf8(output.stdout).unwrap();
    assert_eq!(output.status.code(), Some(1), "{text}");
    let lines: Vec<&str> = text.lines().collect();
    assert!(text.contains("        model:   act down 10000\n        program: act up 10000\n"), "{text}");
    assert!(lines[lines.len() - 1].ends_with(" passed, 1 failed"), "{text}");
    let count: usize = lines[2].split(' ').nth(3).unwrap().parse().unwrap();
    assert!(count <= 15, "{text}");
}

#[test]
fn too_few_operations_for_all_kinds() {
    let output = compare(&[env!("CARGO_BIN_EXE_model"), "1", "10"], false);
    let text = String::from_utf8(output.stdout).unwrap();
    assert_eq!(output.status.code(), Some(1));
    assert!(text.contains("ramp: refused N did not occur"), "{text}");
}

#[test]
fn words_for_the_program() {
    let output = compare(&["env", "1", "10", "MODEL_BROKEN=1", env!("CARGO_BIN_EXE_model")], false);
    let text = String::from_utf8(output.stdout).unwrap();
    assert!(text.contains("\n10 passed, "), "{text}");
}

#[test]
fn a_status_that_is_not_0() {
    let script = format!("{}; exit 3", env!("CARGO_BIN_EXE_model"));
    let output = compare(&["sh", "1", "10", "-c", &script], false);
    let text = String::from_utf8(output.stdout).unwrap();
    assert_eq!(output.status.code(), Some(1), "{text}");
    assert!(text.starts_with("seed 1\ndisagreement at operation 10 (seed 1)\n"), "{text}");
    assert!(text.contains("program, too: (exit status: 3)"), "{text}");
}

#[test]
fn words_behind_a_question_mark() {
    let script = format!("{} | sed 's/^? .*/? for another reason/'", env!("CARGO_BIN_EXE_model"));
    let output = compare(&["sh", "1", "2000", "-c", &script], false);
    let text = String::from_utf8(output.stdout).unwrap();
    assert!(text.contains("\n2000 passed, "), "{text}");
}

#[test]
fn arguments_that_cannot_be_used() {
    assert_eq!(compare(&[], false).status.code(), Some(2));
    assert_eq!(compare(&["./no such program"], false).status.code(), Some(2));
    assert_eq!(compare(&[env!("CARGO_BIN_EXE_model"), "x"], false).status.code(), Some(2));
}

#[test]
fn the_model_answers_at_once() {
    let mut child = Command::new(env!("CARGO_BIN_EXE_model"))
        .stdin(Stdio::piped())
        .stdout(Stdio::piped())
        .spawn()
        .unwrap();
    let mut input = child.stdin.take().unwrap();
    let mut output = BufReader::new(child.stdout.take().unwrap());
    for (operation, expected) in [("start 1\n", "started\n"), ("/1?0\r\n", "idle 0 0\n")] {
        input.write_all(operation.as_bytes()).unwrap();
        let mut line = String::new();
        output.read_line(&mut line).unwrap();
        assert_eq!(line, expected);
    }
    drop(input);
    assert!(child.wait().unwrap().success());
}
