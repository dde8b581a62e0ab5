//! The plan program, run as a whole.

mod common;

use std::io::Write;
use std::process::{Command, Output, Stdio};

use common::{T, T_PLAN};

fn run(input: &[u8]) -> Output {
    let mut program = Command::new(env!("CARGO_BIN_EXE_second-plan"))
        .stdin(Stdio::piped())
        .stdout(Stdio::piped())
        .stderr(Stdio::piped())
        .spawn()
        .expect("the program starts");
    let mut stdin = program.stdin.take().expect("standard input is a pipe");
    // The program may stop reading early: a broken pipe is no failure.
    let _ = stdin.write_all(input);
    drop(stdin);
    program.wait_with_output().expect("the program ends")
}

fn assert_writes(input: &[u8], expected: &[u8]) {
    let output = run(input);
    assert!(output.status.success());
    assert_eq!(output.stdout, expected);
    assert!(output.stderr.is_empty());
}

#[test]
fn the_printed_network() {
    assert_writes(T.as_bytes(), T_PLAN.as_bytes());
}

#[test]
fn refusals_are_one_line() {
    assert_writes(b"", b"0f01\n");
    assert_writes(b"0100010000\n", b"0f02\n");
    assert_writes(format!("{T}0").as_bytes(), b"0f01\n");
    assert_writes(T.repeat(1_000).as_bytes(), b"0f01\n");
}

#[test]
fn the_longest_network_and_one_byte_more() {
    let mut rng = second::generate::Rng::new(4);
    let network = second::generate::network(&mut rng, 256);
    let mut text = second::generate::text(&network);
    let plan = second::plan(&text).unwrap();
    assert_writes(&text, &[plan.chain, plan.kept].concat());
    text.push(b'\n');
    assert_writes(&text, b"0f01\n");
}
