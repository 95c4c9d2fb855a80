//! The program's lines, as document 01 prints them for `cutlist`.

use std::io::Write;
use std::process::{Command, Stdio};

/// What the program prints for this log.
fn printed(log: &[u8]) -> String {
    let mut program = Command::new(env!("CARGO_BIN_EXE_second"))
        .stdin(Stdio::piped())
        .stdout(Stdio::piped())
        .spawn()
        .expect("the program starts");
    program.stdin.take().expect("its input").write_all(log).expect("it takes the log");
    let done = program.wait_with_output().expect("it ends");
    assert!(done.status.success());
    String::from_utf8(done.stdout).expect("lines of text")
}

#[test]
fn an_empty_log() {
    assert_eq!(printed(&[]), "cuts 0 bytes 0\n");
}

#[test]
fn seventy_thousand_zeros() {
    assert_eq!(printed(&[0; 70_000]), "65536 65536\n70000 4464\ncuts 2 bytes 70000\n");
}

#[test]
fn each_line_follows_from_the_cuts() {
    let log = noise::Noise::new(13).bytes(100_000);
    let cuts = second::cuts_after(&second::HOUSE, 100_000, &second::marks(&second::HOUSE, &log), 0);
    let before = [&[0], &cuts[..]].concat();
    let lines: String = cuts.iter().zip(before).map(|(cut, before)| format!("{cut} {}\n", cut - before)).collect();
    assert!(cuts.len() > 5);
    assert_eq!(printed(&log), format!("{lines}cuts {} bytes 100000\n", cuts.len()));
}
