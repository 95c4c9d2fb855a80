//! The gate's last line and status, with stand-ins for the kit and for cargo.

use std::os::unix::fs::PermissionsExt;
use std::path::{Path, PathBuf};
use std::process::Command;

fn here(path: &str) -> PathBuf {
    Path::new(env!("CARGO_MANIFEST_DIR")).join(path)
}

/// The lines that the gate prints, and whether it ends with status 0, where the kit says this and ends with that status, and
/// cargo with the other.
fn gate(rt_says: &str, rt_status: u8, cargo_status: u8) -> (Vec<String>, bool) {
    // The gate must not start the true ones, which would start this test again.
    for stand_in in ["tests/gate/rt", "tests/gate/cargo"] {
        let about = here(stand_in).metadata().unwrap_or_else(|error| panic!("{stand_in}: {error}"));
        assert!(about.permissions().mode() & 0o111 == 0o111, "{stand_in} cannot be run");
    }
    let run = Command::new(here("../../.ci/run"))
        .env("PATH", format!("{}:/usr/bin:/bin", here("tests/gate").display()))
        .env("RT_SAYS", rt_says)
        .env("RT_STATUS", rt_status.to_string())
        .env("CARGO_STATUS", cargo_status.to_string())
        .output()
        .expect("the gate starts");
    let lines = String::from_utf8(run.stdout).expect("lines of text");
    (lines.lines().map(str::to_string).collect(), run.status.success())
}

/// The gate's last line and whether its status is 0.
fn verdict(rt_says: &str, rt_status: u8, cargo_status: u8) -> (String, bool) {
    let (mut lines, success) = gate(rt_says, rt_status, cargo_status);
    (lines.pop().expect("a last line"), success)
}

#[test]
fn what_passed_is_counted_with_the_host_tests_as_one() {
    let (lines, success) = gate("rt: laws proved\n120 passed, 0 failed", 0, 0);
    let shown =
        ["rt: laws proved", "120 passed, 0 failed", "in host: test --release --offline", "121 passed, 0 failed"];
    assert_eq!((&lines[..], success), (&shown.map(str::to_string)[..], true));
}

#[test]
fn failed_host_tests_are_counted() {
    assert_eq!(verdict("120 passed, 0 failed", 0, 101), ("120 passed, 1 failed".to_string(), false));
    assert_eq!(verdict("118 passed, 2 failed", 1, 101), ("118 passed, 3 failed".to_string(), false));
}

#[test]
fn failures_of_the_kit_are_counted() {
    assert_eq!(verdict("118 passed, 2 failed", 1, 0), ("119 passed, 2 failed".to_string(), false));
    assert_eq!(verdict("118 passed, 2 failed", 0, 0), ("119 passed, 2 failed".to_string(), false));
    assert_eq!(verdict("120 passed, 0 failed", 3, 0), ("121 passed, 1 failed".to_string(), false));
}

#[test]
fn a_kit_that_ends_without_its_counts_has_failed() {
    let last_lines = [
        "",
        "120 passed, 0 failed\nkilled",
        "rt: 120 passed, 0 failed",
        "120 passed, 0 failed, 3 skipped",
        "120 passed, 0 failed (laws and the crates below alone: not the gate)",
    ];
    for says in last_lines {
        for status in [0, 137] {
            assert_eq!(verdict(says, status, 0), ("1 passed, 1 failed".to_string(), false), "{says}, {status}");
        }
    }
}

/// What the kit says of a run that passed with such edits.
fn with_edits(edits: &str) -> String {
    format!(
        "rt: ok; handles allowed: none{edits}; every proof and must-fail edit was done in this run\n120 passed, 0 failed"
    )
}

#[test]
fn bad_edits_are_failures() {
    for edits in ["", "; must-fail edits: 90 refused", "; must-fail edits: 90 refused, 2 of them only by a limit"] {
        assert_eq!(verdict(&with_edits(edits), 0, 0), ("121 passed, 0 failed".to_string(), true), "{edits}");
    }
    for (edits, failed) in [
        ("; must-fail edits: 90 refused, 2 bad", 2),
        ("; must-fail edits: 0 refused, 12 bad", 12),
        ("; must-fail edits: 90 refused, 2 of them only by a limit, 1 bad", 1),
    ] {
        assert_eq!(verdict(&with_edits(edits), 0, 0), (format!("121 passed, {failed} failed"), false), "{edits}");
    }
    assert_eq!(verdict(&with_edits("; must-fail edits: 90 refused, 2 bad"), 1, 101).0, "120 passed, 4 failed");
}
