//! The C header: a C program is compiled with it, linked with the library and run.

use std::fs;
use std::mem::{offset_of, size_of};
use std::path::{Path, PathBuf};
use std::process::Command;
use thrunglow::raw::{Amendment, Outcome, Passed, Reading};
use thrunglow::{Carry, Settings};

/// The host folder, where the header is.
fn host() -> PathBuf {
    Path::new(env!("CARGO_MANIFEST_DIR")).join("..")
}

/// Compiles a C program and gives what it prints. The compiler is the `cc` that rustc links with.
fn printed(name: &str, source: &Path) -> String {
    let program = Path::new(env!("CARGO_TARGET_TMPDIR")).join(name);
    let compiled = Command::new("cc")
        .args(["-std=c11", "-Wall", "-Wextra", "-Werror", "-O1", "-I"])
        .args([
            &host(),
            source,
            Path::new(env!("THRUNGLOW_ARCHIVE")),
            Path::new("-lpthread"),
            Path::new("-o"),
            &program,
        ])
        .output()
        .expect("cc starts");
    assert!(compiled.status.success(), "{}", String::from_utf8_lossy(&compiled.stderr));
    let run = Command::new(&program).output().expect("the program starts");
    assert!(run.status.success(), "{name} ended with {}", run.status);
    String::from_utf8(run.stdout).expect("lines of text")
}

/// The lines that the C program prints of a struct's layout.
macro_rules! layout {
    ($type:ident: $($part:ident)*) => {
        [
            format!("{} {}\n", stringify!($type), size_of::<$type>()),
            $(format!("{}.{} {}\n", stringify!($type), stringify!($part), offset_of!($type, $part)),)*
        ]
        .concat()
    };
}

const CALLS: &str = "\
cut_log: number 0, 4: 100 200 300 400
cut_log, short room: number 5, 0:
cut_log, empty: number 0, 0:
fresh: number 0, 0:
block: number 0, 2: 100 200
block: number 0, 1: 300
close: number 0, 1: 400
close again: number 4, 0:
close, neither open nor closed: number 3, 0:
block, its settings wrong too: number 1, 0:
segment 2: number 0, 2: 1 0
record 1: number 0, 4: 3 300 200 300
merge too early: number 8, 0:
segment 0: number 0, 3: 2 0 100
merge: number 0, 4: 100 200 300 400
write_sheet: number 0, 64: 6C8BA6A8
label P, settings 31 1 48 200
read_sheet: number 0, 4: 100 200 300 400
read_sheet as live: number 15, 0:
counts 1 1 3
amend: number 0, 5: 100 151 201 301 401
";

#[test]
fn the_header_lays_structs_out_and_calls_as_the_wrapper_does() {
    let printed = printed("calls", &host().join("thrunglow/tests/calls.c"));
    let layouts = [
        layout!(Settings: bits target minimum maximum),
        layout!(Carry: settings taken since window signature closed),
        layout!(Outcome: number count),
        layout!(Passed: number count carry),
        layout!(Amendment: number front recut back),
        layout!(Reading: number label settings count),
    ];
    assert_eq!(printed, layouts.concat() + CALLS);
}

/// The blocks of the handbook in this language, each with the block of text that follows it.
fn handbook_programs(language: &str) -> Vec<(String, String)> {
    let handbook = fs::read_to_string(host().join("../docs/HANDBOOK.md")).expect("the handbook");
    let blocks: Vec<&str> = handbook.split("```").skip(1).step_by(2).collect();
    let says = |block: &str| block.split_once('\n').map(|(kind, text)| (kind.to_string(), text.to_string()));
    let blocks: Vec<(String, String)> = blocks.into_iter().filter_map(says).collect();
    let followed = blocks.windows(2).filter(|pair| pair[0].0 == language && pair[1].0 == "text");
    followed.map(|pair| (pair[0].1.clone(), pair[1].1.clone())).collect()
}

#[test]
fn the_handbooks_c_programs_print_what_it_says() {
    let programs = handbook_programs("c");
    assert!(!programs.is_empty(), "the handbook has a C program and what it prints");
    for (k, (program, expected)) in programs.into_iter().enumerate() {
        let source = Path::new(env!("CARGO_TARGET_TMPDIR")).join(format!("handbook{k}.c"));
        fs::write(&source, program).expect("the program is stored");
        assert_eq!(printed(&format!("handbook{k}"), &source), expected);
    }
}
