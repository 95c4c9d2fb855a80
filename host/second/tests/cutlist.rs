//! The program `cutlist` as a user runs it: the list of the second program for the same log, and never a list with a hole that
//! looks whole.

use noise::Noise;
use std::env;
use std::fs::{self, File};
use std::io::{BufRead, BufReader, Write};
use std::os::fd::OwnedFd;
use std::os::unix::fs::symlink;
use std::os::unix::net::UnixStream;
use std::path::{Path, PathBuf};
use std::process::{self, Child, Command, Output, Stdio};
use std::sync::OnceLock;
use std::thread;
use std::time::Duration;

/// The script, once its program is built.
fn script() -> &'static Path {
    static BUILT: OnceLock<PathBuf> = OnceLock::new();
    BUILT.get_or_init(|| {
        let script =
            Path::new(env!("CARGO_MANIFEST_DIR")).join("../../cutlist").canonicalize().expect("the script is there");
        let run = Command::new(&script).stdin(Stdio::null()).output().expect("the script starts");
        assert_eq!(text(&run.stdout), "cuts 0 bytes 0\n", "{}", text(&run.stderr));
        script
    })
}

fn cutlist() -> Command {
    Command::new(script())
}

/// The script started by a shell that does something first.
fn cutlist_after(first: &str) -> Command {
    let mut shell = Command::new("sh");
    shell.arg("-c").arg(format!("{first} exec \"$0\"")).arg(script());
    shell
}

/// A place for a file that no other test uses.
fn place(name: &str) -> PathBuf {
    Path::new(env!("CARGO_TARGET_TMPDIR")).join(name)
}

/// The log in a file, opened.
fn stored(name: &str, log: &[u8]) -> File {
    fs::write(place(name), log).expect("the log is stored");
    File::open(place(name)).expect("the log")
}

fn text(bytes: &[u8]) -> String {
    String::from_utf8_lossy(bytes).into_owned()
}

/// What a program prints for a log.
fn printed(mut program: Command, log: File) -> Vec<u8> {
    let run = program.stdin(log).output().expect("the program starts");
    assert!(run.status.success() && run.stderr.is_empty(), "{}", text(&run.stderr));
    run.stdout
}

/// What the second program prints for a log.
fn expected(name: &str, log: &[u8]) -> Vec<u8> {
    printed(Command::new(env!("CARGO_BIN_EXE_second")), stored(name, log))
}

fn started(mut program: Command) -> Child {
    program.stdin(Stdio::piped()).stdout(Stdio::piped()).stderr(Stdio::piped()).spawn().expect("the program starts")
}

/// A run whose list is not whole says so, ends with a status above 0 and prints no last line.
fn assert_not_whole(run: &Output, why: &str) {
    assert_eq!(text(&run.stderr), format!("cutlist: {why}\n"));
    assert_eq!(run.status.code(), Some(1));
    assert!(!text(&run.stdout).contains("cuts"));
}

#[test]
fn the_two_programs_print_the_same() {
    let mut noise = Noise::new(1);
    let mut logs =
        vec![vec![], vec![7], vec![0; 70_000], vec![0; 2 * 65_536], noise.bytes(300_000), noise.bytes(10_000_000)];
    for length in [47, 48, 2_047, 2_048, 2_049, 65_535, 65_536, 65_537, 131_073] {
        logs.push(noise.log(length));
    }
    for log in logs {
        let expected = expected("log", &log);
        assert!(printed(cutlist(), stored("log", &log)) == expected, "a log of {} bytes", log.len());
    }
}

#[test]
fn a_short_read_is_not_the_end() {
    let mut noise = Noise::new(2);
    let log = noise.bytes(400_000);
    let mut run = started(cutlist());
    let mut input = run.stdin.take().expect("its input");
    let mut rest = &log[..];
    while !rest.is_empty() {
        let dribble = (noise.between(1, 9_000) as usize).min(rest.len());
        input.write_all(&rest[..dribble]).expect("it takes the bytes");
        rest = &rest[dribble..];
        thread::sleep(Duration::from_micros(300));
    }
    drop(input);
    let done = run.wait_with_output().expect("it ends");
    assert!(done.status.success() && done.stderr.is_empty());
    assert_eq!(text(&done.stdout), text(&expected("dribbles", &log)));
}

#[test]
fn lines_come_while_the_log_is_read() {
    let log = Noise::new(3).bytes(70_000);
    let mut run = started(cutlist());
    run.stdin.as_mut().expect("its input").write_all(&log).expect("it takes the log");
    let mut first = String::new();
    BufReader::new(run.stdout.as_mut().expect("its output"))
        .read_line(&mut first)
        .expect("a line, with the log still open");
    assert!(text(&expected("open", &log)).starts_with(&first));
    assert!(run.wait().expect("it ends").success());
}

#[test]
fn a_full_device_is_told() {
    let full = File::options().write(true).open("/dev/full").expect("/dev/full");
    let run = cutlist().stdin(stored("full", &Noise::new(4).bytes(200_000))).stdout(full).output().expect("it starts");
    assert_not_whole(&run, "cannot write: No space left on device");
}

#[test]
fn a_count_line_that_cannot_be_written_is_told() {
    let full = File::options().write(true).open("/dev/full").expect("/dev/full");
    let run = cutlist().stdin(Stdio::null()).stdout(full).output().expect("it starts");
    assert_not_whole(&run, "cannot write: No space left on device");
}

#[test]
fn a_file_that_takes_only_a_part_is_told() {
    let log = Noise::new(5).bytes(3_000_000);
    let list = File::create(place("part-list")).expect("a file");
    let mut limited = cutlist_after("trap '' XFSZ; ulimit -f 1;");
    let run = limited.stdin(stored("part", &log)).stdout(list).output().expect("it starts");
    assert_not_whole(&run, "cannot write: File too large");
    let part = fs::read(place("part-list")).expect("what was written");
    assert!(!part.is_empty() && expected("part", &log).starts_with(&part) && !text(&part).contains("cuts"));
}

#[test]
fn output_that_would_have_to_wait_is_told() {
    let (mut output, _reader) = UnixStream::pair().expect("a pair of sockets");
    output.set_nonblocking(true).expect("an output that does not wait");
    while output.write(b".").is_ok() {}
    let run = cutlist().stdin(Stdio::null()).stdout(OwnedFd::from(output)).output().expect("it starts");
    assert_not_whole(&run, "cannot write: Resource temporarily unavailable");
}

#[test]
fn output_that_nobody_reads_ends_it() {
    let log = Noise::new(7).bytes(2_000_000);
    for (program, code, said) in
        [(cutlist(), 141, ""), (cutlist_after("trap '' PIPE;"), 1, "cutlist: cannot write: Broken pipe\n")]
    {
        let mut run = started(program);
        drop(run.stdout.take());
        // it may end before it has read the whole log
        let _ = run.stdin.take().expect("its input").write_all(&log);
        let done = run.wait_with_output().expect("it ends");
        assert_eq!((done.status.code(), text(&done.stderr)), (Some(code), said.to_string()));
    }
}

#[test]
fn input_that_cannot_be_read_is_told() {
    let run = cutlist().stdin(File::open("/").expect("a folder")).output().expect("it starts");
    assert_not_whole(&run, "cannot read: Is a directory");
    let run = cutlist_after("exec <&-;").output().expect("it starts");
    assert_not_whole(&run, "cannot read: standard input is closed");
}

#[test]
fn a_closed_output_is_told() {
    let run = cutlist_after("exec >&-;").stdin(Stdio::null()).output().expect("it starts");
    assert_not_whole(&run, "cannot write: Bad file descriptor");
    let run = cutlist_after("exec 2>&-;").stdin(File::open("/").expect("a folder")).output().expect("it starts");
    assert_eq!(run.status.code(), Some(1));
}

#[test]
fn a_signal_ends_the_program_too() {
    let mut run = started(cutlist());
    let input = run.stdin.take();
    thread::sleep(Duration::from_millis(500));
    assert!(Command::new("kill").arg(run.id().to_string()).status().expect("kill starts").success());
    let done = run.wait_with_output().expect("its output is closed, though its input is not");
    assert_eq!((done.status.code(), text(&done.stdout), text(&done.stderr)), (Some(143), String::new(), String::new()));
    drop(input);
}

#[test]
fn arguments_are_answered() {
    for arguments in [&["LOG"][..], &["--help", "LOG"], &["-x"], &[""]] {
        let run = cutlist().args(arguments).stdin(Stdio::null()).output().expect("it starts");
        assert_eq!(run.status.code(), Some(64));
        assert!(run.stdout.is_empty() && text(&run.stderr).starts_with("usage: cutlist < LOG"));
    }
    for help in ["-h", "--help"] {
        let run = cutlist().arg(help).output().expect("it starts");
        assert!(
            run.status.success() && run.stderr.is_empty() && text(&run.stdout).starts_with("usage: cutlist < LOG\n")
        );
    }
    let run = cutlist().arg("--version").output().expect("it starts");
    assert!(run.status.success() && run.stderr.is_empty());
    assert_eq!(text(&run.stdout), format!("cutlist {}\n", env!("CARGO_PKG_VERSION")));
}

// The links lie outside the repository, since the gate refuses one in it.
#[test]
fn it_is_found_through_links() {
    let folder = env::temp_dir().join(format!("a folder with links {}", process::id()));
    fs::create_dir(&folder).expect("a folder");
    symlink(script(), folder.join("first")).expect("a link");
    symlink("first", folder.join("second")).expect("a link to it");
    let inside = Path::new(folder.file_name().expect("its name")).join("second");
    for (link, from) in [
        (Path::new("./second"), folder.as_path()),
        (&Path::new(".").join(inside), folder.parent().expect("its folder")),
    ] {
        let mut linked = Command::new(link);
        linked.current_dir(from);
        assert_eq!(text(&printed(linked, stored("linked", &[7]))), "1 1\ncuts 1 bytes 1\n");
    }
    fs::remove_dir_all(&folder).expect("the folder is taken away");
}
