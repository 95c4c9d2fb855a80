//! restic's chunker (Go), where Go and its package are on the machine.

use std::fs;
use std::io::{BufRead, BufReader, Write};
use std::path::{Path, PathBuf};
use std::process::{Child, ChildStdin, ChildStdout, Command, Stdio};
use std::time::Duration;
use thrunglow::Settings;

/// A running program that cuts a file with restic's chunker each time it is asked.
pub struct Restic {
    program: Child,
    ask: ChildStdin,
    answers: BufReader<ChildStdout>,
}

impl Restic {
    /// Builds the program in the scratch folder and starts it on a file, or says what is not there.
    pub fn start(scratch: &Path, file: &Path, settings: Settings) -> Result<Restic, String> {
        let built = build(scratch)?;
        let numbers = [settings.minimum, settings.maximum, settings.bits.into()].map(|number| number.to_string());
        let mut program = Command::new(built)
            .arg(file)
            .args(numbers)
            .env("GOMAXPROCS", "1")
            .stdin(Stdio::piped())
            .stdout(Stdio::piped())
            .spawn()
            .map_err(|error| format!("it could not be started: {error}"))?;
        let ask = program.stdin.take().expect("a pipe");
        let answers = BufReader::new(program.stdout.take().expect("a pipe"));
        Ok(Restic { program, ask, answers })
    }

    /// Cuts the file once.
    pub fn turn(&mut self) -> Option<Duration> {
        self.ask.write_all(b"\n").ok()?;
        let mut answer = String::new();
        self.answers.read_line(&mut answer).ok()?;
        answer.trim().parse().ok().map(Duration::from_nanos)
    }
}

impl Drop for Restic {
    fn drop(&mut self) {
        // The program may have ended by itself; either way it is waited for.
        let _ = self.program.kill();
        let _ = self.program.wait();
    }
}

/// What `go` prints, or none where it is not there or fails.
fn go(folder: &Path, words: &[&str]) -> Option<String> {
    let offline = [("GOFLAGS", "-mod=mod"), ("GOPROXY", "off"), ("GOSUMDB", "off")];
    let run = Command::new("go").args(words).envs(offline).current_dir(folder).output().ok()?;
    run.status.success().then(|| String::from_utf8_lossy(&run.stdout).trim().to_string())
}

/// The newest version of the package among the modules on the machine.
fn version(modules: &Path) -> Option<String> {
    let found = fs::read_dir(modules.join("github.com/restic")).ok()?;
    let names = found.filter_map(|found| found.ok()?.file_name().into_string().ok());
    names.filter_map(|name| name.strip_prefix("chunker@").map(str::to_string)).max()
}

fn build(scratch: &Path) -> Result<PathBuf, String> {
    let stored = |name: &str, text: &str| fs::write(scratch.join(name), text).map_err(|error| error.to_string());
    fs::create_dir_all(scratch).map_err(|error| error.to_string())?;
    let modules = go(scratch, &["env", "GOMODCACHE"]).ok_or("Go is not on this machine")?;
    let version = version(Path::new(&modules)).ok_or("its Go package is not on this machine")?;
    stored("main.go", include_str!("../restic/main.go"))?;
    stored("go.mod", &format!("module bench\n\ngo 1.18\n\nrequire github.com/restic/chunker {version}\n"))?;
    go(scratch, &["build", "-o", "restic-chunker", "."]).ok_or("its Go package could not be built")?;
    Ok(scratch.join("restic-chunker"))
}
