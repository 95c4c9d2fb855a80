//! `cargo run --release --offline -p bench -- [FILE] [--mib N] [--rounds N] [--growth]`
//!
//! Cuts a generated log, and FILE where one is given, every way there is, in turns, and prints each way's best time of several
//! rounds: in MB/s and as ratios. `--mib` is the generated log's length (64), `--rounds` how many turns each gets (7). `--growth` shows how
//! the cost grows with the log, from 1 MiB to 1 GiB.

use bench::contest::{Contestant, run};
use bench::restic::Restic;
use bench::ways::{ALL_CORES, Made, ONE_CORE, PLAIN_RUST, SINGLE_PASS, WHOLE, contestants};
use noise::Noise;
use std::num::NonZeroUsize;
use std::path::{Path, PathBuf};
use std::{env, fs, process, thread};
use thrunglow::Settings;

const RESTIC: &str = "restic's chunker (Go)";

struct Options {
    file: Option<PathBuf>,
    mib: usize,
    rounds: usize,
    growth: bool,
}

fn options() -> Options {
    let mut options = Options { file: None, mib: 64, rounds: 7, growth: false };
    let mut words = env::args().skip(1);
    while let Some(word) = words.next() {
        let mut number = || words.next().and_then(|word| word.parse().ok()).filter(|number| *number > 0);
        match word.as_str() {
            "--mib" => options.mib = number().unwrap_or_else(|| stop("--mib takes a number above 0")),
            "--rounds" => options.rounds = number().unwrap_or_else(|| stop("--rounds takes a number above 0")),
            "--growth" => options.growth = true,
            other if other.starts_with('-') => stop(&format!("no such option: {other}")),
            file => options.file = Some(PathBuf::from(file)),
        }
    }
    options
}

fn stop(why: &str) -> ! {
    eprintln!("bench: {why}\nbench [FILE] [--mib N] [--rounds N] [--growth]");
    process::exit(2)
}

fn main() {
    let options = options();
    let cores = thread::available_parallelism().unwrap_or(NonZeroUsize::MIN);
    let settings = Settings::HOUSE;
    println!("settings {}/{}/{}/{}", settings.bits, settings.target, settings.minimum, settings.maximum);
    println!("{cores} cores, best of {} rounds in turns, MB = 10^6 bytes", options.rounds);
    if options.growth {
        return growth(settings, options.rounds, cores);
    }
    let scratch = Path::new(env!("CARGO_MANIFEST_DIR")).join("../target/bench");
    fs::create_dir_all(&scratch).unwrap_or_else(|error| stop(&format!("{}: {error}", scratch.display())));
    let generated = scratch.join("generated.log");
    let log = Noise::new(1).bytes(options.mib << 20);
    fs::write(&generated, &log).unwrap_or_else(|error| stop(&format!("{}: {error}", generated.display())));
    compare("a generated log, random bytes", settings, &log, &generated, &scratch, &options, cores);
    if let Some(file) = &options.file {
        let log = fs::read(file).unwrap_or_else(|error| stop(&format!("{}: {error}", file.display())));
        if log.is_empty() {
            stop("the file is empty");
        }
        compare(&file.display().to_string(), settings, &log, file, &scratch, &options, cores);
    }
}

/// The table for one log.
fn compare(
    name: &str,
    settings: Settings,
    log: &[u8],
    file: &Path,
    scratch: &Path,
    options: &Options,
    cores: NonZeroUsize,
) {
    let made = Made::new(settings, log, cores);
    println!("\n{name}: {} bytes, {} cuts", log.len(), made.cuts());
    let mut contest = contestants(settings, log, &made, cores);
    match Restic::start(scratch, &fs::canonicalize(file).expect("the log's file"), settings) {
        Ok(mut restic) => {
            let memory = settings.maximum as usize;
            contest.push(Contestant::timed_elsewhere(RESTIC, log.len(), memory, move || restic.turn()));
        }
        Err(why) => println!("{RESTIC} is left out: {why}"),
    }
    run(&mut contest, options.rounds);
    table(&contest);
    targets(&contest, cores);
}

/// The speed of a contestant by its name.
fn speed(contest: &[Contestant], name: &str) -> Option<f64> {
    contest.iter().find(|contestant| contestant.name == name)?.speed()
}

fn table(contest: &[Contestant]) {
    let against = [WHOLE, PLAIN_RUST, RESTIC];
    println!(
        "{:<33} {:>10} {:>10} {:>9} {:>9} {:>9} {:>12}",
        "", "ms", "MB/s", "/ whole", "/ Rust", "/ restic", "memory, B"
    );
    for contestant in contest {
        let (Some(best), Some(own)) = (contestant.best, contestant.speed()) else { continue };
        let ratio = |name: &str| speed(contest, name).map_or("-".to_string(), |other| format!("{:.2}", own / other));
        let [whole, rust, restic] = against.map(ratio);
        let (ms, memory) = (best.as_secs_f64() * 1e3, contestant.memory);
        println!("{:<33} {ms:>10.3} {own:>10.0} {whole:>9} {rust:>9} {restic:>9} {memory:>12}", contestant.name);
    }
    println!("memory is what a call is lent or its wrapper takes beside the log; the library allocates none");
}

/// The ratios to be held, and whether they are.
fn targets(contest: &[Contestant], cores: NonZeroUsize) {
    let all_cores = 0.9 * cores.get() as f64;
    let held =
        [(WHOLE, RESTIC, 1.15), (WHOLE, PLAIN_RUST, 0.95), (SINGLE_PASS, WHOLE, 0.8), (ALL_CORES, ONE_CORE, all_cores)];
    for (ours, other, least) in held {
        let ratio = speed(contest, ours).zip(speed(contest, other)).map(|(ours, other)| ours / other);
        let verdict = match ratio {
            None => "not measured".to_string(),
            Some(ratio) if ratio >= least => format!("{ratio:.2}, met"),
            Some(ratio) => format!("{ratio:.2}, MISSED"),
        };
        println!("target: {ours} at least {least:.2} times {other}: {verdict}");
    }
}

/// Milliseconds of each way, from 1 MiB to 1 GiB.
fn growth(settings: Settings, rounds: usize, cores: NonZeroUsize) {
    println!("ms at each length; a way whose cost grows with the log has four times the ms in the next column");
    let lengths: Vec<usize> = (0..6).map(|k| 1 << (20 + 2 * k)).collect();
    let log = Noise::new(1).bytes(*lengths.last().expect("a length"));
    let mut rows: Vec<(String, Vec<f64>)> = Vec::new();
    for &length in &lengths {
        let log = &log[..length];
        let made = Made::new(settings, log, cores);
        let mut contest = contestants(settings, log, &made, cores);
        run(&mut contest, rounds.min(3));
        for (k, contestant) in contest.iter().enumerate() {
            if rows.len() <= k {
                rows.push((contestant.name.clone(), Vec::new()));
            }
            rows[k].1.push(contestant.best.map_or(f64::NAN, |best| best.as_secs_f64() * 1e3));
        }
    }
    print!("{:<33}", "");
    lengths.iter().for_each(|length| print!(" {:>9}M", length >> 20));
    println!();
    for (name, times) in rows {
        print!("{name:<33}");
        times.iter().for_each(|ms| print!(" {ms:>10.3}"));
        println!();
    }
}
