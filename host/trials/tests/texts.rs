//! Text as logs: this repository's own files, one after the other, and a logbook of lines.

use noise::Noise;
use std::fs;
use std::path::Path;
use thrunglow::Settings;
use trials::edits::replaced;
use trials::ways::{amended, in_blocks, in_segments, whole};

/// The files with code, proofs or text below a folder, in the order of their names, without what was built there.
fn files(folder: &Path) -> Vec<Vec<u8>> {
    let mut paths: Vec<_> =
        fs::read_dir(folder).expect("a folder").map(|found| found.expect("a file").path()).collect();
    paths.sort();
    let kept =
        |path: &Path| path.extension().is_some_and(|kind| ["rt", "antt", "edit", "md"].iter().any(|k| kind == *k));
    paths
        .iter()
        .flat_map(|path| match path {
            built if built.ends_with("out") => Vec::new(),
            folder if folder.is_dir() => files(folder),
            file if kept(file) => vec![fs::read(file).expect("a file that can be read")],
            _ => Vec::new(),
        })
        .collect()
}

/// Settings with small, middling and large pieces.
const CUTS: [Settings; 3] = [
    Settings { bits: 6, target: 9, minimum: 48, maximum: 400 },
    Settings { bits: 10, target: 120, minimum: 600, maximum: 5_000 },
    Settings::HOUSE,
];

/// The log of these parts every way, and then with one part taken out, put in twice, and put at the end.
fn every_way(settings: Settings, parts: &[Vec<u8>], noise: &mut Noise) {
    let log = parts.concat();
    let cuts = whole(settings, &log);
    assert!(cuts.len() > 10);
    assert_eq!(in_blocks(settings, log.chunks(65_536)), cuts);
    assert_eq!(in_blocks(settings, log.chunks(noise.between(500, 9_000) as usize)), cuts);
    let size = noise.between(log.len() as u64 / 9, log.len() as u64 / 3);
    assert_eq!(in_segments(settings, &log, size), cuts);
    let which = noise.below(parts.len() as u64) as usize;
    let (at, part) = (parts[..which].concat().len() as u64, &parts[which]);
    let length = part.len() as u64;
    for (at, removed, added) in [(at, length, &[][..]), (at, 0, part), (log.len() as u64, 0, part)] {
        let edited = replaced(&log, at, removed, added);
        let amended = amended(settings, &cuts, [at, removed, added.len() as u64], &edited).1;
        assert_eq!(amended, whole(settings, &edited));
    }
}

/// The log of these parts at each of the settings.
fn at_each_settings(parts: &[Vec<u8>]) {
    let bytes: usize = parts.iter().map(Vec::len).sum();
    assert!(parts.len() > 10 && bytes > 200_000, "{} parts, {bytes} bytes", parts.len());
    let mut noise = Noise::new(1);
    for settings in CUTS {
        every_way(settings, parts, &mut noise);
    }
}

#[test]
fn this_repositorys_files() {
    let root = Path::new(env!("CARGO_MANIFEST_DIR")).join("../..");
    let mut bytes = 0;
    let mut parts = [files(&root.join("docs")), files(&root.join("crates"))].concat();
    parts.retain(|part| {
        bytes += part.len();
        bytes <= 300_000
    });
    at_each_settings(&parts);
}

/// A day of a logbook: a line each few minutes, with the time, the place, the depth and now and then a remark.
fn day(noise: &mut Noise, day: u64) -> Vec<u8> {
    let remarks = ["", "", "", " gangway down", " practice: man overboard", " watch relieved, all in order"];
    let lines = (0..24 * 60).step_by(5).map(|minute: u64| {
        let (depth, remark) = (noise.between(80, 420), noise.pick(&remarks));
        let (hours, minutes) = (minute / 60, minute % 60);
        format!(
            "2026-11-{day:02} {hours:02}:{minutes:02} 53.5{}N 8.1{}E depth {depth} dm{remark}\n",
            depth % 7,
            hours % 5
        )
    });
    lines.collect::<String>().into_bytes()
}

#[test]
fn a_logbook() {
    let mut noise = Noise::new(2);
    let days: Vec<Vec<u8>> = (1..=18).map(|number| day(&mut noise, number)).collect();
    at_each_settings(&days);
}
