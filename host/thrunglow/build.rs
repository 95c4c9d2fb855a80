//! Links the proved library, target/staticlib/libthrunglow.a at the repository's root. Where the archive is missing or older than
//! the crates' code, `rt lib` in crates/thrunglow_c writes it first. A machine without the kit names an archive in THRUNGLOW_STATICLIB.

use std::path::{Path, PathBuf};
use std::process::{Command, Stdio};
use std::time::SystemTime;
use std::{env, fs, io};

fn main() {
    println!("cargo:rerun-if-env-changed=THRUNGLOW_STATICLIB");
    let archive = env::var_os("THRUNGLOW_STATICLIB").map_or_else(archive_of_this_repository, PathBuf::from);
    let folder = archive.parent().expect("an archive stands in a folder");
    println!("cargo:rerun-if-changed={}", archive.display());
    println!("cargo:rustc-link-search=native={}", folder.display());
    println!("cargo:rustc-link-lib=static=thrunglow");
    println!("cargo:rustc-env=THRUNGLOW_ARCHIVE={}", archive.display());
}

/// The repository's archive, as new as the code.
fn archive_of_this_repository() -> PathBuf {
    let root = Path::new(env!("CARGO_MANIFEST_DIR")).join("../..").canonicalize().expect("the repository's root");
    let archive = root.join("target/staticlib/libthrunglow.a");
    let written = |path: &Path| fs::metadata(path).and_then(|about| about.modified());
    match written(&archive) {
        Ok(then) if then >= newest_code(&root) => {}
        Ok(_) => write_archive(&root, &archive, "is older than the crates' code"),
        Err(_) => write_archive(&root, &archive, "is not there"),
    }
    archive
}

/// When the crates' code was last written. Cargo is told to look at it again.
fn newest_code(root: &Path) -> SystemTime {
    let mut newest = SystemTime::UNIX_EPOCH;
    let mut paths = vec![root.join("crates.txt")];
    for found in fs::read_dir(root.join("crates")).expect("the crates") {
        paths.push(found.expect("a crate").path().join("src"));
    }
    for path in &paths {
        println!("cargo:rerun-if-changed={}", path.display());
    }
    while let Some(path) = paths.pop() {
        if path.is_dir() {
            paths.extend(fs::read_dir(&path).expect("a folder of code").map(|found| found.expect("code").path()));
        } else if let Ok(about) = fs::metadata(&path) {
            newest = newest.max(about.modified().expect("the time of writing"));
        }
    }
    newest
}

/// Runs `rt lib` in crates/thrunglow_c and copies what it writes, so that the archive has its name and is dated now.
fn write_archive(root: &Path, archive: &Path, why: &str) {
    eprintln!("thrunglow: {} {why}: running `rt lib` in crates/thrunglow_c", archive.display());
    let exports = root.join("crates/thrunglow_c");
    let run = Command::new("rt")
        .arg("lib")
        .current_dir(&exports)
        .stdin(Stdio::null())
        .stdout(Stdio::from(io::stderr()))
        .status();
    match run {
        Ok(status) if status.success() => {}
        Ok(status) => panic!("thrunglow: `rt lib` failed ({status}); its messages are above"),
        Err(error) => panic!(
            "thrunglow: `rt` could not be started ({error}). Install the Rattle kit, or name an archive of the library in \
             THRUNGLOW_STATICLIB."
        ),
    }
    let folder = archive.parent().expect("an archive stands in a folder");
    let copied = fs::create_dir_all(folder).and_then(|()| fs::copy(exports.join("out/libthrunglow_c.a"), archive));
    copied.unwrap_or_else(|error| panic!("thrunglow: {}: {error}", archive.display()));
}
