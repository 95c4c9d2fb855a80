//! Every way of the library to a log's list, and sheets, as contestants beside straightforward Rust.

use crate::baseline;
use crate::contest::Contestant;
use std::hint::black_box;
use std::num::NonZeroUsize;
use thrunglow::{Carry, Cutter, Edit, Label, Settings, Sheet, raw};

pub const WHOLE: &str = "whole log";
pub const PLAIN_RUST: &str = "whole log, straightforward Rust";
pub const SINGLE_PASS: &str = "single pass, 64 KiB blocks";
pub const ONE_CORE: &str = "segments and merging, 1 thread";
pub const ALL_CORES: &str = "segments and merging, all cores";

const BLOCK: usize = 64 * 1024;

fn room(settings: Settings, bytes: usize) -> usize {
    bytes / settings.minimum as usize + 1
}

fn plain(settings: Settings) -> baseline::Settings {
    let (minimum, maximum) = (settings.minimum as usize, settings.maximum as usize);
    baseline::Settings { bits: settings.bits, target: settings.target, minimum, maximum }
}

/// The cuts of the log in blocks.
fn single_pass(settings: Settings, log: &[u8]) -> u64 {
    let mut cutter = Cutter::new(settings).expect("settings in range");
    let mut count = 0;
    for block in log.chunks(BLOCK) {
        count += cutter.push(block).expect("a block").len() as u64;
    }
    count + u64::from(cutter.finish().expect("the end").is_some())
}

/// Each way to the log's list. The list, the edited log and the sheet were made before and are not timed.
pub fn contestants<'a>(settings: Settings, log: &'a [u8], made: &'a Made, cores: NonZeroUsize) -> Vec<Contestant<'a>> {
    let n = log.len();
    let list_bytes = 8 * room(settings, n);
    let count = made.sheet.cuts.len() as u64;
    let (mut whole, mut by_rust) = (vec![0; room(settings, n)], vec![0; room(settings, n)]);
    let (mut amended, mut read) = (vec![0; room(settings, n)], vec![0; made.sheet.cuts.len()]);
    let mut written = vec![0; made.bytes.len()];
    let segments = |threads| move || assert_eq!(cut_parallel(settings, log, threads), count);
    let board = 8 * (n / settings.minimum as usize + 2 * (n >> settings.bits));
    let block_memory = size_of::<Carry>() + 8 * room(settings, BLOCK);
    let edit = made.edit;
    vec![
        Contestant::new(WHOLE, n, list_bytes, move || {
            assert_eq!(raw::cut_log(settings, log, &mut whole).count, count);
        }),
        Contestant::new(PLAIN_RUST, n, list_bytes, move || {
            assert_eq!(baseline::cut_log(&plain(settings), log, &mut by_rust) as u64, count);
        }),
        Contestant::new(SINGLE_PASS, n, block_memory, move || assert_eq!(single_pass(settings, log), count)),
        Contestant::new(ONE_CORE, n, board + list_bytes, segments(NonZeroUsize::MIN)),
        Contestant::new(ALL_CORES, n, board + list_bytes, segments(cores)),
        Contestant::new("amending one byte", n, list_bytes, move || {
            let (old, [at, removed, added]) = (&made.sheet.cuts, [edit.at, edit.removed, edit.added]);
            assert_eq!(raw::amend(settings, old, at, removed, added, &made.edited, &mut amended).number, 0);
        }),
        Contestant::new("writing the sheet", made.bytes.len(), made.bytes.len(), move || {
            assert_eq!(raw::write_sheet(settings, false, &made.sheet.cuts, &mut written).number, 0);
            black_box(&written);
        }),
        Contestant::new("reading the sheet", made.bytes.len(), 8 * made.sheet.cuts.len(), move || {
            assert_eq!(raw::read_sheet(&made.bytes, false, &mut read).number, 0);
            black_box(&read);
        }),
    ]
}

fn cut_parallel(settings: Settings, log: &[u8], threads: NonZeroUsize) -> u64 {
    thrunglow::cut_parallel(settings, log, threads).expect("a log in range").len() as u64
}

/// What the contestants need beside the log.
pub struct Made {
    sheet: Sheet,
    /// The sheet's bytes.
    bytes: Vec<u8>,
    /// One byte in the middle replaced by another.
    edit: Edit,
    edited: Vec<u8>,
}

impl Made {
    /// Cuts the log every way and sees that the lists are one list.
    pub fn new(settings: Settings, log: &[u8], cores: NonZeroUsize) -> Made {
        let cuts = thrunglow::cut_log(settings, log).expect("settings and log in range");
        let mut by_rust = vec![0; room(settings, log.len())];
        let count = baseline::cut_log(&plain(settings), log, &mut by_rust);
        assert_eq!(by_rust[..count], cuts);
        assert_eq!(thrunglow::cut_parallel(settings, log, cores).as_ref(), Ok(&cuts));
        let mut edited = log.to_vec();
        edited[log.len() / 2] ^= 1;
        let edit = Edit { at: log.len() as u64 / 2, removed: 1, added: 1 };
        let amended = thrunglow::amend(settings, &cuts, edit, &edited).expect("an edit in range");
        assert_eq!(thrunglow::cut_log(settings, &edited), Ok(amended.cuts));
        let sheet = Sheet { settings, label: Label::Practice, cuts };
        let bytes = sheet.to_bytes().expect("a list of at most 1,048,576 cuts");
        Made { sheet, bytes, edit, edited }
    }

    /// How many cuts the log has.
    pub fn cuts(&self) -> usize {
        self.sheet.cuts.len()
    }
}
