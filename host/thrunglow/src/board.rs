//! Segments, recorded in any order and on any processor, and merging.

use crate::{Error, Settings, raw};
use std::num::NonZeroUsize;
use std::sync::Mutex;
use std::thread;

/// Records segment `index` of `size` bytes into its bay, and says how many entries that took: 2 plus its offsets. The bay's length
/// is the width R; the board is all the bays, one after the other. A bay that holds zeros is not done.
pub fn record(settings: Settings, log: &[u8], size: u64, index: u64, bay: &mut [u64]) -> Result<usize, Error> {
    let outcome = raw::record(settings, log, size, index, bay);
    Error::unless_fine(outcome.number)?;
    Ok(outcome.count as usize)
}

/// The cuts of a log of that many bytes from a board whose bays of `width` entries are all recorded.
///
/// ```
/// use thrunglow::{Settings, cut_log, merge, record};
///
/// let log = [0; 200_000];
/// let (size, width) = (65_536, 100);
/// let mut board = vec![0; log.len().div_ceil(size) * width];
/// for (index, bay) in board.chunks_mut(width).enumerate().rev() {
///     record(Settings::HOUSE, &log, size as u64, index as u64, bay)?;
/// }
/// let cuts = merge(Settings::HOUSE, log.len() as u64, size as u64, width as u64, &board)?;
/// assert_eq!(cuts, cut_log(Settings::HOUSE, &log)?);
/// # Ok::<(), thrunglow::Error>(())
/// ```
pub fn merge(settings: Settings, bytes: u64, size: u64, width: u64, board: &[u64]) -> Result<Vec<u64>, Error> {
    let merged_into = |list: &mut [u64]| {
        let outcome = raw::merge(settings, bytes, size, width, board, list);
        Error::unless_fine(outcome.number).map(|()| outcome.count as usize)
    };
    // With no list lent, every refusal that comes before the list's room is answered before memory is asked for.
    match merged_into(&mut []) {
        Err(Error::RoomTooShort) | Ok(_) => {}
        Err(other) => return Err(other),
    }
    let mut list = settings.list_for(bytes)?;
    let count = merged_into(&mut list)?;
    list.truncate(count);
    Ok(list)
}

/// The cuts of a log, cut in segments on that many threads and merged: the list that [`cut_log`](crate::cut_log) gives.
///
/// The threads take the segments in turn, one bay each. A record that is longer than its bay has every bay made longer and the
/// segments not yet done recorded again. The board takes about 8 bytes for each `minimum` and 16 for each 2^bits bytes of the log; a
/// log with marks at nearly every byte takes up to 8 bytes a byte.
///
/// ```
/// use thrunglow::{Settings, cut_log, cut_parallel};
///
/// let log: Vec<u8> = (0..2_000_000_u64).map(|k| (k * k >> 7) as u8).collect();
/// let threads = std::thread::available_parallelism().unwrap();
/// assert_eq!(cut_parallel(Settings::HOUSE, &log, threads)?, cut_log(Settings::HOUSE, &log)?);
/// # Ok::<(), thrunglow::Error>(())
/// ```
pub fn cut_parallel(settings: Settings, log: &[u8], threads: NonZeroUsize) -> Result<Vec<u64>, Error> {
    Error::unless_fine(raw::fresh(settings).number)?;
    let size = segment_size(log.len(), threads);
    let segments = log.len().div_ceil(size);
    let mut width = usual_width(&settings, size);
    let mut board = vec![0; segments * width];
    loop {
        match record_open_bays(settings, log, size, width, &mut board, threads) {
            Err(Error::RecordTooLong) => {
                let longer = (4 * width).min(size + 2);
                board = with_longer_bays(&board, width, longer);
                width = longer;
            }
            other => break other?,
        }
    }
    merge(settings, log.len() as u64, size as u64, width as u64, &board)
}

/// Segments that are many enough for the threads to end together, and long enough that their slow starts do not show.
fn segment_size(bytes: usize, threads: NonZeroUsize) -> usize {
    (bytes / threads / 8).clamp(1 << 18, 1 << 22)
}

/// Room for twice the marks to be expected and for the most cuts; a segment has no more offsets than bytes.
fn usual_width(settings: &Settings, size: usize) -> usize {
    (66 + 2 * (size >> settings.bits) + size / settings.minimum as usize).min(size + 2)
}

/// Records every bay that is not done. A thread that is refused stops; the others go on with the bays that are left.
fn record_open_bays(
    settings: Settings,
    log: &[u8],
    size: usize,
    width: usize,
    board: &mut [u64],
    threads: NonZeroUsize,
) -> Result<(), Error> {
    let open_bays = Mutex::new(board.chunks_mut(width).enumerate().filter(|(_, bay)| bay[0] == 0));
    let take_turns = || loop {
        let turn = open_bays.lock().expect("no thread panics with the bays in hand").next();
        let Some((index, bay)) = turn else { return Ok(()) };
        record(settings, log, size as u64, index as u64, bay)?;
    };
    thread::scope(|scope| {
        let running: Vec<_> = (0..threads.get()).map(|_| scope.spawn(take_turns)).collect();
        running.into_iter().try_for_each(|thread| thread.join().expect("a record does not panic"))
    })
}

/// The same records in longer bays.
fn with_longer_bays(board: &[u64], width: usize, longer: usize) -> Vec<u64> {
    let mut wider = vec![0; board.len() / width * longer];
    for (bay, longer_bay) in board.chunks(width).zip(wider.chunks_mut(longer)) {
        longer_bay[..width].copy_from_slice(bay);
    }
    wider
}
