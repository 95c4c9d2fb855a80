//! Edits of a log.

use noise::Noise;

/// The log with `removed` bytes at `at` replaced by these.
pub fn replaced(log: &[u8], at: u64, removed: u64, bytes: &[u8]) -> Vec<u8> {
    [&log[..at as usize], bytes, &log[(at + removed) as usize..]].concat()
}

/// An edit of a log: where, what is removed and what is added, and the log that comes of it.
pub fn any_edit(noise: &mut Noise, log: &[u8], list: &[u64]) -> ([u64; 3], Vec<u8>) {
    let n = log.len() as u64;
    let listed = if list.is_empty() { 0 } else { noise.pick(list) };
    let (any, around) = (noise.between(0, n), listed.saturating_sub(noise.below(3)) + noise.below(3));
    let at = noise.pick(&[0, n, any, listed, around]).min(n);
    let (some, piece) = (noise.between(0, n - at), noise.pick(&[1, 48, 100]));
    let removed = noise.pick(&[0, 0, piece, some, n - at]).min(n - at);
    let longest = noise.pick(&[0, 1, 60, 400, 3_000, 2 * n]);
    let added = noise.between(0, longest);
    let repeated = noise.between(0, n - added.min(n)) as usize;
    let bytes = if noise.once_in(2) && added <= n {
        log[repeated..][..added as usize].to_vec()
    } else {
        noise.log(added as usize)
    };
    ([at, removed, added], replaced(log, at, removed, &bytes))
}
