//! The list of an edited log from the list of the old one.

use crate::{Error, Settings, raw};

/// An edit: at offset `at` of the old log, `removed` bytes were replaced by `added` bytes.
#[derive(Clone, Copy, Debug, PartialEq, Eq)]
pub struct Edit {
    pub at: u64,
    pub removed: u64,
    pub added: u64,
}

/// The cuts of the new log: `front` kept before the edit, then `recut` cut anew, then `back` kept and moved.
#[derive(Clone, Debug, PartialEq, Eq)]
pub struct Amended {
    pub cuts: Vec<u64>,
    pub front: usize,
    pub recut: usize,
    pub back: usize,
}

/// The cuts of a log after an edit, from the cuts of the old log. Only the stretch around the edit is read.
///
/// ```
/// use thrunglow::{Edit, Settings, amend, cut_log};
///
/// let mut log = vec![0; 400];
/// for at in [99, 199, 299] {
///     log[at] = 1;
/// }
/// let settings = Settings::new(31, 1, 48, 200)?;
/// let old = cut_log(settings, &log)?;
/// assert_eq!(old, [100, 200, 300, 400]);
///
/// log.insert(150, 1);
/// let amended = amend(settings, &old, Edit { at: 150, removed: 0, added: 1 }, &log)?;
/// assert_eq!(amended.cuts, [100, 151, 201, 301, 401]);
/// assert_eq!((amended.front, amended.recut, amended.back), (1, 1, 3));
/// # Ok::<(), thrunglow::Error>(())
/// ```
pub fn amend(settings: Settings, old: &[u64], edit: Edit, log: &[u8]) -> Result<Amended, Error> {
    let mut cuts = settings.list_for(log.len() as u64)?;
    let answer = raw::amend(settings, old, edit.at, edit.removed, edit.added, log, &mut cuts);
    Error::unless_fine(answer.number)?;
    let [front, recut, back] = [answer.front, answer.recut, answer.back].map(|count| count as usize);
    cuts.truncate(front + recut + back);
    Ok(Amended { cuts, front, recut, back })
}
