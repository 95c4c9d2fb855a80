//! The whole log in one call.

use crate::{Error, Settings, raw};

/// The cuts of a log: where each piece ends, rising, the log's length last.
///
/// ```
/// use thrunglow::{Settings, cut_log};
///
/// let cuts = cut_log(Settings::HOUSE, &[0; 70_000])?;
/// assert_eq!(cuts, [65_536, 70_000]);
/// assert_eq!(cut_log(Settings::HOUSE, &[])?, []);
/// # Ok::<(), thrunglow::Error>(())
/// ```
pub fn cut_log(settings: Settings, log: &[u8]) -> Result<Vec<u64>, Error> {
    let mut list = settings.list_for(log.len() as u64)?;
    let outcome = raw::cut_log(settings, log, &mut list);
    Error::unless_fine(outcome.number)?;
    list.truncate(outcome.count as usize);
    Ok(list)
}
