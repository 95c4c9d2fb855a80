//! Cut sheets.

use crate::{Error, Settings, raw};

/// What a sheet says of its log: an exercise in the hall, or the training ship.
#[derive(Clone, Copy, Debug, PartialEq, Eq, Hash)]
pub enum Label {
    Practice,
    Live,
}

/// The list of a log's cuts with its settings and its label, as it travels with the log.
///
/// ```
/// use thrunglow::{Error, Label, Settings, Sheet, cut_log};
///
/// let cuts = cut_log(Settings::HOUSE, &[0; 70_000])?;
/// let sheet = Sheet { settings: Settings::HOUSE, label: Label::Practice, cuts };
/// let bytes = sheet.to_bytes()?;
/// assert_eq!(bytes.len(), 2 * 8 + 32);
///
/// assert_eq!(Sheet::read(&bytes, Label::Practice)?, sheet);
/// assert_eq!(Sheet::read(&bytes, Label::Live), Err(Error::OtherLabel));
/// # Ok::<(), thrunglow::Error>(())
/// ```
#[derive(Clone, Debug, PartialEq, Eq)]
pub struct Sheet {
    pub settings: Settings,
    pub label: Label,
    pub cuts: Vec<u64>,
}

impl Sheet {
    /// The most cuts a sheet holds.
    pub const MOST_CUTS: usize = 1_048_576;

    const TRAILER: usize = 32;

    /// The sheet's bytes: 8 a cut, then the trailer of 32.
    pub fn to_bytes(&self) -> Result<Vec<u8>, Error> {
        let mut bytes = vec![0; 8 * self.cuts.len() + Sheet::TRAILER];
        let outcome = raw::write_sheet(self.settings, self.label == Label::Live, &self.cuts, &mut bytes);
        Error::unless_fine(outcome.number)?;
        Ok(bytes)
    }

    /// Reads the sheet that the bytes end with; bytes before it are not read. A sheet that bears the other label than the one
    /// asked for is refused with [`Error::OtherLabel`].
    pub fn read(bytes: &[u8], asked: Label) -> Result<Sheet, Error> {
        let fit = bytes.len().saturating_sub(Sheet::TRAILER) / 8;
        let mut cuts = vec![0; fit.min(Sheet::MOST_CUTS)];
        let reading = raw::read_sheet(bytes, asked == Label::Live, &mut cuts);
        Error::unless_fine(reading.number)?;
        cuts.truncate(reading.count as usize);
        Ok(Sheet { settings: reading.settings, label: asked, cuts })
    }
}
