//! How a log is cut.

use crate::{Error, raw};

/// How a log is cut: pattern bits, their target, and the least and the greatest length of a piece. Both ends must use the same
/// ones; every call judges them, and refuses with [`Error::SettingsOutOfRange`].
#[repr(C)]
#[derive(Clone, Copy, Debug, Default, PartialEq, Eq, Hash)]
pub struct Settings {
    /// Pattern bits K, from 1 to 31: a mark is found about every 2^K bytes.
    pub bits: u32,
    /// What the K bits must be at a mark, from 1 to 2^K - 1.
    pub target: u32,
    /// The least length of a piece, from 48.
    pub minimum: u64,
    /// The greatest length of a piece, up to 16,777,216.
    pub maximum: u64,
}

impl Settings {
    /// The school's settings: 13 bits, target 120, pieces of 2,048 to 65,536 bytes.
    pub const HOUSE: Settings = Settings { bits: 13, target: 120, minimum: 2_048, maximum: 65_536 };

    /// Settings that are within their ranges.
    ///
    /// ```
    /// use thrunglow::{Error, Settings};
    /// assert_eq!(Settings::new(13, 120, 2_048, 65_536), Ok(Settings::HOUSE));
    /// assert_eq!(Settings::new(13, 120, 16, 65_536), Err(Error::SettingsOutOfRange));
    /// ```
    pub fn new(bits: u32, target: u32, minimum: u64, maximum: u64) -> Result<Settings, Error> {
        let settings = Settings { bits, target, minimum, maximum };
        Error::unless_fine(raw::fresh(settings).number)?;
        Ok(settings)
    }

    /// A list with the room that the library asks for to cut that many bytes.
    pub(crate) fn list_for(&self, bytes: u64) -> Result<Vec<u64>, Error> {
        Error::unless_fine(raw::fresh(*self).number)?;
        Ok(vec![0; (bytes / self.minimum + 1) as usize])
    }
}
