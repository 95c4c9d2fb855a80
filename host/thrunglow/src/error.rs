//! Why a call is refused.

use std::fmt;

/// A refusal: a name for each row of the table of numbers. Displayed, it says what was wrong and what to do.
#[derive(Clone, Copy, Debug, PartialEq, Eq, Hash)]
#[repr(u32)]
pub enum Error {
    SettingsOutOfRange = 1,
    LogTooLong,
    CarryNotInOrder,
    CarryClosed,
    RoomTooShort,
    RecordTooLong,
    NoSuchSegment,
    BayNotDone,
    BayMalformed,
    ListNotWellFormed,
    EditOutOfRange,
    NoSheet,
    CheckWordWrong,
    TrailerWrong,
    OtherLabel,
    TooManyCuts,
    ListFull,
}

impl Error {
    /// Every refusal, by its number.
    pub const ALL: [Error; 17] = [
        Error::SettingsOutOfRange,
        Error::LogTooLong,
        Error::CarryNotInOrder,
        Error::CarryClosed,
        Error::RoomTooShort,
        Error::RecordTooLong,
        Error::NoSuchSegment,
        Error::BayNotDone,
        Error::BayMalformed,
        Error::ListNotWellFormed,
        Error::EditOutOfRange,
        Error::NoSheet,
        Error::CheckWordWrong,
        Error::TrailerWrong,
        Error::OtherLabel,
        Error::TooManyCuts,
        Error::ListFull,
    ];

    /// The number that the library answers for this refusal.
    ///
    /// ```
    /// assert_eq!(thrunglow::Error::CheckWordWrong.number(), 13);
    /// ```
    pub fn number(self) -> u32 {
        self as u32
    }

    /// Fine where the library answered 0, the refusal where it answered another number.
    pub(crate) fn unless_fine(number: u32) -> Result<(), Error> {
        match Error::ALL.into_iter().find(|error| error.number() == number) {
            Some(error) => Err(error),
            None => {
                assert_eq!(number, 0, "the library answers 0 to 17");
                Ok(())
            }
        }
    }
}

impl fmt::Display for Error {
    fn fmt(&self, f: &mut fmt::Formatter) -> fmt::Result {
        f.write_str(match self {
            Error::SettingsOutOfRange => {
                "a setting is outside its range: give pattern bits from 1 to 31, a target from 1 to 2^bits - 1, a minimum from 48 \
                 and a maximum from the minimum to 16,777,216"
            }
            Error::LogTooLong => "the log would pass 2^40 bytes: cut it as more than one log",
            Error::CarryNotInOrder => {
                "the carry is not in order: it was altered or never came from this library; take up the last one saved whole, or \
                 start the log again with a fresh one"
            }
            Error::CarryClosed => "the carry is closed: its log has ended; start the next log with a fresh one",
            Error::RoomTooShort => {
                "the lent list or bytes are too short: lend bytes / minimum + 1 entries to cut, merge or amend, 1 to close, a \
                 sheet's count to read it, and 8 bytes a cut plus 32 to write it"
            }
            Error::RecordTooLong => "the record is longer than its bay: lend longer bays and record the segment again",
            Error::NoSuchSegment => {
                "the segment size is not 64 to 16,777,216, a bay is under 2 entries, the log has no such segment, or the board has \
                 fewer bays than the log has segments: give sizes in range and a bay for each segment"
            }
            Error::BayNotDone => "a bay is not done: record its segment, then merge again",
            Error::BayMalformed => {
                "a bay is malformed: it was altered, or recorded with other settings or sizes; record its segment again"
            }
            Error::ListNotWellFormed => {
                "the list is not well formed: it is no list of cuts at these settings; give the settings it was cut with, or cut the \
                 log anew"
            }
            Error::EditOutOfRange => {
                "the edit does not fit: it starts past the old log's end, removes more than follows, or the new log is not the old \
                 length less the removed and plus the added bytes"
            }
            Error::NoSheet => {
                "there is no sheet: the bytes are under 32, or their last 32 do not start with CUTS; give the bytes up to the end of \
                 the sheet"
            }
            Error::CheckWordWrong => {
                "the check word is wrong: the sheet was damaged; fetch it again, or cut the log anew"
            }
            Error::TrailerWrong => {
                "a field of the sheet's trailer is wrong, or its body does not fit: the sheet was damaged or cut short; fetch it \
                 again, or cut the log anew"
            }
            Error::OtherLabel => {
                "the sheet bears the other label: a practice sheet is never read as live, nor a live one as practice; find the sheet \
                 of the right log"
            }
            Error::TooManyCuts => {
                "over 1,048,576 cuts, the most a sheet holds: cut with a larger minimum, or as more than one log"
            }
            Error::ListFull => {
                "the lent list is full and a cut is still to be written: the room asked for always holds every cut, so report this"
            }
        })
    }
}

impl std::error::Error for Error {}
