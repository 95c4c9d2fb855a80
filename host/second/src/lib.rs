//! The second program: every call of document 01 as a pure function, written from that paper alone, plain and slow.
//!
//! It shares no code with the library or its wrapper, and goes another way wherever there is one: a window's signature by
//! long division at each offset, all marks as a list grown freely, a segment's record picked out of the whole log's
//! cuts, merging over all bays' offsets at once. Lent memory goes in as a slice and comes back as it stands at exit.
//!
//! A call answers (number, values, lent memory at exit). The number is 0 beside a success; beside a refusal each value is 0,
//! and the carry comes back unaltered. No call has to be asked with care: numbers may be any, and none wraps.
//! Number 17 is never answered: the rooms asked for hold every list that a call writes.

mod amending;
mod board;
mod carry;
mod rule;
mod sheet;
mod signature;

pub use amending::{Counts, amend, well_formed};
pub use board::{Record, fill_bay, merge, record, segment};
pub use carry::{Carry, block, close, fresh};
pub use rule::{HOUSE, LONGEST, Settings, cut_log, cuts_after, marks};
pub use sheet::{Label, Reading, read_sheet, write_sheet};
pub use signature::remainder;
