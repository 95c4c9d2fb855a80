//! Cuts logs into pieces where their content says, through the proved library: a safe face of its calls.
//!
//! The list of a log's cuts belongs to its bytes and the [`Settings`] alone. There are four ways to it, and they give one list:
//! [`cut_log`] for a log in memory, [`Cutter`] for one that comes in blocks, [`cut_parallel`] (or [`record`] and [`merge`] with
//! threads of your own) for a long one on every processor, and [`amend`] for one whose old list is known. A [`Sheet`] carries the
//! list under a label.
//!
//! A call is refused with an [`Error`], which has the number that the library answered and says in words what to do. The calls
//! with lent memory, as C has them, are in [`raw`].
#![deny(unsafe_code)]
#![warn(missing_debug_implementations)]

mod amending;
mod board;
mod cutter;
mod error;
pub mod raw;
mod settings;
mod sheet;
mod whole;

pub use amending::{Amended, Edit, amend};
pub use board::{cut_parallel, merge, record};
pub use cutter::{Carry, Cutter};
pub use error::Error;
pub use settings::Settings;
pub use sheet::{Label, Sheet};
pub use whole::cut_log;

/// The handbook's programs, run as doc tests.
#[cfg(doctest)]
#[doc = include_str!("../../../docs/HANDBOOK.md")]
struct Handbook;
