//! The library held to the second program: the same call is asked of both, and the answer, the number and all memory lent are
//! compared, with guard values around that memory, or fences.
//!
//! `compare` asks one call, and `ways` the calls that lead to a log's list. `inputs`, `edits` and `damage` make arguments, right ones
//! and wrong ones. `rounds` has a random trial for each call.

pub mod compare;
pub mod damage;
pub mod edits;
mod fenced;
pub mod inputs;
pub mod lent;
pub mod rounds;
pub mod ways;
