//! The library's speed, and what it is measured beside.

pub mod baseline;
pub mod contest;
pub mod restic;
pub mod ways;
