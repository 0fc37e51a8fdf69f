//! The makers of input: well-typed programs, sound records, right replies, and the same damaged in known ways.

pub mod files;
pub mod kept;
pub mod nests;
pub mod programs;
pub mod records;
pub mod replies;
pub mod sessions;
