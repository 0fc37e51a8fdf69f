//! `tca`: checks, shows, makes, keeps and plays attachment routines over the proved library.
//!
//! The library decides what is accepted and what is done; this crate reads bytes and text, prints, and keeps files.

pub mod bytes;
pub mod check;
pub mod commands;
pub mod compact;
pub mod judge;
pub mod keep;
pub mod lines;
pub mod options;
pub mod play;
pub mod routine;
pub mod rules;
pub mod shape;
pub mod show;
pub mod text;
pub mod types;
pub mod words;
