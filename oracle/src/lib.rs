//! The SSD1815B as document 01 states it, with Orders 1 to 6 of document 02,
//! written from documents 00, 01 and 02 alone, to be compared with a model
//! written by other people.
//!
//! The model: [`registers`], [`command`], [`memory`], [`event`], [`frame`],
//! [`start`], [`trace`], [`listing`], [`compare`], and two chips side by side,
//! [`wide`], each answering with the numbers of [`refusal`].
//! The comparing: [`random`], [`generate`], [`sweep`], [`cases`], [`format`],
//! [`coverage`], [`show`]. For a person: the script of events typed, [`play`],
//! and where the screens of two traces differ, [`differ`].

pub mod cases;
pub mod command;
pub mod compare;
pub mod coverage;
pub mod differ;
pub mod event;
pub mod format;
pub mod frame;
pub mod generate;
pub mod listing;
pub mod memory;
pub mod play;
pub mod random;
pub mod refusal;
pub mod registers;
pub mod show;
pub mod start;
pub mod stream;
pub mod sweep;
pub mod text;
pub mod trace;
pub mod wide;
