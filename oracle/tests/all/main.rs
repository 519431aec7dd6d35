//! Every expectation here is worked out by hand from documents 01 and 02.

mod band;
mod cases;
mod commands;
mod compare;
mod data;
mod demands;
mod earlier_errors;
mod frame;
mod listing;
mod program;
mod refusals;
mod rig;
mod samples;
mod start;
mod test_mode;
mod test_mode_wide;
mod trace;
mod wide_events;
mod wide_picture;
mod wide_rig;
mod wide_runs;
mod wide_stream;
