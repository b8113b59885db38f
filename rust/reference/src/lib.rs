//! The scene-log check, written from its paper: simple, slow and easy to read.
//!
//! Everything the check answers is a function of two things: the formula in the
//! rule file and the list of lines accepted so far. So most modules here take
//! one of these two and compute the answer afresh.
//!
//! - `label`: labels as they are written in either case, and their capitals.
//! - `book`: the texts that a label book lists for labels (27).
//! - `line`: what one line says, and how lines are cut from a log (11, 12, 13).
//! - `trace`: the accepted lines, what a new line meets there (15 to 19), and the runs.
//! - `rule`: reading a rule file (1 to 10).
//! - `formula`: the logic and its meaning over finished runs.
//! - `relation`: the six relations, converse and composition (14).
//! - `record`: the carried record and the pair bytes, and whether they are real (21).
//! - `layout`: which pair each byte of a work area is of, in either layout.
//! - `reading`: a whole log with a rule, up to the first failure or in full.
//! - `calls`: the calls, with their refusals in order and what they leave in each buffer.
//! - `report`: the whole output of the check program.
//! - `slip`: the runs that break a rule, and which rules have them (26).
//! - `typed`: a rule file from a rule typed by hand, and its text (25).

pub mod book;
pub mod calls;
pub mod formula;
pub mod label;
pub mod layout;
pub mod line;
pub mod reading;
pub mod record;
pub mod relation;
pub mod report;
pub mod rule;
pub mod slip;
pub mod trace;
pub mod typed;

pub use layout::Layout;
pub use reading::Mode;

/// A number on the paper's list of refusals, 1 to 27.
pub type Refusal = u8;

/// "At most 128 runs and 64 labels".
pub const MAX_RUNS: usize = 128;
pub const MAX_LABELS: usize = 64;

/// "Labels are found through 128 places."
pub const LABEL_PLACES: usize = 128;

/// "A label is 1 to 24 bytes".
pub const LABEL_LIMIT: usize = 24;

/// "whose LF is not among its first 40 bytes".
pub const LINE_LIMIT: usize = 40;

/// "its first 16,384 bytes are pair bytes", and "20 below 8,128 for the small layout".
pub const SQUARE_BYTES: usize = 16384;
pub const HALF_BYTES: usize = 8128;

/// "a verdict buffer of at least 256 bytes".
pub const VERDICT_BYTES: usize = 256;
