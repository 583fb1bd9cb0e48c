//! The online phase of SPDZ as document 01 has it, with squares, commitments, gives and overs, written a
//! second time and independently: a source of test vectors, and a baseline for speed. Circuits are read and written as text too,
//! as sheets, and a tool tells whether a circuit's values stay elements for all inputs in given ranges.
//!
//! Names are the field's standard terms: a party is document 01's seat, a gate its line (the gate's
//! value is a wire), preprocessing its material, coefficients its draws, sending and receiving its
//! speaking and hearing, a position its place, commit, reveal and opening an output its seal, reveal
//! and show, an aborted run a stopped one, an output its score. A row is a line of a sheet.

pub mod circuit;
pub mod commitment;
pub mod counts;
pub mod docket;
pub mod example;
pub mod field;
pub mod fit;
pub mod give;
pub mod joint;
mod local;
pub mod over;
pub mod party;
pub mod plain;
pub mod position;
pub mod prep;
pub mod random;
pub mod refusal;
pub mod replay;
pub mod requests;
pub mod sha256;
pub mod sheet;
pub mod square;
pub mod text;
pub mod theorems;

pub use field::P;
pub use joint::{joint_run, Ending, JointResult};
pub use party::{open, receive, send, Party, Position, Received, Round, Sort, Stage};
pub use refusal::Refusal;
pub use sheet::{read_sheet, write_sheet};
