//! The docket: document 01's example run, and its printed transcript.

use crate::refusal::Refusal;
use crate::requests::{self, Request};
use crate::text;

pub const PARTIES: u32 = 2;
#[rustfmt::skip]
pub const CIRCUIT: [u32; 16] = [
    1, 0, 0, 0,
    1, 1, 0, 0,
    6, 0, 1, 0,
    7, 2, 0, 0,
];
/// Both parties' preprocessing.
#[rustfmt::skip]
pub const PREPS: [u32; 26] = [
    3,  1, 10, 2,  4, 30, 0,   1, 11, 3, 8, 5, 44,
    4,  1, 4, 0,   6, 40, 10,  2, 10, 1, 20, 7, 40,
];
pub const INPUTS: [u32; 2] = [5, 6];
pub const COEFFICIENTS: [u32; 3] = [1, 2, 5];
/// "The docket's nonce bytes are all 0": two checks of two parties.
pub const NONCES: [u8; 128] = [0; 128];

/// The run as a request.
pub fn request() -> Result<Request, Refusal> {
    requests::blank_joint(PARTIES, &CIRCUIT, &PREPS, &INPUTS, &COEFFICIENTS, &NONCES)
}

/// "Per round, the kind and each seat's words in seat order, then the word out and each score."
pub fn print() -> Result<String, Refusal> {
    let one = request()?.answered();
    match one.answer.refusal() {
        Some(refusal) => Err(refusal),
        None => Ok(text::rounds(&one)),
    }
}
