//! The worked run with a square, whose numbers were worked out by hand.

use crate::refusal::Refusal;
use crate::requests::{self, Request};

pub const PARTIES: u32 = 2;
#[rustfmt::skip]
pub const CIRCUIT: [u32; 12] = [
    1, 0, 0, 0,
    8, 0, 0, 0,
    7, 1, 0, 0,
];
/// Both parties' preprocessing.
#[rustfmt::skip]
pub const PREPS: [u32; 16] = [
    3,  1, 10, 2,  1, 11, 4, 40,
    4,  1, 4, 0,   2, 10, 5, 23,
];
pub const INPUTS: [u32; 1] = [5];
pub const COEFFICIENTS: [u32; 2] = [2, 5];
/// Of two checks of two parties.
pub const NONCES: [u8; 128] = [0; 128];

/// The run as a request.
pub fn request() -> Result<Request, Refusal> {
    requests::blank_joint(PARTIES, &CIRCUIT, &PREPS, &INPUTS, &COEFFICIENTS, &NONCES)
}
