//! The worked run with a give, whose numbers were worked out by hand.

use crate::refusal::Refusal;
use crate::requests::{self, Request};

pub const PARTIES: u32 = 2;
/// Party 0's input is given to party 1.
#[rustfmt::skip]
pub const CIRCUIT: [u32; 8] = [
    1, 0, 0, 0,
    9, 0, 1, 0,
];
/// Both parties' preprocessing.
#[rustfmt::skip]
pub const PREPS: [u32; 14] = [
    3,  1, 10, 2,  6, 30, 0,
    4,  1, 4, 0,   4, 40, 10,
];
pub const INPUTS: [u32; 1] = [5];
pub const COEFFICIENTS: [u32; 1] = [1];
/// Of one check of two parties.
pub const NONCES: [u8; 64] = [0; 64];

/// The run as a request.
pub fn request() -> Result<Request, Refusal> {
    requests::blank_joint(PARTIES, &CIRCUIT, &PREPS, &INPUTS, &COEFFICIENTS, &NONCES)
}
