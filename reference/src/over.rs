//! The worked run with an over, whose numbers were worked out by hand.

use crate::refusal::Refusal;
use crate::requests::{self, Request};

pub const PARTIES: u32 = 2;
/// Half of party 0's input, modulo the prime.
#[rustfmt::skip]
pub const CIRCUIT: [u32; 12] = [
    1, 0, 0, 0,
    10, 0, 0, 2,
    7, 1, 0, 0,
];
/// Both parties' preprocessing.
#[rustfmt::skip]
pub const PREPS: [u32; 8] = [
    3,  1, 10, 2,
    4,  1, 4, 0,
];
pub const INPUTS: [u32; 1] = [5];
pub const COEFFICIENTS: [u32; 1] = [1];
/// Of one check of two parties.
pub const NONCES: [u8; 64] = [0; 64];

/// The run as a request.
pub fn request() -> Result<Request, Refusal> {
    requests::blank_joint(PARTIES, &CIRCUIT, &PREPS, &INPUTS, &COEFFICIENTS, &NONCES)
}
