//! Requests whose products are at the edges of a reduction: made in the gate, not kept.

use super::sets::filled;
use super::{blank_joint, Lent, Request};
use crate::circuit::{self, IN, MUL, OUT, OVER, SQ, TIMES};
use crate::commitment::{NONCE_BYTES, WORDS};
use crate::field::P;
use crate::party::Position;
use crate::position::{Sort, Stage};
use crate::random::Random;

/// Factors whose products are 0, just below, at and just above a power of two or the prime, and the largest.
pub(super) const FACTORS: [u32; 14] = [
    0,
    1,
    2,
    3,
    32767,
    32768,
    46340,
    46341,
    65535,
    65536,
    1 << 30,
    (1 << 30) + 1,
    P - 2,
    P - 1,
];

const LARGEST: u32 = P - 1;

const PARTIES: u32 = 2;

/// What party 0 of two is lent, with one number for all its preprocessing but the key share.
fn lent(circuit: &[u32], key: u32, filling: u32) -> Lent {
    let shape = circuit::shape(PARTIES, circuit).expect("the circuit is accepted");
    let mut prep = vec![filling; shape.prep_len()];
    prep[0] = key;
    Lent {
        parties: PARTIES,
        party: 0,
        circuit: circuit.to_vec(),
        prep,
        inputs: vec![LARGEST; shape.owned[0]],
        scratch: vec![LARGEST; shape.scratch_len()],
    }
}

fn receiving(lent: Lent, gate: u32, heard: &[u32]) -> Request {
    Request::Receive {
        lent,
        position: Position {
            gate,
            stage: Stage::Receive(Sort::Own),
            held: 0,
        },
        heard: heard.to_vec(),
    }
}

/// The products of two factors: by a constant, by the key share, and of two opened values, with nothing else added and with
/// the largest numbers added.
fn of_two(x: u32, y: u32) -> Vec<Request> {
    let times = [IN, 0, 0, 0, TIMES, 0, 0, y, OUT, 1, 0, 0];
    let mul = [IN, 0, 0, 0, MUL, 0, 0, 0, OUT, 1, 0, 0];
    let square = [IN, 0, 0, 0, SQ, 0, 0, 0, OUT, 1, 0, 0];
    let mut requests = vec![receiving(lent(&times, y, 0), 0, &[x, 0])];
    for filling in [0, LARGEST] {
        requests.push(receiving(lent(&mul, y, filling), 1, &[x, y, 0, 0]));
        requests.push(receiving(lent(&square, y, filling), 1, &[x, 0]));
    }
    requests
}

/// A share and a MAC share of one number, over a constant. Over 0 is refused.
pub(super) fn over(x: u32, constant: u32) -> Request {
    let accepted = [IN, 0, 0, 0, OVER, 0, 0, 1, OUT, 1, 0, 0];
    let mut lent = lent(&accepted, 1, 0);
    lent.circuit[7] = constant;
    receiving(lent, 0, &[x, 0])
}

/// The check share of the largest numbers, over the most opened entries.
fn largest_check(kind: u32) -> Request {
    let mut circuit: Vec<u32> = Vec::new();
    for kind in filled(kind) {
        circuit.extend([kind, 0, 0, 0]);
    }
    let gates = circuit.len() / 4;
    let lent = lent(&circuit, LARGEST, LARGEST);
    let coefficients = vec![LARGEST; circuit::before(&circuit, 0, gates - 1).pending];
    Request::Send {
        lent,
        position: Position {
            gate: gates as u32 - 1,
            stage: Stage::Send(Sort::CommitOpened),
            held: 0,
        },
        coefficients,
        nonce: vec![255; NONCE_BYTES],
        out: vec![0; WORDS],
    }
}

/// A joint run of the largest numbers.
fn largest_run(parties: u32) -> Request {
    let circuit = [
        [IN, 0, 0, 0],
        [TIMES, 0, 0, LARGEST],
        [MUL, 0, 1, 0],
        [SQ, 2, 0, 0],
        [OUT, 3, 0, 0],
    ]
    .concat();
    let shape = circuit::shape(parties, &circuit).expect("the circuit is accepted");
    blank_joint(
        parties,
        &circuit,
        &vec![LARGEST; parties as usize * shape.prep_len()],
        &vec![LARGEST; shape.inputs],
        &vec![LARGEST; shape.coefficients()],
        &vec![255; shape.nonces()],
    )
    .expect("the circuit is accepted")
}

/// All pairs of such factors, and each with some other element.
pub(super) fn all(random: &mut Random) -> Vec<Request> {
    let pairs = FACTORS.into_iter().flat_map(|x| FACTORS.map(|y| (x, y)));
    let mut requests: Vec<Request> = pairs.flat_map(|(x, y)| of_two(x, y)).collect();
    for x in FACTORS {
        requests.extend(of_two(x, random.element()));
    }
    requests.extend([MUL, SQ].map(largest_check));
    requests.extend((2..=8).map(largest_run));
    requests
}

#[cfg(test)]
mod tests {
    use super::*;
    use crate::requests::Answer;

    /// A product of one word each is found in the scratch: p - 1 times p - 1 is 1, 2^16 times 2^15 is 1.
    #[test]
    fn products_are_written_alone() {
        for (x, y, product) in [
            (LARGEST, LARGEST, 1),
            (65536, 32768, 1),
            (46341, 46341, 4634),
            (46340, 46341, 2147441940),
            (0, LARGEST, 0),
            (2, 1 << 30, 1),
        ] {
            for request in &of_two(x, y)[..2] {
                let Answer::Receive { result, scratch } = request.answer() else {
                    unreachable!("only receiving")
                };
                assert!(result.is_ok());
                assert!(scratch.contains(&product), "{x} times {y}");
            }
        }
    }

    #[test]
    fn nothing_is_refused() {
        let requests = all(&mut Random::new(1));
        assert!(requests.iter().all(|one| one.answer().refusal().is_none()));
    }
}
