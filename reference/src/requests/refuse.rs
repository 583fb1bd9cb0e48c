//! Requests that one question refuses: what the entries have in common, and questions 1 to 12.

use super::refuse_steps::{
    impossible_position, spoiled_hearing, spoiled_scratch, spoiled_sending, wrong_half,
};
use super::scene::Scene;
use super::{Entry, Request, Size};
use crate::circuit::{ADD, GIVE, IN, MUL, NO_KIND, OUT, OVER, PLUS, SQ, SUB, TIMES};
use crate::field::P;
use crate::party::Position;
use crate::random::{self, Random};

use Entry::{Joint, Open, Receive, Send};

const ALL: &[Entry] = &[Open, Send, Receive, Joint];
const SINGLE: &[Entry] = &[Open, Send, Receive];
const STEPS: &[Entry] = &[Send, Receive];
const SENDERS: &[Entry] = &[Send, Joint];
const RECEIVERS: &[Entry] = &[Receive];

/// For each refusal number: the entries that ask it, its variants, and whether every turn has every
/// variant in every entry.
pub(super) const CASES: [(u32, &[Entry], usize, bool); 21] = [
    (1, ALL, 4, false),
    (2, SINGLE, 2, false),
    (3, ALL, 5, false),
    (4, ALL, 3, false),
    (5, ALL, 6, false),
    (6, ALL, 9, false),
    (7, ALL, 2, false),
    (8, ALL, 3, false),
    (9, ALL, 4, false),
    (10, ALL, 2, false),
    (11, ALL, 2, false),
    (12, ALL, 2, false),
    (13, STEPS, 17, false),
    (14, STEPS, 3, true),
    (15, STEPS, 4, false),
    (16, SENDERS, 3, true),
    (17, SENDERS, 2, false),
    (18, SENDERS, 2, true),
    (19, RECEIVERS, 3, false),
    (20, RECEIVERS, 3, false),
    (25, SENDERS, 4, true),
];

/// The lists that all entries are lent, of one party or of all.
pub(super) struct Lists<'a> {
    pub parties: &'a mut u32,
    pub circuit: &'a mut Vec<u32>,
    pub prep: &'a mut Vec<u32>,
    pub inputs: &'a mut Vec<u32>,
    pub scratch: &'a mut Vec<u32>,
}

impl Request {
    pub(super) fn lists(&mut self) -> Lists<'_> {
        match self {
            Request::Open { lent } | Request::Send { lent, .. } | Request::Receive { lent, .. } => {
                Lists {
                    parties: &mut lent.parties,
                    circuit: &mut lent.circuit,
                    prep: &mut lent.prep,
                    inputs: &mut lent.inputs,
                    scratch: &mut lent.scratch,
                }
            }
            Request::Joint {
                parties,
                circuit,
                preps,
                inputs,
                scratch,
                ..
            } => Lists {
                parties,
                circuit,
                prep: preps,
                inputs,
                scratch,
            },
        }
    }
}

/// A request that the entry refuses with the number.
pub(super) fn refused(
    random: &mut Random,
    size: Size,
    entry: Entry,
    number: u32,
    variant: usize,
) -> Request {
    let scene = Scene::rich(random, size);
    let first_owner = scene.circuit[1];
    let party = match number {
        // The whole mask of gate 0 is then one that the party never reads.
        9 => (first_owner + 1) % scene.parties,
        10 | 11 => first_owner,
        _ => scene.any_party(random),
    };
    match number {
        1..=12 => {
            let mut request = scene.any(random, entry, party);
            spoil_lent(random, &scene, &mut request, number, variant);
            request
        }
        13 => {
            let mut request = scene.any(random, entry, party);
            set_position(
                &mut request,
                impossible_position(random, &scene, entry, variant),
            );
            request
        }
        14 => wrong_half(random, &scene, entry, party, variant),
        15 => spoiled_scratch(random, &scene, entry, party, variant),
        16..=18 | 25 => spoiled_sending(random, &scene, entry, party, number, variant),
        _ => spoiled_hearing(random, &scene, party, number, variant),
    }
}

/// Adds faults that only questions after the given one see: "the first no decides".
pub(super) fn add_later_faults(random: &mut Random, request: &mut Request, number: u32) {
    let Lists {
        prep,
        inputs,
        scratch,
        ..
    } = request.lists();
    for (list, length, elements) in [(prep, 8, 9), (inputs, 10, 11)] {
        if number < length && random.once_in(2) {
            list.push(P);
        }
        if number < elements && random.once_in(2) {
            list.fill(u32::MAX);
        }
    }
    if number < 12 && random.once_in(2) {
        scratch.clear();
    } else if number < 15 {
        scratch.fill(u32::MAX);
    }
    match request {
        Request::Open { .. } => {}
        Request::Send {
            coefficients,
            nonce: nonces,
            out: words,
            ..
        }
        | Request::Joint {
            coefficients,
            nonces,
            transcript: words,
            ..
        } => {
            late_coefficients(coefficients, number);
            // 25 is asked between 17 and 18.
            if number < 18 && random.once_in(2) {
                nonces.push(7);
            }
            if number < 18 || number == 25 {
                words.clear();
            }
        }
        Request::Receive { heard, .. } => {
            if number < 19 && random.once_in(2) {
                heard.pop();
            }
            if number < 20 {
                heard.fill(P);
            }
        }
    }
}

fn late_coefficients(coefficients: &mut Vec<u32>, number: u32) {
    if number < 16 {
        coefficients.extend([P; 3]);
    } else if number == 16 {
        coefficients.fill(P);
    }
}

/// Puts a number that is no element into the list, and perhaps another one after it.
pub(super) fn spoil_elements(random: &mut Random, list: &mut [u32], number: u32) {
    let index = random.below(list.len());
    let later = random.between(index, list.len() - 1);
    list[later] = u32::MAX;
    list[index] = number;
}

pub(super) fn set_len(random: &mut Random, list: &mut Vec<u32>, len: usize) {
    list.truncate(len);
    while list.len() < len {
        list.push(random.element());
    }
}

fn spoil_lent(
    random: &mut Random,
    scene: &Scene,
    request: &mut Request,
    number: u32,
    variant: usize,
) {
    let count = if request.entry() == Joint {
        scene.parties as usize
    } else {
        1
    };
    if let (
        2,
        Request::Open { lent } | Request::Send { lent, .. } | Request::Receive { lent, .. },
    ) = (number, &mut *request)
    {
        lent.party = [lent.parties, u32::MAX][variant];
        return;
    }
    let Lists {
        parties,
        circuit,
        prep,
        inputs,
        scratch,
    } = request.lists();
    match number {
        1 => *parties = [9, 1, 0, u32::MAX][variant],
        3 => match variant {
            0 => drop(circuit.pop()),
            1 => circuit.push(0),
            2 => *circuit = random::circuit(random, scene.kinds(), scene.parties, 257),
            3 => drop(circuit.drain(..circuit.len() - 4)),
            _ => circuit.clear(),
        },
        4 => {
            let index = random.below(scene.shape.gates);
            circuit[4 * index] = [0, NO_KIND, u32::MAX][variant];
        }
        5 => spoil_name(random, scene, circuit, variant),
        6 => spoil_field(random, scene, circuit, variant),
        7 => {
            let last = circuit.len() - 4;
            circuit[last..].copy_from_slice(&[[PLUS, 0, 0, 1], [IN, 0, 0, 0]][variant]);
        }
        8 => {
            let len = prep.len();
            set_len(random, prep, [len - 1, len + 1, 0][variant]);
        }
        9 => {
            let last = prep.len() - 1;
            match variant {
                0 => prep[0] = P,
                1 => prep[last] = u32::MAX,
                2 => prep[3] = P,
                _ => spoil_elements(random, prep, P),
            }
        }
        10 => {
            let len = inputs.len();
            set_len(random, inputs, [len - 1, len + 1][variant]);
        }
        11 => spoil_elements(random, inputs, [P, u32::MAX][variant]),
        _ => scratch.truncate([count * scene.shape.scratch_len() - 1, 0][variant]),
    }
}

/// Question 5: a named party too high, or a named gate that is the gate itself, later, an out or give gate or
/// far beyond the circuit.
fn spoil_name(random: &mut Random, scene: &Scene, circuit: &mut [u32], variant: usize) {
    if variant == 0 {
        let index = random.pick(&scene.gates_of(&[IN, GIVE]));
        let field = if circuit[4 * index] == IN { 1 } else { 2 };
        circuit[4 * index + field] = random.pick(&[scene.parties, u32::MAX]);
        return;
    }
    // The last variant is any of the faults before it, in the second name.
    let (fault, field) = if variant == 5 {
        (random.between(1, 4), 2)
    } else {
        (variant, 1)
    };
    let kinds: &[u32] = if field == 2 {
        &[ADD, SUB, MUL]
    } else {
        &[ADD, SUB, PLUS, TIMES, MUL, OUT, SQ, GIVE, OVER]
    };
    let mut named = scene.gates_of(kinds);
    let first_out = scene.gates_of(&[OUT, GIVE])[0];
    if fault == 3 {
        named.retain(|&index| index > first_out);
    }
    let index = random.pick(&named);
    circuit[4 * index + field] = match fault {
        1 => index as u32,
        2 => random.between(index + 1, scene.shape.gates) as u32,
        3 => first_out as u32,
        _ => u32::MAX,
    };
}

/// Question 6: a constant that is no element or is 0 in an over gate, or an unused field that is not 0.
fn spoil_field(random: &mut Random, scene: &Scene, circuit: &mut [u32], variant: usize) {
    let (kinds, field, number): (&[u32], usize, u32) = match variant {
        0 => (&[PLUS, TIMES, OVER], 3, P),
        1 => (&[PLUS, TIMES, OVER], 3, u32::MAX),
        2 => (&[PLUS, TIMES, OVER], 2, 1),
        5 if scene.kinds().has(OVER) && random.once_in(2) => (&[OVER], 3, 0),
        3 => (&[IN], 2, 1),
        4 => (&[IN], 3, 1),
        5 => (&[ADD, SUB], 3, 1),
        6 => (&[MUL], 3, P),
        7 => (&[OUT, SQ], 2, 1),
        _ => (&[OUT, SQ, GIVE], 3, u32::MAX),
    };
    let index = random.pick(&scene.gates_of(kinds));
    circuit[4 * index + field] = number;
}

pub(super) fn set_position(request: &mut Request, new: Position) {
    if let Request::Send { position, .. } | Request::Receive { position, .. } = request {
        *position = new;
    }
}
