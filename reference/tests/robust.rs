//! No entry panics, whatever it is lent.

mod common;

use common::answers::{assert_refusal_is_right, assert_written_as_due};
use reference::random::Random;
use reference::requests::{generate, random_sheet, Lent, Request, Size};
use reference::{read_sheet, write_sheet, Position, Sort, Stage, P};

/// Accepted requests with any number changed, and any list cut or lengthened.
#[test]
fn changed_requests_never_panic() {
    let mut random = Random::new(9);
    for mut one in generate(4, 20_000, Size::SMALL) {
        for _ in 0..random.between(1, 3) {
            change(&mut random, &mut one.request);
        }
        let answered = one.request.answered();
        if let Some(refusal) = answered.answer.refusal() {
            assert_refusal_is_right(&answered, refusal);
        }
        assert_written_as_due(&answered);
    }
}

fn any_number(random: &mut Random) -> u32 {
    match random.below(4) {
        0 => random.below(12) as u32,
        1 => random.pick(&[P - 1, P, u32::MAX]),
        _ => random.number(),
    }
}

fn any_stage(random: &mut Random) -> Stage {
    let sort = random.pick(&Sort::ALL);
    random.pick(&[
        Stage::Send(sort),
        Stage::Receive(sort),
        Stage::Finished,
        Stage::Aborted,
    ])
}

fn change_list(random: &mut Random, list: &mut Vec<u32>) {
    let number = any_number(random);
    match random.below(4) {
        0 => list.push(number),
        1 => drop(list.pop()),
        _ if list.is_empty() => {}
        _ => {
            let index = random.below(list.len());
            list[index] = number;
        }
    }
}

fn change_bytes(random: &mut Random, bytes: &mut Vec<u8>) {
    match random.below(3) {
        0 => bytes.push(7),
        1 => drop(bytes.pop()),
        _ => bytes.fill(random.below(256) as u8),
    }
}

fn change(random: &mut Random, request: &mut Request) {
    if let Request::Send { position, .. } | Request::Receive { position, .. } = request {
        match random.below(12) {
            0 => return position.stage = any_stage(random),
            1 => return position.gate = any_number(random),
            2 => return position.held = any_number(random),
            _ => {}
        }
    }
    let number = any_number(random);
    match request {
        Request::Joint {
            parties,
            circuit,
            preps,
            inputs,
            scratch,
            coefficients,
            nonces,
            transcript,
            outputs,
        } => {
            if random.once_in(9) {
                return change_bytes(random, nonces);
            }
            let lists = [
                circuit,
                preps,
                inputs,
                scratch,
                coefficients,
                transcript,
                outputs,
            ];
            match random.below(8) {
                7 => *parties = number,
                chosen => change_list(random, lists.into_iter().nth(chosen).unwrap()),
            }
        }
        Request::Open { lent } | Request::Send { lent, .. } | Request::Receive { lent, .. }
            if !random.once_in(3) =>
        {
            let lists = [
                &mut lent.circuit,
                &mut lent.prep,
                &mut lent.inputs,
                &mut lent.scratch,
            ];
            match random.below(6) {
                5 => lent.parties = number,
                4 => lent.party = number,
                chosen => change_list(random, lists.into_iter().nth(chosen).unwrap()),
            }
        }
        Request::Open { lent } => change_list(random, &mut lent.scratch),
        Request::Send { nonce, .. } if random.once_in(3) => change_bytes(random, nonce),
        Request::Send {
            coefficients, out, ..
        } => {
            let list = if random.once_in(2) { coefficients } else { out };
            change_list(random, list);
        }
        Request::Receive { heard, .. } => change_list(random, heard),
    }
}

/// Lists of any lengths and any numbers.
#[test]
fn garbage_never_panics() {
    let mut random = Random::new(10);
    for _ in 0..60_000 {
        let list = |random: &mut Random| {
            let len = random.below(40);
            (0..len).map(|_| any_number(random)).collect::<Vec<u32>>()
        };
        let lent = Lent {
            parties: any_number(&mut random),
            party: any_number(&mut random),
            circuit: list(&mut random),
            prep: list(&mut random),
            inputs: list(&mut random),
            scratch: list(&mut random),
        };
        let position = Position {
            gate: any_number(&mut random),
            stage: any_stage(&mut random),
            held: any_number(&mut random),
        };
        let requests = [
            Request::Open { lent: lent.clone() },
            Request::Send {
                lent: lent.clone(),
                position,
                coefficients: list(&mut random),
                nonce: vec![7; random.pick(&[0, 31, 32])],
                out: list(&mut random),
            },
            Request::Receive {
                lent: lent.clone(),
                position,
                heard: list(&mut random),
            },
            Request::Joint {
                parties: lent.parties,
                circuit: lent.circuit,
                preps: lent.prep,
                inputs: lent.inputs,
                scratch: lent.scratch,
                coefficients: list(&mut random),
                nonces: vec![7; 32 * random.below(5)],
                transcript: list(&mut random),
                outputs: list(&mut random),
            },
        ];
        for request in requests {
            assert_written_as_due(&request.answered());
        }
    }
}

/// Texts of any bytes, sheets of which parts are moved about, and circuits of any numbers.
#[test]
fn sheets_of_garbage_never_panic() {
    let mut random = Random::new(11);
    for turn in 0..30_000 {
        let mut text: Vec<u8> = match turn % 3 {
            0 => (0..random.below(60))
                .map(|_| random.below(256) as u8)
                .collect(),
            _ => {
                let rows = random.between(1, 12);
                random_sheet(&mut random, rows)
            }
        };
        if turn % 3 == 2 {
            let (cut, len) = (random.below(text.len()), random.below(40));
            let part: Vec<u8> = text
                .iter()
                .skip(random.below(text.len()))
                .take(len)
                .copied()
                .collect();
            text.splice(cut..cut, part);
        }
        let mut circuit = vec![9; random.below(200)];
        let before = circuit.clone();
        let parties = any_number(&mut random);
        match read_sheet(parties, &text, &mut circuit) {
            Ok(gates) => assert_eq!(before[4 * gates..], circuit[4 * gates..]),
            Err(refusal) => {
                assert!(refusal.index <= text.len());
                assert_eq!(before, circuit);
            }
        }
        let numbers: Vec<u32> = (0..random.below(20))
            .map(|_| any_number(&mut random))
            .collect();
        let mut sheet = vec![7; random.below(100)];
        if write_sheet(parties, &numbers, &mut sheet).is_err() {
            assert!(sheet.iter().all(|&byte| byte == 7));
        }
    }
}
