//! What every answer must fulfil: the index of a refusal, and which lists are written.

use reference::circuit;
use reference::requests::{Answer, Answered, Request};
use reference::{Ending, JointResult, Position, Received, Refusal, Round, Sort, Stage, P};

/// The list whose number, the first that is no element, the refusal's index names.
fn offending(one: &Answered, number: u32) -> Option<&[u32]> {
    let (prep, inputs): (&[u32], &[u32]) = match &one.request {
        Request::Open { lent } | Request::Send { lent, .. } | Request::Receive { lent, .. } => {
            (&lent.prep, &lent.inputs)
        }
        Request::Joint { preps, inputs, .. } => (preps, inputs),
    };
    match (number, &one.request) {
        (9, _) => Some(prep),
        (11, _) => Some(inputs),
        (17, Request::Send { coefficients, .. } | Request::Joint { coefficients, .. }) => {
            Some(coefficients)
        }
        _ => None,
    }
}

pub fn assert_refusal_is_right(one: &Answered, refusal: Refusal) {
    let Refusal { number, index } = refusal;
    match (number, &one.request) {
        (4..=6, Request::Joint { circuit, .. }) => assert!(index < circuit.len() / 4),
        (
            4..=6,
            Request::Open { lent } | Request::Send { lent, .. } | Request::Receive { lent, .. },
        ) => {
            assert!(index < lent.circuit.len() / 4);
        }
        (15, Request::Send { lent, position, .. } | Request::Receive { lent, position, .. }) => {
            assert_eq!(
                Some(index),
                first_asked_offender(&lent.circuit, &lent.scratch, lent.parties, *position)
            );
        }
        (
            20,
            Request::Receive {
                lent,
                position,
                heard,
            },
        ) => {
            let round = position.round(&lent.circuit).expect("a round is heard");
            assert!(!round.is_commit());
            // Of a reveal's nine words the first.
            let asked = |index: usize| !round.is_reveal() || index.is_multiple_of(9);
            let first = (0..heard.len()).find(|&index| asked(index) && heard[index] >= P);
            assert_eq!(Some(index), first);
        }
        (9 | 11 | 17, _) => {
            let list = offending(one, number).expect("the entry has such a list");
            assert_eq!(Some(index), list.iter().position(|&x| x >= P));
        }
        _ => assert_eq!(index, 0),
    }
}

/// Question 15 once more, asked of every index of the scratch in turn.
fn first_asked_offender(
    circuit: &[u32],
    scratch: &[u32],
    parties: u32,
    position: Position,
) -> Option<usize> {
    let shape = circuit::shape(parties, circuit).unwrap();
    let (gates, gate) = (shape.gates, position.gate as usize);
    let opened = 2 * shape.products + shape.squares + 1;
    let (Stage::Send(sort) | Stage::Receive(sort)) = position.stage else {
        return None;
    };
    let mut unchecked = 0;
    for line in circuit.chunks_exact(4).take(gate) {
        match line[0] {
            6 => unchecked += 2,
            8 => unchecked += 1,
            7 | 9 => unchecked = 0,
            _ => {}
        }
    }
    match sort {
        Sort::OpenOutput => unchecked = 0,
        Sort::CommitOutput | Sort::RevealOutput => unchecked = 1,
        _ => {}
    }
    let asked = |index: usize| {
        if index < 2 * gates {
            index % gates < gate && ![7, 9].contains(&circuit[4 * (index % gates)])
        } else {
            index < 2 * gates + 2 * opened && (index - 2 * gates) % opened < unchecked
        }
    };
    (0..scratch.len()).find(|&index| asked(index) && scratch[index] >= P)
}

/// Where the nonce stands in a party's scratch: after shares, MAC shares, opened entries and MAC shares of these.
fn nonce_place(circuit: &[u32]) -> usize {
    let count = |kind| {
        circuit
            .chunks_exact(4)
            .filter(|line| line[0] == kind)
            .count()
    };
    2 * (circuit.len() / 4) + 2 * (2 * count(6) + count(8) + 1)
}

/// On a refusal every list is as before; otherwise nothing beyond what is due is written.
pub fn assert_written_as_due(one: &Answered) {
    let refused = one.answer.refusal().is_some();
    match (&one.request, &one.answer) {
        (
            Request::Send {
                lent,
                out: before,
                position,
                nonce,
                ..
            },
            Answer::Send { scratch, out, .. },
        ) => {
            let round = position.round(&lent.circuit).filter(|_| !refused);
            let words = round.map_or(0, Round::words);
            assert_eq!(before[words..], out[words..]);
            let mut written = lent.scratch.clone();
            match round {
                // The nonce is written, high byte first, and nothing else.
                Some(round) if round.is_commit() => {
                    let place = nonce_place(&lent.circuit);
                    for (number, bytes) in written[place..].iter_mut().zip(nonce.chunks(4)) {
                        *number = u32::from_be_bytes(bytes.try_into().unwrap());
                    }
                }
                // What is posted is the check share and the nonce as it stands.
                Some(round) if round.is_reveal() => {
                    assert_eq!(out[0], position.held);
                    let place = nonce_place(&lent.circuit);
                    assert_eq!(out[1..9], lent.scratch[place..place + 8]);
                }
                _ => assert!(out[..words].iter().all(|&word| word < P)),
            }
            assert_eq!(written, *scratch);
        }
        (
            Request::Receive {
                lent,
                position,
                heard,
            },
            Answer::Receive { result, scratch },
        ) => {
            let untouched = match result {
                Err(_) | Ok(Received::Aborted { .. }) => true,
                Ok(_) => position.stage == Stage::Receive(Sort::RevealOpened),
            };
            let mut written = lent.scratch.clone();
            if untouched {
                assert_eq!(written, *scratch);
                return;
            }
            // Marks are written as they are heard, and by a commitment nothing else.
            let marks = nonce_place(&lent.circuit) + 8;
            if let Stage::Receive(Sort::CommitOpened | Sort::CommitOutput) = position.stage {
                written[marks..marks + heard.len()].copy_from_slice(heard);
                assert_eq!(written, *scratch);
            } else {
                assert_eq!(written[marks - 8..], scratch[marks - 8..]);
            }
        }
        (
            Request::Joint {
                parties,
                circuit,
                scratch: band,
                transcript: words,
                outputs: list,
                ..
            },
            Answer::Joint {
                result,
                scratch,
                transcript,
                outputs,
            },
        ) => {
            let len = match result {
                Ok(_) => {
                    *parties as usize * circuit::shape(*parties, circuit).unwrap().scratch_len()
                }
                Err(_) => 0,
            };
            let nothing = JointResult {
                ending: Ending::Finished,
                rounds: 0,
                outputs: 0,
                words: 0,
            };
            let result = result.unwrap_or(nothing);
            assert_eq!(band[len..], scratch[len..]);
            assert_eq!(words[result.words..], transcript[result.words..]);
            assert_eq!(list[result.outputs..], outputs[result.outputs..]);
        }
        (Request::Open { .. }, Answer::Open { .. }) => {}
        _ => panic!("the answer is of another entry"),
    }
}
