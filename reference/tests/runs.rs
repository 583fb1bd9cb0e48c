//! Whole runs: single entries against the joint run, good and bad preprocessing, altered words.

mod common;

use common::{Case, Left};
use reference::circuit::{self, Gate};
use reference::field::{add, mul, sum};
use reference::random::Random;
use reference::{plain, prep, Ending, Round};

const SEEDS: u64 = 1500;

/// A key for the seed: 0, 1 or any.
fn key(random: &mut Random) -> u32 {
    random.edge_element()
}

fn gate_of_round(case: &Case, round: usize) -> (usize, Round) {
    circuit::rounds(&case.circuit)[round]
}

#[test]
fn good_preprocessing_gives_the_plain_values() {
    for seed in 0..SEEDS {
        let mut random = Random::new(seed);
        let key = key(&mut random);
        let case = Case::random(&mut random, 40, key);
        assert!(prep::is_good(case.parties, &case.circuit, &case.preps));

        let left = case.joint();
        let result = left.result.unwrap();
        assert_eq!(result.ending, Ending::Finished);
        assert_eq!(result.rounds, plain::rounds(&case.circuit));
        assert_eq!(result.rounds, circuit::rounds(&case.circuit).len());
        assert_eq!(result.words, case.count() * case.shape.words());
        assert_eq!(result.outputs, case.shape.outputs);
        let outputs = plain::outputs(case.parties, &case.circuit, &case.inputs).unwrap();
        assert_eq!(left.outputs[..outputs.len()], outputs);

        // Shares sum to the value, MAC shares to the key times the value; an out gate's are untouched.
        let (len, layout) = (case.shape.scratch_len(), case.shape.layout());
        let values = plain::values(case.parties, &case.circuit, &case.inputs).unwrap();
        for (gate, value) in values.into_iter().enumerate() {
            let bands = || left.scratch.chunks_exact(len).take(case.count());
            let shares: Vec<u32> = bands().map(|band| band[layout.share(gate)]).collect();
            let macs: Vec<u32> = bands().map(|band| band[layout.mac(gate)]).collect();
            match value {
                Some(value) => {
                    assert_eq!(sum(&shares), value);
                    assert_eq!(sum(&macs), mul(key, value));
                }
                None => assert!(shares.iter().chain(&macs).all(|&number| number == u32::MAX)),
            }
        }
        assert_excess_untouched(&case, &left);
        assert_eq!(case.single(|_, _, _| ()), left);
    }
}

fn assert_excess_untouched(case: &Case, left: &Left) {
    let result = left.result.unwrap();
    let scratch = &left.scratch[case.count() * case.shape.scratch_len()..];
    let transcript = &left.transcript[result.words..];
    let outputs = &left.outputs[result.outputs..];
    assert!([scratch, transcript, outputs]
        .concat()
        .iter()
        .all(|&number| number == u32::MAX));
}

/// Preprocessing below p that is not good is no refusal; single entries and the joint run go on and
/// abort alike.
#[test]
fn bad_preprocessing_ends_alike_in_both() {
    let mut aborts = 0;
    for seed in 0..SEEDS {
        let mut random = Random::new(seed + 10_000);
        let key = key(&mut random);
        let mut case = Case::random(&mut random, 30, key);
        let index = random.below(case.preps.len());
        case.preps[index] = random.edge_element();
        let left = case.joint();
        assert_eq!(case.single(|_, _, _| ()), left);
        assert_excess_untouched(&case, &left);
        aborts += u64::from(matches!(
            left.result.unwrap().ending,
            Ending::Aborted { .. }
        ));
    }
    assert!(aborts > SEEDS / 4, "{aborts}");
}

/// An altered word of a product, a square or an output is opened wrongly, and the next check aborts, naming no party. An
/// altered mark or reveal aborts at that check, naming the party whose it is. An altered owner's word in an in round only changes the input; another's is ignored.
#[test]
fn altered_words() {
    for seed in 0..SEEDS {
        let mut random = Random::new(seed + 20_000);
        let key = random.nonzero();
        let case = Case::random(&mut random, 24, key);
        let honest = case.joint();
        let altered_round = random.below(honest.result.unwrap().rounds);
        let (gate, round) = gate_of_round(&case, altered_round);
        let delta = random.nonzero();
        let index = random.below(case.count() * round.words());
        let left = case.single(|now, _, words| {
            if now == altered_round {
                words[index] = if round.has_element(index) {
                    add(words[index], delta)
                } else {
                    words[index].wrapping_add(delta)
                };
            }
        });
        let ending = left.result.unwrap().ending;
        if round == Round::Input {
            assert_eq!(ending, Ending::Finished);
            let Some(Gate::Input { owner }) = circuit::gate(&case.circuit, gate) else {
                panic!("an in round belongs to an in gate");
            };
            let mut inputs = case.inputs.clone();
            if index == owner as usize {
                let first: usize = case.shape.owned[..index].iter().sum();
                let own = circuit::before(&case.circuit, owner, gate).own_inputs;
                inputs[first + own] = add(inputs[first + own], delta);
            }
            let outputs = plain::outputs(case.parties, &case.circuit, &inputs).unwrap();
            assert_eq!(left.outputs[..outputs.len()], outputs);
        } else {
            // The next out or give gate, which may be the gate itself, is where the check fails.
            let next_out = circuit::gates(&case.circuit)
                .enumerate()
                .skip(gate)
                .find(|(_, gate)| gate.is_output())
                .unwrap();
            assert_eq!(
                ending,
                Ending::Aborted {
                    gate: next_out.0 as u32,
                    party: (round.is_commit() || round.is_reveal())
                        .then_some((index / round.words()) as u32),
                }
            );
        }
    }
}

/// One altered number in the preprocessing of values that are opened aborts: the key share, and every
/// share and MAC share of masks, triple and pair. The whole masks, at 3 and 6, only change the inputs and what is
/// given.
#[test]
fn altered_shares_abort() {
    let mut random = Random::new(77);
    let product = [1, 0, 0, 0, 1, 1, 0, 0, 6, 0, 1, 0, 7, 2, 0, 0];
    let square = [1, 0, 0, 0, 8, 0, 0, 0, 7, 1, 0, 0];
    let give = [1, 0, 0, 0, 9, 0, 1, 0];
    for (circuit, len, whole_masks) in [
        (&product[..], 13, &[3, 6][..]),
        (&square, 8, &[3]),
        (&give, 7, &[3, 6]),
    ] {
        let gate = circuit.len() as u32 / 4 - 1;
        for index in (0..3 * len).filter(|index| !whole_masks.contains(&(index % len))) {
            let key = random.nonzero();
            let mut case = Case::of(&mut random, 3, circuit.to_vec(), key);
            case.preps[index] = add(case.preps[index], random.nonzero());
            let left = case.joint();
            let ending = Ending::Aborted { gate, party: None };
            assert_eq!(left.result.unwrap().ending, ending);
            assert_eq!(case.single(|_, _, _| ()), left);
        }
    }
}

#[test]
fn altered_preprocessing_is_not_good() {
    for seed in 0..300 {
        let mut random = Random::new(seed + 30_000);
        let key = random.nonzero();
        let mut case = Case::random(&mut random, 12, key);
        let len = case.shape.prep_len();
        let index = random.below(case.preps.len());
        case.preps[index] = add(case.preps[index], random.nonzero());
        // A whole mask that is not read is any element.
        let mut unread = false;
        let mut record = 1;
        for gate in circuit::gates(&case.circuit) {
            if let Gate::Input { owner: knower }
            | Gate::Give {
                receiver: knower, ..
            } = gate
            {
                unread |= index % len == record + 2 && index / len != knower as usize;
            }
            record += gate.record_len();
        }
        assert_eq!(
            prep::is_good(case.parties, &case.circuit, &case.preps),
            unread
        );
    }
}
