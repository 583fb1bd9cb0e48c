//! Gives: the worked run, both sides of each question, what receiver and others are answered, altered words, bad masks,
//! the lengths and counts, and secrecy by a matching of good preprocessing.

mod common;

use common::matching::{moves, Two};
use common::Case;
use reference::circuit::{self, Gate};
use reference::example::Example;
use reference::field::{add, mul, sub};
use reference::random::{self, Kinds, Random};
use reference::requests::Request;
use reference::{give, joint_run, open, plain, prep, receive, send, text};
use reference::{Ending, Party, Position, Received, Refusal, Sort, Stage, P};

const PRINTED: &str = "\
in 3 0
show 2147483645 2147483644
seal 1244417175 3912128754 936072702 961251672 2215093797 1217134647 3141193240 50545820 831648754 3312203175 2291131991 1992365589 2348552288 2624841683 2809434074 1669061681
reveal 4 0 0 0 0 0 0 0 0 2147483643 0 0 0 0 0 0 0 0
out 5
";

fn worked() -> Case {
    Case {
        parties: give::PARTIES,
        circuit: give::CIRCUIT.to_vec(),
        shape: circuit::shape(give::PARTIES, &give::CIRCUIT).unwrap(),
        preps: give::PREPS.to_vec(),
        inputs: give::INPUTS.to_vec(),
        coefficients: give::COEFFICIENTS.to_vec(),
        nonces: give::NONCES.to_vec(),
    }
}

fn refusal<T>(number: u32, index: usize) -> Result<T, Refusal> {
    Err(Refusal { number, index })
}

fn at(gate: u32, stage: Stage) -> Position {
    Position {
        gate,
        stage,
        held: 0,
    }
}

#[test]
fn the_worked_run_is_printed() {
    let one = give::request().unwrap().answered();
    assert_eq!(text::show(&one), format!("done 4\n{PRINTED}"));
    let case = worked();
    assert!(prep::is_good(case.parties, &case.circuit, &case.preps));
    let left = case.joint();
    let result = left.result.unwrap();
    assert_eq!(
        (result.ending, result.rounds, result.outputs),
        (Ending::Finished, 4, 1)
    );
    assert_eq!(plain::rounds(&case.circuit), 4);
    assert_eq!(left.outputs[0], 5);
    assert_eq!(case.single(|_, _, _| ()), left);
}

/// What each party of the worked run is lent, writes and is answered: shown p - 5 with MAC shares p - 11 and p - 24, check
/// shares 4 and p - 4; party 1 is released 5, and party 0 goes on to the end.
#[test]
fn each_step_of_the_worked_run() {
    let case = worked();
    let shown = [P - 2, P - 3];
    let lines: Vec<Vec<u32>> = PRINTED
        .lines()
        .map(|line| line.split(' ').skip(1).map(|word| word.parse().unwrap()))
        .map(Iterator::collect)
        .collect();
    let expected = [
        // Shares of the two gates, MAC shares, the opened entry and its MAC share.
        [4, 9, 19, 9, P - 5, P - 11],
        [1, 9, 16, 9, P - 5, P - 24],
    ];
    for (view, expected) in case.views().iter().zip(expected) {
        let party = view.party as usize;
        let mut scratch = [9; 30];
        let mut position = open(view, &scratch).unwrap();
        let mut out = [0; 9];
        for (round, sort) in [Sort::Own, Sort::OpenOutput].into_iter().enumerate() {
            assert_eq!(position, at(round as u32, Stage::Send(sort)));
            position = send(view, &mut scratch, position, &[], &[], &mut out[..1]).unwrap();
            assert_eq!(out[0], lines[round][party]);
            let received = receive(view, &mut scratch, position, &lines[round]);
            let Received::Moved(next) = received.unwrap() else {
                panic!("nothing to release");
            };
            position = next;
        }
        assert_eq!(lines[1], shown);
        assert_eq!(scratch[..6], expected);
        assert_eq!(scratch[6..], [9; 24]);

        assert_eq!(position, at(1, Stage::Send(Sort::CommitOutput)));
        for (coefficients, nonce, room, number) in [
            (&[][..], 32, 8, 16),
            (&[1, 1], 32, 8, 16),
            (&[P], 33, 8, 17),
            (&[1], 31, 8, 25),
            (&[1], 0, 7, 25),
            (&[1], 32, 7, 18),
        ] {
            let (nonce, out) = (&[0; 33][..nonce], &mut out[..room]);
            let told = send(view, &mut scratch, position, coefficients, nonce, out);
            assert_eq!(told, refusal(number, 0));
        }
        position = send(view, &mut scratch, position, &[1], &[0; 32], &mut out).unwrap();
        assert_eq!(position.held, [4, P - 4][party]);
        assert_eq!(out[..8], lines[2][8 * party..][..8]);
        let Ok(Received::Moved(next)) = receive(view, &mut scratch, position, &lines[2]) else {
            panic!("a commitment releases nothing");
        };
        position = send(view, &mut scratch, next, &[], &[], &mut out).unwrap();
        assert_eq!(out[..], lines[3][9 * party..][..9]);

        let before = scratch;
        let finished = at(1, Stage::Finished);
        let answer = match party {
            0 => Received::Moved(finished),
            _ => Received::Released {
                output: 5,
                position: finished,
            },
        };
        assert_eq!(receive(view, &mut scratch, position, &lines[3]), Ok(answer));
        assert_eq!(scratch, before);
    }
}

/// Kind 9 and 11; a first that is this gate, a later one, an out or a give gate; a receiver that is no party; a
/// constant; a give gate at the end or none.
#[test]
fn questions_of_the_circuit() {
    let asked = |parties, gates: &[[u32; 4]]| match circuit::shape(parties, &gates.concat()) {
        Ok(_) => None,
        Err(refusal) => Some((refusal.number, refusal.index)),
    };
    let input = [1, 0, 0, 0];
    for (kind, told) in [(9, None), (11, Some((4, 1))), (u32::MAX, Some((4, 1)))] {
        assert_eq!(asked(2, &[input, [kind, 0, 0, 0]]), told);
    }
    for (parties, receiver, told) in [
        (2, 0, None),
        (2, 1, None),
        (2, 2, Some((5, 1))),
        (8, 7, None),
        (8, 8, Some((5, 1))),
        (8, u32::MAX, Some((5, 1))),
    ] {
        assert_eq!(asked(parties, &[input, [9, 0, receiver, 0]]), told);
    }
    for first in [1, 2, 3, 4, u32::MAX] {
        let gates = [input, [7, 0, 0, 0], [9, 0, 1, 0], [9, first, 1, 0]];
        assert_eq!(asked(2, &gates), Some((5, 3)), "{first}");
    }
    for kind in [2, 3, 4, 5, 6, 7, 8, 9] {
        let gates = [input, [9, 0, 1, 0], [kind, 1, 0, 0], [7, 0, 0, 0]];
        assert_eq!(asked(2, &gates), Some((5, 2)), "{kind}");
    }
    for constant in [1, P - 1, P, u32::MAX] {
        assert_eq!(asked(2, &[input, [9, 0, 1, constant]]), Some((6, 1)));
    }
    // 4 before 5 before 6.
    assert_eq!(asked(2, &[input, [11, 1, 2, 1]]), Some((4, 1)));
    assert_eq!(asked(2, &[input, [9, 0, 2, 1]]), Some((5, 1)));
    assert_eq!(asked(2, &[input, [9, 0, 1, 0], [2, 0, 0, 0]]), Some((7, 0)));
    assert_eq!(asked(2, &[input, [9, 0, 1, 0], [9, 0, 0, 0]]), None);
}

/// Preprocessing of its length, below p at a party that never reads its whole mask too, and the room of scratch.
#[test]
fn questions_of_the_lists() {
    let case = worked();
    for view in case.views() {
        let scratch = [0; 30];
        let opened = Ok(at(0, Stage::Send(Sort::Own)));
        assert_eq!(open(&view, &scratch), opened);
        assert_eq!(open(&view, &scratch[..29]), refusal(12, 0));
        let longer = [view.prep, &[0]].concat();
        for prep in [&view.prep[..6], &view.prep[..4], &longer] {
            assert_eq!(open(&Party { prep, ..view }, &scratch), refusal(8, 0));
        }
        for index in 4..7 {
            for (number, told) in [(P - 1, opened), (P, refusal(9, index))] {
                let mut prep = view.prep.to_vec();
                prep[index] = number;
                let view = Party {
                    prep: &prep,
                    ..view
                };
                assert_eq!(open(&view, &scratch), told);
            }
        }
    }
}

/// A give gate has the stages of an out gate, and the first check's where something is unchecked before it.
#[test]
fn positions_of_a_give() {
    let product = [
        1, 0, 0, 0, 6, 0, 0, 0, 9, 1, 1, 0, 9, 0, 0, 0, 1, 1, 0, 0, 7, 4, 0, 0,
    ];
    let random = &mut Random::new(3);
    let case = Case::of(random, 2, product.to_vec(), 7);
    let view = case.views()[0];
    let mut scratch = vec![0; case.shape.scratch_len()];
    let mut asked = |position| {
        let sent = send(&view, &mut scratch, position, &[0; 9], &[], &mut []);
        sent.unwrap_err().number
    };
    for sort in Sort::ALL {
        // 16 is asked after 13 and 14, and no round wants nine coefficients.
        let own = sort == Sort::Own;
        let first = [Sort::CommitOpened, Sort::RevealOpened].contains(&sort);
        let checked = if own { 13 } else { 16 };
        let unneeded = if own || first { 13 } else { 16 };
        assert_eq!(asked(at(2, Stage::Send(sort))), checked, "{sort:?}");
        assert_eq!(asked(at(3, Stage::Send(sort))), unneeded, "{sort:?}");
        let checked = if own { 13 } else { 14 };
        assert_eq!(asked(at(2, Stage::Receive(sort))), checked, "{sort:?}");
    }
    for (gate, stage, number) in [
        (2, Stage::Aborted, 14),
        (3, Stage::Aborted, 14),
        (1, Stage::Aborted, 13),
        (2, Stage::Finished, 13),
        (5, Stage::Finished, 14),
    ] {
        assert_eq!(asked(at(gate, stage)), number, "{gate} {stage:?}");
    }
    let held = |held| Position {
        held,
        ..at(2, Stage::Send(Sort::RevealOutput))
    };
    assert_eq!(asked(held(P - 1)), 16);
    assert_eq!(asked(held(P)), 13);
    assert_eq!(
        asked(Position {
            held: 1,
            ..at(2, Stage::Send(Sort::OpenOutput))
        }),
        13
    );
    // A circuit that ends with a give gate is finished there.
    let last = worked();
    let told = send(
        &last.views()[0],
        &mut [0; 30],
        at(1, Stage::Finished),
        &[],
        &[],
        &mut [],
    );
    assert_eq!(told, refusal(14, 0));
}

/// The slots of a give gate are not asked; one entry is, from the opening to the second reveal.
#[test]
fn scratch_of_a_give() {
    let case = Case::of(
        &mut Random::new(4),
        2,
        vec![1, 0, 0, 0, 9, 0, 1, 0, 9, 0, 0, 0],
        7,
    );
    let view = case.views()[1];
    let layout = case.shape.layout();
    let asked = |sort, place: usize| {
        let mut scratch = vec![1; case.shape.scratch_len()];
        scratch[place] = P;
        let position = at(2, Stage::Send(sort));
        let told = send(&view, &mut scratch, position, &[1; 3], &[], &mut []);
        told.unwrap_err()
    };
    let no = |index| Refusal { number: 15, index };
    for sort in [Sort::OpenOutput, Sort::CommitOutput, Sort::RevealOutput] {
        for place in [layout.share(0), layout.mac(0)] {
            assert_eq!(asked(sort, place), no(place));
        }
        for place in [1, 2].into_iter().flat_map(|gate| [gate, 3 + gate]) {
            assert_eq!(asked(sort, place).number, 16);
        }
        for place in [layout.opened(0), layout.opened_mac(0)] {
            match sort {
                Sort::OpenOutput => assert_eq!(asked(sort, place).number, 16),
                _ => assert_eq!(asked(sort, place), no(place)),
            }
        }
    }
}

/// The lists of a joint run: one coefficient and one check for each give gate, its word, and a place for its score.
#[test]
fn questions_of_the_joint_run() {
    let case = worked();
    let ask = |coefficients: usize, nonces: usize, words: usize, outputs: usize| {
        joint_run(
            case.parties,
            &case.circuit,
            &case.preps,
            &case.inputs,
            &mut [0; 60],
            &vec![1; coefficients],
            &vec![0; nonces],
            &mut vec![0; words],
            &mut vec![0; outputs],
        )
    };
    assert!(ask(1, 64, 38, 1).is_ok());
    for (coefficients, nonces, words, outputs, number) in [
        (0, 64, 38, 1, 16),
        (2, 64, 38, 1, 16),
        (1, 63, 38, 1, 25),
        (1, 65, 38, 1, 25),
        (1, 64, 37, 1, 18),
        (1, 64, 38, 0, 18),
    ] {
        assert_eq!(
            ask(coefficients, nonces, words, outputs),
            refusal(number, 0)
        );
    }
}

/// Every receiver among 2 to 8 parties: it alone is released the value, which the joint run lists at the gate's turn.
#[test]
fn the_receiver_alone_is_released_the_value() {
    let random = &mut Random::new(5);
    for parties in 2..=8 {
        for receiver in 0..parties {
            #[rustfmt::skip]
            let circuit = vec![
                1, parties - 1, 0, 0,
                8, 0, 0, 0,
                9, 1, receiver, 0,
                7, 0, 0, 0,
                9, 0, parties - 1 - receiver, 0,
                6, 0, 1, 0,
                7, 1, 0, 0,
                9, 5, receiver, 0,
            ];
            let key = random.edge_element();
            let case = Case::of(random, parties, circuit, key);
            let left = case.joint();
            let x = case.inputs[0];
            let (second, third) = (mul(x, x), mul(x, mul(x, x)));
            assert_eq!(left.outputs[..5], [second, x, x, second, third]);
            // Asserts at each gate who is released what.
            assert_eq!(case.single(|_, _, _| ()), left);
        }
    }
}

/// The example of the rank by single entries: every firm is released the score, and firm 2 alone its points.
#[test]
fn the_rank_by_single_entries() {
    let Request::Joint {
        parties,
        circuit,
        preps,
        inputs,
        coefficients,
        nonces,
        ..
    } = Example::Rank.make(1).run.request
    else {
        panic!("the example is a joint run");
    };
    let last = circuit::gates(&circuit).last().unwrap();
    assert_eq!(last.receiver(), Some(2));
    let case = Case {
        shape: circuit::shape(parties, &circuit).unwrap(),
        parties,
        circuit,
        preps,
        inputs,
        coefficients,
        nonces,
    };
    let left = case.joint();
    assert_eq!(left.outputs[..2], [363, 46]);
    // Asserts at each gate who is released what.
    assert_eq!(case.single(|_, _, _| ()), left);
}

/// An altered word that a give gate opens aborts at its second check; one of a product before it at its first. What has been released
/// before stays.
#[test]
fn altered_words_abort() {
    for word in 0..2 {
        let left = worked().single(|round, _, words| {
            if round == 1 {
                words[word] = add(words[word], 1);
            }
        });
        let result = left.result.unwrap();
        let ending = Ending::Aborted {
            gate: 1,
            party: None,
        };
        assert_eq!(
            (result.ending, result.rounds, result.outputs),
            (ending, 4, 0)
        );
        assert_eq!(left.outputs, [u32::MAX; 2]);
    }
    let random = &mut Random::new(7);
    #[rustfmt::skip]
    let circuit = vec![
        1, 0, 0, 0,
        9, 0, 1, 0,
        6, 0, 0, 0,
        9, 2, 0, 0,
        9, 2, 2, 0,
    ];
    // The rounds: in; open, commit, reveal; mul; commit, reveal, open, commit, reveal; open, commit, reveal.
    for (altered, gate, rounds, outputs) in
        [(1, 1, 4, 0), (4, 3, 7, 1), (7, 3, 10, 1), (10, 4, 13, 2)]
    {
        let case = Case::of(random, 3, circuit.clone(), 11);
        let honest = case.joint();
        let left = case.single(|round, _, words| {
            if round == altered {
                words[2] = add(words[2], 5);
            }
        });
        let result = left.result.unwrap();
        let ending = Ending::Aborted { gate, party: None };
        assert_eq!(
            (result.ending, result.rounds, result.outputs),
            (ending, rounds, outputs)
        );
        assert_eq!(left.outputs[..outputs], honest.outputs[..outputs]);
        assert!(left.outputs[outputs..].iter().all(|&one| one == u32::MAX));
    }
}

/// A mask share or MAC share that does not fit aborts. The receiver's whole mask off by d moves what it is given by d, and
/// no check sees it; another party's is never read.
#[test]
fn bad_masks() {
    let random = &mut Random::new(6);
    for _ in 0..100 {
        let parties = random.between(2, 8) as u32;
        let receiver = random.below(parties as usize);
        let key = random.nonzero();
        let circuit = vec![1, 0, 0, 0, 9, 0, receiver as u32, 0];
        let good = Case::of(random, parties, circuit, key);
        let by = random.nonzero();
        let altered = |party: usize, number: usize| {
            let mut case = good.clone();
            let place = party * case.shape.prep_len() + 4 + number;
            case.preps[place] = add(case.preps[place], by);
            case
        };
        let honest = good.joint();
        for party in 0..good.count() {
            for number in 0..2 {
                let case = altered(party, number);
                let faults = prep::faults(parties, &case.circuit, &case.preps);
                assert!(faults.contains(&prep::Fault::GivenMac));
                let left = case.joint();
                let result = left.result.unwrap();
                let ending = Ending::Aborted {
                    gate: 1,
                    party: None,
                };
                assert_eq!((result.ending, result.rounds), (ending, 4));
                assert_eq!(case.single(|_, _, _| ()), left);
            }
            let case = altered(party, 2);
            let faults = prep::faults(parties, &case.circuit, &case.preps);
            let left = case.joint();
            if party == receiver {
                assert_eq!(faults, [prep::Fault::GivenMask]);
                assert_eq!(left.outputs[0], add(good.inputs[0], by));
                assert_eq!(left.transcript, honest.transcript);
                assert_eq!(left.scratch, honest.scratch);
            } else {
                assert_eq!(faults, []);
                assert_eq!(left, honest);
            }
            assert_eq!(case.single(|_, _, _| ()), left);
        }
    }
}

/// What the receiver is released is the number at opened index 0 of its scratch and the whole mask, whatever they are.
#[test]
fn the_score_is_taken_from_scratch_and_preprocessing() {
    let case = worked();
    let marked = marked_scratch();
    for (opened, whole, output) in [
        (P - 5, 10, 5),
        (0, 0, 0),
        (P - 1, P - 1, P - 2),
        (P - 1, 1, 0),
        (7, P - 3, 4),
    ] {
        let view = case.views()[1];
        let mut prep = view.prep.to_vec();
        prep[6] = whole;
        let view = Party {
            prep: &prep,
            ..view
        };
        let mut scratch = marked;
        scratch[4] = opened;
        let position = at(1, Stage::Receive(Sort::RevealOutput));
        let mut heard = [0; 18];
        (heard[0], heard[9]) = (4, P - 4);
        assert_eq!(
            receive(&view, &mut scratch, position, &heard),
            Ok(Received::Released {
                output,
                position: at(1, Stage::Finished)
            })
        );
    }
}

/// A scratch with the marks of the worked run.
fn marked_scratch() -> [u32; 30] {
    let mut scratch = [1; 30];
    let line = PRINTED.lines().nth(2).unwrap();
    for (number, word) in scratch[14..].iter_mut().zip(line.split(' ').skip(1)) {
        *number = word.parse().unwrap();
    }
    scratch
}

/// The formulas, of counts taken from the kinds alone.
#[test]
fn lengths_and_counts() {
    let random = &mut Random::new(8);
    for _ in 0..500 {
        let lines = random.between(2, 256);
        let circuit = random::circuit(random, Kinds::Gives, 3, lines);
        let shape = circuit::shape(3, &circuit).unwrap();
        let kinds: Vec<u32> = circuit.chunks_exact(4).map(|line| line[0]).collect();
        let count = |kind| kinds.iter().filter(|&&one| one == kind).count();
        let (i, m, s, o, g) = (count(1), count(6), count(8), count(7), count(9));
        let parts = kinds.split(|kind| [7, 9].contains(kind)).take(o + g);
        let f = parts
            .filter(|part| part.contains(&6) || part.contains(&8))
            .count();
        let k = o + g + f;
        assert_eq!(shape.prep_len(), 1 + 3 * i + 6 * m + 4 * s + 3 * g);
        assert_eq!(shape.layout().entries(), 2 * m + s + 1);
        assert_eq!(
            shape.scratch_len(),
            2 * lines + 2 * (2 * m + s + 1) + 8 + 8 * 3
        );
        assert_eq!(shape.coefficients(), 2 * m + s + o + g);
        assert_eq!(shape.nonces(), 32 * 3 * k);
        assert_eq!(shape.words(), i + 2 * m + s + o + g + 17 * k);
        assert_eq!((shape.outputs, shape.gives), (o + g, g));
        let rounds = i + m + s + 5 * (o + g) - 2 * (o + g - f);
        assert_eq!(plain::rounds(&circuit), rounds);
        assert_eq!(circuit::rounds(&circuit).len(), rounds);
    }
}

/// The same circuit with out gates in the place of give gates: the same outputs in the same rounds, and three numbers of
/// preprocessing less for each.
#[test]
fn a_give_is_an_output_under_a_mask() {
    let random = &mut Random::new(9);
    for _ in 0..200 {
        let key = random.edge_element();
        let gives = Case::random_of(random, Kinds::Gives, 40, key);
        let mut circuit = gives.circuit.clone();
        for line in circuit.chunks_exact_mut(4).filter(|line| line[0] == 9) {
            line.copy_from_slice(&[7, line[1], 0, 0]);
        }
        let mut outs = Case::of(random, gives.parties, circuit, key);
        outs.inputs.clone_from(&gives.inputs);
        let (left, right) = (gives.joint(), outs.joint());
        assert_eq!(left.outputs, right.outputs);
        assert_eq!(left.result, right.result);
        let (with, without) = (gives.shape, outs.shape);
        assert_eq!(with.prep_len() - without.prep_len(), 3 * with.gives);
        assert_eq!(with.words(), without.words());
        assert_eq!(with.coefficients(), without.coefficients());
        assert_eq!(with.scratch_len(), without.scratch_len());
        assert_eq!(with.nonces(), without.nonces());
    }
}

/// What a give gate opens under a mask of 0 is the value itself: the run of the out gate word for word.
#[test]
fn a_give_under_a_mask_of_0_shows_the_value() {
    let random = &mut Random::new(10);
    for _ in 0..100 {
        let key = random.edge_element();
        let mut gives = Case::random_of(random, Kinds::Gives, 20, key);
        let len = gives.shape.prep_len();
        let mut outs = gives.clone();
        let mut record = 1;
        let mut kept: Vec<bool> = vec![true; len];
        for gate in circuit::gates(&gives.circuit) {
            if let Gate::Give { .. } = gate {
                for prep in gives.preps.chunks_exact_mut(len) {
                    prep[record..record + 3].fill(0);
                }
                kept[record..record + 3].fill(false);
            }
            record += gate.record_len();
        }
        for line in outs.circuit.chunks_exact_mut(4).filter(|line| line[0] == 9) {
            (line[0], line[2]) = (7, 0);
        }
        outs.shape = circuit::shape(outs.parties, &outs.circuit).unwrap();
        let numbers = outs.preps.iter().zip(kept.iter().cycle());
        let without = numbers.filter(|(_, &kept)| kept).map(|(&number, _)| number);
        outs.preps = without.collect();
        assert!(prep::is_good(gives.parties, &gives.circuit, &gives.preps));
        assert_eq!(gives.joint(), outs.joint());
    }
}

/// Both runs look alike to the parties that are seen, whatever is given to the others: gives of moved values to parties that are not
/// seen, of which the outputs differ, and gives to parties that are.
#[test]
fn matched_runs_look_alike() {
    let (mut moved_gives, mut to_seen, mut differing) = (0, 0, 0);
    for seed in 0..4000 {
        let Some(two) = Two::random(&mut Random::new(seed + 50_000), Kinds::Gives) else {
            continue;
        };
        let [left, right] = two.assert_alike();
        differing += usize::from(left.outputs != right.outputs);
        let moved = moves(&two.case, &two.inputs);
        for gate in circuit::gates(&two.case.circuit) {
            if let Gate::Give { wire, receiver } = gate {
                moved_gives += usize::from(moved[wire] != 0);
                to_seen += usize::from(two.seen[receiver as usize]);
            }
        }
    }
    assert!(moved_gives > 500, "{moved_gives}");
    assert!(to_seen > 500, "{to_seen}");
    assert!(differing > 300, "{differing}");
}

/// If a value that is given to a seen party moved, the match would change what that party holds.
#[test]
fn a_moved_value_given_to_a_seen_party_shows() {
    let random = &mut Random::new(12);
    for _ in 0..50 {
        let case = Case::of(random, 3, vec![1, 0, 0, 0, 9, 0, 1, 0], 7);
        let inputs = vec![add(case.inputs[0], random.nonzero())];
        let two = Two {
            inputs: inputs.clone(),
            seen: vec![false, true, false],
            carrier: 2,
            case,
        };
        let other = two.matched(&two.case, &inputs);
        assert!(prep::is_good(3, &other.circuit, &other.preps));
        let whole = 7 + 6;
        let by = sub(inputs[0], two.case.inputs[0]);
        assert_eq!(sub(other.preps[whole], two.case.preps[whole]), by);
        assert_eq!(two.case.joint().transcript, other.joint().transcript);
    }
}
