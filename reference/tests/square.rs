//! Squares: the worked run, the lengths and counts, and secrecy by a matching of good preprocessing.

mod common;

use common::matching::{moves, Two};
use common::Case;
use reference::circuit::{self, Gate};
use reference::field::{add, mul};
use reference::random::{self, Kinds, Random};
use reference::{open, plain, prep, receive, send, square, text};
use reference::{Ending, Position, Received, Refusal, Sort, Stage, P};

const PRINTED: &str = "\
in 3 0
sq 3 2147483646
seal 1244417175 3912128754 936072702 961251672 2215093797 1217134647 3141193240 50545820 831648754 3312203175 2291131991 1992365589 2348552288 2624841683 2809434074 1669061681
reveal 4 0 0 0 0 0 0 0 0 2147483643 0 0 0 0 0 0 0 0
show 12 13
seal 483445722 916581825 3880944572 1585683072 3011651711 759239728 1387696807 3209849548 2415773932 879656673 1271163634 255918963 1918028585 4192598957 588569058 3658165748
reveal 105 0 0 0 0 0 0 0 0 2147483542 0 0 0 0 0 0 0 0
out 25
";

fn worked() -> Case {
    Case {
        parties: square::PARTIES,
        circuit: square::CIRCUIT.to_vec(),
        shape: circuit::shape(square::PARTIES, &square::CIRCUIT).unwrap(),
        preps: square::PREPS.to_vec(),
        inputs: square::INPUTS.to_vec(),
        coefficients: square::COEFFICIENTS.to_vec(),
        nonces: square::NONCES.to_vec(),
    }
}

#[test]
fn the_worked_run_is_printed() {
    let one = square::request().unwrap().answered();
    assert_eq!(text::show(&one), format!("done 7\n{PRINTED}"));
    let case = worked();
    assert!(prep::is_good(case.parties, &case.circuit, &case.preps));
    let left = case.joint();
    let result = left.result.unwrap();
    assert_eq!(
        (result.ending, result.rounds, result.outputs),
        (Ending::Finished, 7, 1)
    );
    assert_eq!(plain::rounds(&case.circuit), 7);
    assert_eq!(case.single(|_, _, _| ()), left);
}

/// Shares 12 and 13, MAC shares 96 and 79; the first seal wants exactly one coefficient.
#[test]
fn shares_and_mac_shares_of_the_worked_run() {
    let case = worked();
    let expected = [
        // Shares of the three gates, MAC shares, opened entries, MAC shares of those.
        [4, 12, 9, 19, 96, 9, 2, 9, 8, 9],
        [1, 13, 9, 16, 79, 9, 2, 9, 6, 9],
    ];
    for (view, expected) in case.views().iter().zip(expected) {
        let mut scratch = [9; 34];
        let mut position = open(view, &scratch).unwrap();
        for heard in [[3, 0], [3, P - 1]] {
            let mut out = [0; 1];
            position = send(view, &mut scratch, position, &[], &[], &mut out).unwrap();
            assert_eq!(out, [heard[view.party as usize]]);
            let Received::Moved(next) = receive(view, &mut scratch, position, &heard).unwrap()
            else {
                panic!("nothing to release");
            };
            position = next;
        }
        assert_eq!(scratch[..10], expected);
        assert_eq!(scratch[10..], [9; 24]);
        assert_eq!(
            position,
            Position {
                gate: 2,
                stage: Stage::Send(Sort::CommitOpened),
                held: 0
            }
        );
        let mut out = [0; 8];
        let nonce = [0; 32];
        for coefficients in [&[][..], &[2, 5]] {
            assert_eq!(
                send(view, &mut scratch, position, coefficients, &nonce, &mut out),
                Err(Refusal {
                    number: 16,
                    index: 0
                })
            );
        }
        let committed = send(view, &mut scratch, position, &[2], &nonce, &mut out).unwrap();
        assert_eq!(committed.held, [4, P - 4][view.party as usize]);
    }
}

/// An altered word of the square aborts at the output's first check.
#[test]
fn an_altered_word_of_a_square_aborts() {
    for word in 0..2 {
        let left = worked().single(|round, _, words| {
            if round == 1 {
                words[word] = add(words[word], 1);
            }
        });
        let result = left.result.unwrap();
        assert_eq!(
            (result.ending, result.rounds, result.outputs),
            (
                Ending::Aborted {
                    gate: 2,
                    party: None
                },
                4,
                0
            )
        );
    }
}

/// c off by d under a right MAC: no check sees it, and the output is off by d.
#[test]
fn a_bad_square_moves_the_output() {
    let random = &mut Random::new(6);
    for _ in 0..50 {
        let parties = random.between(2, 8) as u32;
        let key = random.edge_element();
        let mut case = Case::of(random, parties, square::CIRCUIT.to_vec(), key);
        let by = random.nonzero();
        let c = random.below(case.count()) * case.shape.prep_len() + 6;
        case.preps[c] = add(case.preps[c], by);
        case.preps[c + 1] = add(case.preps[c + 1], mul(key, by));
        assert_eq!(
            prep::faults(parties, &case.circuit, &case.preps),
            [prep::Fault::Square]
        );
        let left = case.joint();
        assert_eq!(left.result.unwrap().ending, Ending::Finished);
        let input = case.inputs[0];
        assert_eq!(left.outputs[0], add(mul(input, input), by));
    }
}

/// The formulas, of counts taken from the kinds alone.
#[test]
fn lengths_and_counts() {
    let random = &mut Random::new(8);
    for _ in 0..500 {
        let lines = random.between(2, 256);
        let circuit = random::circuit(random, Kinds::Squares, 3, lines);
        let shape = circuit::shape(3, &circuit).unwrap();
        let kinds: Vec<u32> = circuit.chunks_exact(4).map(|line| line[0]).collect();
        let count = |kind| kinds.iter().filter(|&&one| one == kind).count();
        let (i, m, s, o) = (count(1), count(6), count(8), count(7));
        let parts = kinds.split(|&kind| kind == 7).take(o);
        let f = parts
            .filter(|part| part.contains(&6) || part.contains(&8))
            .count();
        assert_eq!(shape.prep_len(), 1 + 3 * i + 6 * m + 4 * s);
        assert_eq!(shape.layout().entries(), 2 * m + s + 1);
        assert_eq!(
            shape.scratch_len(),
            2 * lines + 2 * (2 * m + s + 1) + 8 + 8 * 3
        );
        assert_eq!(shape.coefficients(), 2 * m + s + o);
        assert_eq!(shape.nonces(), 32 * 3 * (o + f));
        assert_eq!(shape.words(), i + 2 * m + s + o + 17 * (o + f));
        assert_eq!(plain::rounds(&circuit), i + m + s + 5 * o - 2 * (o - f));
        assert_eq!(circuit::rounds(&circuit).len(), plain::rounds(&circuit));
    }
}

/// The same circuit by squares and by products of a wire with itself.
#[test]
fn a_square_is_the_product_of_a_wire_with_itself() {
    let random = &mut Random::new(9);
    for _ in 0..200 {
        let key = random.edge_element();
        let squares = Case::random(random, 40, key);
        let mut circuit = squares.circuit.clone();
        for line in circuit.chunks_exact_mut(4).filter(|line| line[0] == 8) {
            line.copy_from_slice(&[6, line[1], line[1], 0]);
        }
        let mut products = Case::of(random, squares.parties, circuit, key);
        products.inputs.clone_from(&squares.inputs);
        let (left, right) = (squares.joint(), products.joint());
        assert_eq!(left.outputs, right.outputs);
        let rounds = [left, right].map(|left| left.result.unwrap().rounds);
        assert_eq!(rounds[0], rounds[1]);
        let (few, many) = (squares.shape, products.shape);
        assert_eq!(many.prep_len() - few.prep_len(), 2 * few.squares);
        assert_eq!(many.words() - few.words(), few.squares);
        assert_eq!(many.coefficients() - few.coefficients(), few.squares);
        assert_eq!(many.scratch_len() - few.scratch_len(), 2 * few.squares);
    }
}

/// Both runs look alike to the parties that are seen, whichever wires are squared.
#[test]
fn matched_runs_look_alike() {
    let mut moved_squares = 0;
    for seed in 0..3000 {
        let Some(two) = Two::random(&mut Random::new(seed + 40_000), Kinds::Squares) else {
            continue;
        };
        two.assert_alike();
        let moved = moves(&two.case, &two.inputs);
        moved_squares += circuit::gates(&two.case.circuit)
            .filter(|gate| matches!(*gate, Gate::Square { wire } if moved[wire] != 0))
            .count();
    }
    assert!(moved_squares > 500, "{moved_squares}");
}
