//! Overs: the worked run, inverses, times and over that undo each other at every party, both sides of each question, positions and
//! scratch, altered words, the lengths and counts, sheets, and secrecy by a matching of good preprocessing.

mod common;

use common::matching::{moves, Two};
use common::Case;
use reference::circuit::{self, Gate};
use reference::field::{add, inverse, mul};
use reference::random::{self, Kinds, Random};
use reference::{open, over, plain, prep, read_sheet, receive, send, text, write_sheet};
use reference::{Ending, Position, Received, Refusal, Round, Sort, Stage, P};

const PRINTED: &str = "\
in 3 0
show 2 1073741824
seal 2909025353 2768623834 3335632940 1558578817 4082417423 4156862914 2842596033 3638096078 3317699358 2382214783 2615545980 3630183587 1732416100 329990769 3338177010 1019762326
reveal 2 0 0 0 0 0 0 0 0 2147483645 0 0 0 0 0 0 0 0
out 1073741826
";

fn worked() -> Case {
    Case {
        parties: over::PARTIES,
        circuit: over::CIRCUIT.to_vec(),
        shape: circuit::shape(over::PARTIES, &over::CIRCUIT).unwrap(),
        preps: over::PREPS.to_vec(),
        inputs: over::INPUTS.to_vec(),
        coefficients: over::COEFFICIENTS.to_vec(),
        nonces: over::NONCES.to_vec(),
    }
}

fn refusal<T>(number: u32, index: usize) -> Result<T, Refusal> {
    Err(Refusal { number, index })
}

fn at(gate: u32, stage: Stage) -> Position {
    Position {
        gate,
        stage,
        held: 0,
    }
}

#[test]
fn the_worked_run_is_printed() {
    let one = over::request().unwrap().answered();
    assert_eq!(text::show(&one), format!("done 4\n{PRINTED}"));
    let case = worked();
    assert!(prep::is_good(case.parties, &case.circuit, &case.preps));
    let left = case.joint();
    let result = left.result.unwrap();
    assert_eq!(
        (result.ending, result.rounds, result.outputs),
        (Ending::Finished, 4, 1)
    );
    assert_eq!(plain::rounds(&case.circuit), 4);
    let values = plain::values(2, &case.circuit, &case.inputs).unwrap();
    assert_eq!(values, [Some(5), Some(1_073_741_826), None]);
    assert_eq!(left.outputs[0], 1_073_741_826);
    assert_eq!(case.single(|_, _, _| ()), left);
}

/// What each party of the worked run writes and is answered: shares 4 and 1 over 2 are 2 and 2^30, MAC shares 19 and 16 are
/// (19 + p) / 2 and 8; check shares 2 and p - 2.
#[test]
fn each_step_of_the_worked_run() {
    let case = worked();
    let lines: Vec<Vec<u32>> = PRINTED
        .lines()
        .map(|line| line.split(' ').skip(1).map(|word| word.parse().unwrap()))
        .map(Iterator::collect)
        .collect();
    let expected = [
        // Shares of the three gates, MAC shares of them.
        [4, 2, 9, 19, 1_073_741_833, 9],
        [1, 1_073_741_824, 9, 16, 8, 9],
    ];
    for (view, expected) in case.views().iter().zip(expected) {
        let party = view.party as usize;
        let mut scratch = [9; 32];
        let mut out = [0; 9];
        let position = open(view, &scratch).unwrap();
        assert_eq!(position, at(0, Stage::Send(Sort::Own)));
        let position = send(view, &mut scratch, position, &[], &[], &mut out).unwrap();
        assert_eq!(out[0], lines[0][party]);
        // The hearing does the over too, and goes on to the output.
        let told = receive(view, &mut scratch, position, &lines[0]);
        let shows = at(2, Stage::Send(Sort::OpenOutput));
        assert_eq!(told, Ok(Received::Moved(shows)));
        assert_eq!(scratch[..6], expected);
        assert_eq!(scratch[6..], [9; 26]);

        let position = send(view, &mut scratch, shows, &[], &[], &mut out).unwrap();
        assert_eq!(out[0], lines[1][party]);
        let Ok(Received::Moved(position)) = receive(view, &mut scratch, position, &lines[1]) else {
            panic!("nothing to release");
        };
        assert_eq!(scratch[6..8], [1_073_741_826, expected[4]]);
        for (coefficients, number) in [(&[][..], 16), (&[1, 1], 16), (&[P], 17)] {
            let told = send(
                view,
                &mut scratch,
                position,
                coefficients,
                &[0; 32],
                &mut out,
            );
            assert_eq!(told, refusal(number, 0));
        }
        let position = send(view, &mut scratch, position, &[1], &[0; 32], &mut out).unwrap();
        assert_eq!(position.held, [2, P - 2][party]);
        assert_eq!(out[..8], lines[2][8 * party..][..8]);
        let Ok(Received::Moved(position)) = receive(view, &mut scratch, position, &lines[2]) else {
            panic!("a commitment releases nothing");
        };
        let position = send(view, &mut scratch, position, &[], &[], &mut out).unwrap();
        assert_eq!(out[..], lines[3][9 * party..][..9]);
        assert_eq!(
            receive(view, &mut scratch, position, &lines[3]),
            Ok(Received::Released {
                output: 1_073_741_826,
                position: at(2, Stage::Finished)
            })
        );
    }
}

/// Inverses of 2, 3 and p - 1 are those of the documents; an element times its inverse is 1, and the inverse of that is the element.
#[test]
fn inverses() {
    for (element, inverted) in [
        (1, 1),
        (2, 1_073_741_824),
        (3, 1_431_655_765),
        (P - 1, P - 1),
        (P - 2, 1_073_741_823),
    ] {
        assert_eq!(inverse(element), inverted);
    }
    let random = &mut Random::new(1);
    let powers = (0..31).map(|bit| 1 << bit);
    let many = (0..200_000).map(|_| random.nonzero());
    for element in (1..5000).chain(P - 5000..P).chain(powers).chain(many) {
        let inverted = inverse(element);
        assert!((1..P).contains(&inverted));
        assert_eq!(u64::from(element) * u64::from(inverted) % u64::from(P), 1);
        assert_eq!(inverse(inverted), element);
    }
}

/// Kind 10 and 11; a first that is this gate, a later one, an out or a give gate; a second; a constant 0 or at least p. Times and plus
/// by 0 pass.
#[test]
fn questions_of_the_circuit() {
    let asked = |gates: &[[u32; 4]]| match circuit::shape(2, &gates.concat()) {
        Ok(_) => None,
        Err(refusal) => Some((refusal.number, refusal.index)),
    };
    let (input, out) = ([1, 0, 0, 0], [7, 1, 0, 0]);
    for (kind, told) in [
        (10, None),
        (11, Some((4, 1))),
        (12, Some((4, 1))),
        (u32::MAX, Some((4, 1))),
    ] {
        assert_eq!(asked(&[input, [kind, 0, 0, 1], out]), told);
    }
    for (constant, told) in [
        (0, Some((6, 1))),
        (1, None),
        (2, None),
        (P - 1, None),
        (P, Some((6, 1))),
        (P + 1, Some((6, 1))),
        (u32::MAX, Some((6, 1))),
    ] {
        assert_eq!(asked(&[input, [10, 0, 0, constant], out]), told);
        if constant > 0 {
            assert_eq!(asked(&[input, [5, 0, 0, constant], out]), told);
        }
    }
    for kind in [4, 5] {
        assert_eq!(asked(&[input, [kind, 0, 0, 0], out]), None);
    }
    for second in [1, P, u32::MAX] {
        assert_eq!(asked(&[input, [10, 0, second, 2], out]), Some((6, 1)));
    }
    for first in [1, 2, 3, 4, u32::MAX] {
        let gates = [input, [7, 0, 0, 0], [9, 0, 1, 0], [10, first, 0, 2], out];
        assert_eq!(asked(&gates), Some((5, 3)), "{first}");
    }
    // 4 before 5 before 6, and an earlier gate before a later one.
    assert_eq!(asked(&[input, [11, 1, 1, 0], out]), Some((4, 1)));
    assert_eq!(asked(&[input, [10, 1, 1, 0], out]), Some((5, 1)));
    assert_eq!(asked(&[input, [10, 0, 1, 0], out]), Some((6, 1)));
    assert_eq!(asked(&[input, [10, 0, 0, 0], [11, 9, 9, 9]]), Some((6, 1)));
    // An over has a value and is no output.
    assert_eq!(asked(&[input, [10, 0, 0, 1]]), Some((7, 0)));
    for kind in [2, 3, 4, 5, 6, 7, 8, 9, 10] {
        let constant = u32::from(kind == 10);
        let gates = [input, [10, 0, 0, 7], [kind, 1, 0, constant], [7, 0, 0, 0]];
        assert_eq!(asked(&gates), None, "{kind}");
    }
}

/// No position is at an over; its share and its MAC share are asked by question 15 from the next stop on.
#[test]
fn positions_and_scratch() {
    let circuit = vec![1, 0, 0, 0, 10, 0, 0, 3, 1, 1, 0, 0, 10, 1, 0, 5, 7, 3, 0, 0];
    let case = Case::of(&mut Random::new(3), 2, circuit, 7);
    let view = case.views()[0];
    let layout = case.shape.layout();
    let asked = |position, place: Option<usize>| {
        let mut scratch = vec![1; case.shape.scratch_len()];
        if let Some(place) = place {
            scratch[place] = P;
        }
        let told = send(&view, &mut scratch, position, &[0; 9], &[], &mut []);
        told.unwrap_err()
    };
    for gate in [1, 3] {
        for sort in Sort::ALL {
            for stage in [Stage::Send(sort), Stage::Receive(sort)] {
                assert_eq!(asked(at(gate, stage), None).number, 13);
            }
        }
        for stage in [Stage::Finished, Stage::Aborted] {
            assert_eq!(asked(at(gate, stage), None).number, 13);
        }
    }
    // At the second in gate the first over has been worked out, the second one has not.
    let second = at(2, Stage::Send(Sort::Own));
    let shows = at(4, Stage::Send(Sort::OpenOutput));
    for place in [layout.share(1), layout.mac(1)] {
        assert_eq!(
            asked(second, Some(place)),
            Refusal {
                number: 15,
                index: place
            }
        );
    }
    for place in [layout.share(3), layout.mac(3)] {
        // 16 is asked next, and no round wants nine coefficients.
        assert_eq!(asked(second, Some(place)).number, 16);
        assert_eq!(
            asked(shows, Some(place)),
            Refusal {
                number: 15,
                index: place
            }
        );
    }
}

/// Times and over by the same constant give the share and the MAC share again, number by number, at each party, in either order: also where
/// they are no shares of a value with its MAC.
#[test]
fn times_and_over_undo_each_other() {
    let random = &mut Random::new(4);
    for turn in 0..600 {
        let constant = match turn {
            0..5 => [1, 2, 3, P - 2, P - 1][turn],
            _ => random.divisor(),
        };
        let parties = random.between(2, 8) as u32;
        #[rustfmt::skip]
        let circuit = vec![
            1, parties - 1, 0, 0,
            6, 0, 0, 0,
            5, 1, 0, constant,
            10, 2, 0, constant,
            10, 1, 0, constant,
            5, 4, 0, constant,
            7, 3, 0, 0,
            7, 5, 0, 0,
        ];
        let key = random.edge_element();
        let mut case = Case::of(random, parties, circuit, key);
        if turn % 2 == 1 {
            // The MAC of c: the run ends at the second check.
            let party = random.below(case.count());
            let place = party * case.shape.prep_len() + 9;
            case.preps[place] = add(case.preps[place], random.nonzero());
        }
        let left = case.joint();
        let (len, layout) = (case.shape.scratch_len(), case.shape.layout());
        for band in left.scratch.chunks_exact(len) {
            for again in [3, 5] {
                assert_eq!(band[layout.share(again)], band[layout.share(1)]);
                assert_eq!(band[layout.mac(again)], band[layout.mac(1)]);
            }
            for (times, wire) in [(2, 1), (1, 4)] {
                let by = |number| mul(number, constant);
                assert_eq!(band[layout.share(times)], by(band[layout.share(wire)]));
                assert_eq!(band[layout.mac(times)], by(band[layout.mac(wire)]));
            }
        }
        let square = mul(case.inputs[0], case.inputs[0]);
        if turn % 2 == 0 {
            assert_eq!(left.outputs[..2], [square, square]);
            assert_eq!(case.single(|_, _, _| ()), left);
        } else {
            assert!(matches!(
                left.result.unwrap().ending,
                Ending::Aborted { .. }
            ));
        }
    }
}

/// The value of an over times its constant is the value that it names; shares sum to it and MAC shares to the key times it.
#[test]
fn values_of_overs() {
    let random = &mut Random::new(5);
    let mut overs = 0;
    for _ in 0..400 {
        let key = random.edge_element();
        let case = Case::random(random, 60, key);
        let values = plain::values(case.parties, &case.circuit, &case.inputs).unwrap();
        let left = case.joint();
        assert_eq!(left.result.unwrap().ending, Ending::Finished);
        let (len, layout) = (case.shape.scratch_len(), case.shape.layout());
        let bands = left.scratch.chunks_exact(len);
        for (gate, line) in circuit::gates(&case.circuit).enumerate() {
            if let Gate::Over { wire, constant } = line {
                overs += 1;
                let value = values[gate].unwrap();
                assert_eq!(Some(mul(value, constant)), values[wire]);
                let total = |place: usize| {
                    let numbers = bands.clone().map(|band| band[place]);
                    numbers.fold(0, add)
                };
                assert_eq!(total(layout.share(gate)), value);
                assert_eq!(total(layout.mac(gate)), mul(key, value));
            }
        }
        assert_eq!(case.single(|_, _, _| ()), left);
    }
    assert!(overs > 800, "{overs}");
}

/// The same circuit with times by inverses in the place of overs: the same run, word for word, and the same scratch.
#[test]
fn an_over_is_a_times_by_the_inverse() {
    let random = &mut Random::new(6);
    for _ in 0..300 {
        let key = random.edge_element();
        let overs = Case::random(random, 40, key);
        let mut times = overs.clone();
        let lines = times.circuit.chunks_exact_mut(4);
        for line in lines.filter(|line| line[0] == 10) {
            line.copy_from_slice(&[5, line[1], 0, inverse(line[3])]);
        }
        assert_eq!(
            times.shape,
            circuit::shape(times.parties, &times.circuit).unwrap()
        );
        assert_eq!(overs.joint(), times.joint());
    }
}

/// An over needs no round, takes nothing, and opens nothing: the formulas, of counts taken from the kinds alone.
#[test]
fn lengths_and_counts() {
    let random = &mut Random::new(8);
    for _ in 0..500 {
        let lines = random.between(2, 256);
        let circuit = random::circuit(random, Kinds::Overs, 3, lines);
        let shape = circuit::shape(3, &circuit).unwrap();
        let kinds: Vec<u32> = circuit.chunks_exact(4).map(|line| line[0]).collect();
        let count = |kind| kinds.iter().filter(|&&one| one == kind).count();
        let (i, m, s, o, g) = (count(1), count(6), count(8), count(7), count(9));
        let parts = kinds.split(|kind| [7, 9].contains(kind)).take(o + g);
        let f = parts
            .filter(|part| part.contains(&6) || part.contains(&8))
            .count();
        let k = o + g + f;
        assert_eq!(shape.prep_len(), 1 + 3 * i + 6 * m + 4 * s + 3 * g);
        let scratch = 2 * lines + 2 * (2 * m + s + 1) + 8 + 8 * 3;
        assert_eq!(shape.scratch_len(), scratch);
        assert_eq!(shape.coefficients(), 2 * m + s + o + g);
        assert_eq!(shape.nonces(), 32 * 3 * k);
        assert_eq!(shape.words(), i + 2 * m + s + o + g + 17 * k);
        let rounds = i + m + s + 5 * (o + g) - 2 * (o + g - f);
        assert_eq!(plain::rounds(&circuit), rounds);
        assert_eq!(circuit::rounds(&circuit).len(), rounds);
    }
}

/// A word that is heard otherwise: what an over of a product shows aborts at the second check, a product's word at the first; an owner's word
/// moves the value.
#[test]
fn altered_words() {
    let random = &mut Random::new(9);
    // The rounds: in; mul; commit, reveal, open, commit, reveal.
    let circuit = vec![1, 0, 0, 0, 10, 0, 0, 4, 6, 1, 0, 0, 10, 2, 0, 9, 7, 3, 0, 0];
    for _ in 0..50 {
        let case = Case::of(random, 3, circuit.clone(), 7);
        for (altered, rounds) in [(1, 4), (4, 7)] {
            let word = random.below(3);
            let by = random.nonzero();
            let left = case.single(|round, _, words| {
                if round == altered {
                    words[word] = add(words[word], by);
                }
            });
            let result = left.result.unwrap();
            let ending = Ending::Aborted {
                gate: 4,
                party: None,
            };
            assert_eq!((result.ending, result.rounds), (ending, rounds));
        }
        let left = case.single(|_, round, words| {
            if round == Round::Input {
                words[0] = add(words[0], 6);
            }
        });
        let x = add(case.inputs[0], 6);
        let shown = mul(left.outputs[0], 36);
        assert_eq!(shown, mul(x, x));
    }
}

/// The sheets of the settled readings, and the writer's row.
#[test]
fn sheets() {
    let read = |text: &str| {
        let mut circuit = [9; 1024];
        let told = read_sheet(2, text.as_bytes(), &mut circuit);
        told.map(|gates| circuit[..4 * gates].to_vec())
    };
    assert_eq!(read("(over (in 0) 0)\n(out (line 0))\n"), refusal(6, 1));
    assert_eq!(read("(add (out (in 0)) (in 0))\n"), refusal(22, 7));
    let three = vec![1, 0, 0, 0, 10, 0, 0, 3, 7, 1, 0, 0];
    assert_eq!(read("(out (over (in 0) 3))\n"), Ok(three.clone()));
    for (text, index) in [
        ("(o", 2),
        ("(ou", 3),
        ("(ov", 3),
        ("(over ", 6),
        ("(sq (o", 6),
        ("(sq (ou", 6),
        ("(sq (ov", 7),
        ("(sq (out", 6),
    ] {
        assert_eq!(read(text), refusal(22, index), "{text}");
    }
    let mut bytes = [b'x'; 60];
    let len = write_sheet(2, &three, &mut bytes).unwrap();
    let rows = b"(in 0)\n(over (line 0) 3)\n(out (line 1))\n";
    assert_eq!(bytes[..len], rows[..]);
    // The longest row of an over is shorter than that of times.
    let mut circuit = vec![1, 0, 0, 0];
    circuit.extend((1..255).flat_map(|gate| [10, gate - 1, 0, P - 1]));
    circuit.extend([7, 254, 0, 0]);
    let mut bytes = [b'x'; 30 * 256];
    let len = write_sheet(2, &circuit, &mut bytes).unwrap();
    let text = std::str::from_utf8(&bytes[..len]).unwrap();
    assert_eq!(read(text), Ok(circuit));
    assert_eq!(text.lines().map(str::len).max(), Some(28));
}

/// Both runs look alike to the parties that are seen, with overs of moved values among their gates.
#[test]
fn matched_runs_look_alike() {
    let mut moved_overs = 0;
    for seed in 0..4000 {
        let Some(two) = Two::random(&mut Random::new(seed + 90_000), Kinds::Overs) else {
            continue;
        };
        two.assert_alike();
        let moved = moves(&two.case, &two.inputs);
        for gate in circuit::gates(&two.case.circuit) {
            if let Gate::Over { wire, .. } = gate {
                moved_overs += usize::from(moved[wire] != 0);
            }
        }
    }
    assert!(moved_overs > 500, "{moved_overs}");
}
