//! Document 01's docket: the printed run and the cases of its table.

mod common;

use common::Case;
use reference::docket::{self, CIRCUIT, COEFFICIENTS, INPUTS, NONCES, PARTIES, PREPS};
use reference::random::{self, Kinds, Random};
use reference::requests::Answer;
use reference::{circuit, commitment, open, plain, prep, receive, send};
use reference::{Ending, Party, Position, Received, Refusal, Sort, Stage, P};

const PRINTED: &str = "\
in 3 0
in 0 2147483643
mul 3 2147483644 2147483646 5
seal 272533300 855279086 235693618 2709198289 3425779131 1209606253 564894338 1025805703 392664496 2933272743 3210988540 1159849883 2804449762 356348130 2261437598 147768482
reveal 10 0 0 0 0 0 0 0 0 2147483637 0 0 0 0 0 0 0 0
show 17 13
seal 850332863 617076412 3921632008 2051254059 2028485708 102383270 110660321 3237469616 721445309 59359921 2920372308 1087459295 151985532 3708268289 1836622388 705217064
reveal 20 0 0 0 0 0 0 0 0 2147483627 0 0 0 0 0 0 0 0
out 30
";

fn case() -> Case {
    Case {
        parties: PARTIES,
        circuit: CIRCUIT.to_vec(),
        shape: circuit::shape(PARTIES, &CIRCUIT).unwrap(),
        preps: PREPS.to_vec(),
        inputs: INPUTS.to_vec(),
        coefficients: COEFFICIENTS.to_vec(),
        nonces: NONCES.to_vec(),
    }
}

fn refusal<T>(number: u32, index: usize) -> Result<T, Refusal> {
    Err(Refusal { number, index })
}

#[test]
fn prints_the_transcript() {
    assert_eq!(docket::print().unwrap(), PRINTED);
    assert_eq!(include_str!("../../crates/docket/stdout"), PRINTED);
}

/// Party 0's band at the end, begun at 0: shares, MAC shares, opened entries and their MAC shares; the nonce; the words of the
/// second commitment.
#[test]
fn the_scratch_at_the_end() {
    let Answer::Joint { scratch, .. } = docket::request().unwrap().answer() else {
        panic!("the docket is a joint run");
    };
    let shares = [4, 0, 17, 0, 19, 18, 94, 0, 30, 2, 0, 94, 10, 0];
    assert_eq!(scratch.len(), 2 * 38);
    assert_eq!(scratch[..14], shares);
    assert_eq!(scratch[14..22], [0; 8]);
    let line = PRINTED.lines().nth(6).unwrap();
    let words = line.split(' ').skip(1).map(|word| word.parse().unwrap());
    assert_eq!(scratch[22..38], words.collect::<Vec<u32>>());
}

#[test]
fn takes_eight_rounds_with_good_preprocessing() {
    let case = case();
    assert!(prep::is_good(PARTIES, &CIRCUIT, &PREPS));
    let left = case.joint();
    let result = left.result.unwrap();
    assert_eq!(
        (result.ending, result.rounds, result.outputs),
        (Ending::Finished, 8, 1)
    );
    assert_eq!(plain::rounds(&CIRCUIT), 8);
    assert_eq!(left.outputs[0], 30);
    assert_eq!(case.single(|_, _, _| ()), left);
}

/// "Value 0", "Value 1", "Value 2", and the opened entries: after the multiply round.
#[test]
fn shares_and_mac_shares() {
    let case = case();
    let views = case.views();
    let words: [&[u32]; 3] = [&[3, 0], &[0, P - 4], &[3, P - 3, P - 1, 5]];
    let expected = [
        // Shares of the four gates, MAC shares, opened entries, MAC shares of those.
        [4, 0, 17, 9, 19, 18, 94, 9, 2, 2, 9, 8, 10, 9],
        [1, 6, 13, 9, 16, 24, 116, 9, 2, 2, 9, 6, 4, 9],
    ];
    for (view, expected) in views.iter().zip(expected) {
        let mut scratch = [9; 38];
        let mut position = open(view, &scratch).unwrap();
        for heard in words {
            let mut out = [0; 2];
            position = send(view, &mut scratch, position, &[], &[], &mut out).unwrap();
            let Received::Moved(next) = receive(view, &mut scratch, position, heard).unwrap()
            else {
                panic!("nothing to release");
            };
            position = next;
        }
        assert_eq!(scratch[..14], expected);
        assert_eq!(scratch[14..], [9; 24]);
        assert_eq!(
            position,
            Position {
                gate: 3,
                stage: Stage::Send(Sort::CommitOpened),
                held: 0
            }
        );

        // "Two draws at the first seal accepted; one or three, 16."
        let mut out = [0; 8];
        let before = scratch;
        for coefficients in [&[1][..], &[1, 2, 5]] {
            let told = send(
                view,
                &mut scratch,
                position,
                coefficients,
                &[0; 32],
                &mut out,
            );
            assert_eq!(told, refusal(16, 0));
        }
        // A nonce of any other length than 32; 16 and 17 are asked before, 18 after.
        for (coefficients, len, room, number) in [
            (&[1, 2][..], 0, 8, 25),
            (&[1, 2], 31, 8, 25),
            (&[1, 2], 33, 7, 25),
            (&[1, P], 33, 8, 17),
            (&[1], 31, 8, 16),
            (&[1, 2], 32, 7, 18),
        ] {
            let told = send(
                view,
                &mut scratch,
                position,
                coefficients,
                &[0; 33][..len],
                &mut out[..room],
            );
            assert_eq!(told, refusal(number, usize::from(number == 17)));
        }
        assert_eq!((out, scratch), ([0; 8], before));
        // "Check words 10 and p - 10."
        let committed = send(view, &mut scratch, position, &[1, 2], &[0; 32], &mut out).unwrap();
        assert_eq!(committed.held, if view.party == 0 { 10 } else { P - 10 });
        assert_eq!(scratch[..14], before[..14]);
        assert_eq!(scratch[14..22], [0; 8]);
        assert_eq!(scratch[22..], [9; 16]);
        let line = PRINTED.lines().nth(3).unwrap();
        let words = line.split(' ').skip(1 + 8 * view.party as usize).take(8);
        assert_eq!(words.collect::<Vec<_>>(), out.map(|word| word.to_string()));
    }
}

/// "Seat 1's show word 14 heard: check words 5 and p - 40, stopped."
#[test]
fn an_altered_output_word_aborts() {
    let left = case().single(|round, _, words| {
        if round == 5 {
            words[1] = 14;
        }
        if round == 7 {
            assert_eq!([words[0], words[9]], [5, P - 40]);
        }
    });
    let result = left.result.unwrap();
    assert_eq!(
        (result.ending, result.rounds, result.outputs),
        (
            Ending::Aborted {
                gate: 3,
                party: None
            },
            8,
            0
        )
    );
}

/// One bit of party 0's mark heard otherwise, and party 1's first nonce word heard as 1, both at the first check.
#[test]
fn an_altered_mark_or_nonce_names_its_party() {
    for (altered, word, by, party) in [(3, 0, 1 << 31, 0), (4, 10, 1, 1)] {
        let left = case().single(|round, _, words| {
            if round == altered {
                words[word] ^= by;
            }
        });
        let result = left.result.unwrap();
        let ending = Ending::Aborted {
            gate: 3,
            party: Some(party),
        };
        assert_eq!(
            (result.ending, result.rounds, result.outputs),
            (ending, 5, 0)
        );
    }
}

/// Marks of 10 and 77 are written. The last dock cancels: 10 and p - 10 are revealed; or it reveals what it committed to.
#[test]
fn a_cancelling_reveal_is_seen() {
    let case = case();
    let mut scratch = [0; 38];
    for (party, share) in [(0, 10), (1, 77)] {
        let mark = commitment::mark(&commitment::revealed(share, &[0; 8]));
        scratch[22 + 8 * party..][..8].copy_from_slice(&mark);
    }
    let revealing = Position {
        gate: 3,
        stage: Stage::Receive(Sort::RevealOpened),
        held: 0,
    };
    for view in case.views() {
        for (shares, party) in [([10, P - 10], Some(1)), ([10, 77], None)] {
            let mut heard = [0; 18];
            (heard[0], heard[9]) = (shares[0], shares[1]);
            let position = Position {
                stage: Stage::Aborted,
                ..revealing
            };
            assert_eq!(
                receive(&view, &mut scratch, revealing, &heard),
                Ok(Received::Aborted { position, party })
            );
        }
    }
}

/// "8 seats accepted, 9 gives 1"; "256 lines accepted, 257 gives 3"; "An element p - 1 accepted, p
/// gives 9"; "Line 1 naming line 1 gives 5; naming line 0 is accepted".
#[test]
fn boundaries() {
    let opened = Ok(Position {
        gate: 0,
        stage: Stage::Send(Sort::Own),
        held: 0,
    });
    let scratch = [0; 1024];
    let circuit = [1, 0, 0, 0, 7, 0, 0, 0];
    let lent = Party {
        parties: 8,
        party: 7,
        circuit: &circuit,
        prep: &[1, 2, 3, 4],
        inputs: &[],
    };
    assert_eq!(open(&lent, &scratch), opened);
    assert_eq!(open(&Party { parties: 9, ..lent }, &scratch), refusal(1, 0));
    assert_eq!(
        open(
            &Party {
                prep: &[1, 2, 3, P - 1],
                ..lent
            },
            &scratch
        ),
        opened
    );
    assert_eq!(
        open(
            &Party {
                prep: &[1, 2, P, P],
                ..lent
            },
            &scratch
        ),
        refusal(9, 2)
    );

    let named = |wire| [1, 0, 0, 0, 2, 0, wire, 0, 7, 1, 0, 0];
    assert_eq!(
        open(
            &Party {
                circuit: &named(1),
                ..lent
            },
            &scratch
        ),
        refusal(5, 1)
    );
    assert_eq!(
        open(
            &Party {
                circuit: &named(0),
                ..lent
            },
            &scratch
        ),
        opened
    );

    let mut longest = vec![1, 0, 0, 0];
    longest.extend([4, 0, 0, 1].repeat(254));
    longest.extend([7, 255, 0, 0]);
    longest[4 * 255 + 1] = 254;
    assert_eq!(
        open(
            &Party {
                circuit: &longest,
                ..lent
            },
            &scratch
        ),
        opened
    );
    longest.splice(4..4, [4, 0, 0, 1]);
    assert_eq!(
        open(
            &Party {
                circuit: &longest,
                ..lent
            },
            &scratch
        ),
        refusal(3, 0)
    );
}

/// "At most 766": reached with 256 gates, and by no random circuit exceeded.
#[test]
fn at_most_766_rounds() {
    let mut random = Random::new(5);
    let mut outs = vec![1, 0, 0, 0];
    outs.extend([7, 0, 0, 0].repeat(255));
    let mut gives = vec![1, 0, 0, 0];
    gives.extend((0..255).flat_map(|gate| [9, 0, gate % 3, 0]));
    let opening = |kind, output| {
        let mut circuit = vec![1, 0, 0, 0];
        circuit.extend([kind, 0, 0, 0, output, 0, 0, 0].repeat(127));
        circuit.extend([output, 0, 0, 0]);
        circuit
    };
    let each = [opening(6, 7), opening(8, 7), opening(6, 9), opening(8, 9)];
    for circuit in [outs, gives].into_iter().chain(each) {
        assert_eq!(plain::rounds(&circuit), 766);
        let key = random.element();
        let case = Case::of(&mut random, 3, circuit, key);
        let left = case.joint();
        assert_eq!(
            left.result.map(|result| (result.ending, result.rounds)),
            Ok((Ending::Finished, 766))
        );
        assert_eq!(case.single(|_, _, _| ()), left);
    }
    for _ in 0..200 {
        let circuit = random::circuit(&mut random, Kinds::Overs, 2, 256);
        assert!(plain::rounds(&circuit) <= 766);
    }
}
