//! The entries written for speed against the readable ones, on many requests: sets of test vectors, requests of which most are
//! damaged in one place or in several, and the longest runs. The tool of ranges in all three ways, on sets of requests to it.

use reference::circuit::{self, ADD, GIVE, IN, MAX_GATES, MUL, OUT, OVER, PLUS, SQ, SUB, TIMES};
use reference::fit::{self, Change};
use reference::prep;
use reference::random::{from_kinds, Random};
use reference::requests::{
    blank_joint, generate, Answer, Answered, FitRequest, FitSet, Request, Set, Size,
};

use crate::{answers, proved, tuned};

/// The answer of the entries written for speed. None for opening, which is not among them.
pub fn tuned_answer(request: &Request) -> Option<Answer> {
    Some(match request {
        Request::Open { .. } => return None,
        Request::Send {
            lent,
            position,
            coefficients,
            nonce,
            out,
        } => {
            let (mut scratch, mut out) = (lent.scratch.clone(), out.clone());
            let result = tuned::send(
                &lent.party(),
                &mut scratch,
                *position,
                coefficients,
                nonce,
                &mut out,
            );
            Answer::Send {
                result,
                scratch,
                out,
            }
        }
        Request::Receive {
            lent,
            position,
            heard,
        } => {
            let mut scratch = lent.scratch.clone();
            let result = tuned::receive(&lent.party(), &mut scratch, *position, heard);
            Answer::Receive { result, scratch }
        }
        Request::Joint {
            parties,
            circuit,
            preps,
            inputs,
            scratch,
            coefficients,
            nonces,
            transcript,
            outputs,
        } => {
            let (mut scratch, mut transcript, mut outputs) =
                (scratch.clone(), transcript.clone(), outputs.clone());
            let result = tuned::joint_run(
                *parties,
                circuit,
                preps,
                inputs,
                &mut scratch,
                coefficients,
                nonces,
                &mut transcript,
                &mut outputs,
            );
            Answer::Joint {
                result,
                scratch,
                transcript,
                outputs,
            }
        }
    })
}

const SEEDS: [u64; 3] = [5, 6, 7];
/// Requests of short circuits and of circuits of any length, from each seed.
const SMALL: usize = 4000;
const FULL: usize = 800;

/// Joint runs of circuits as long as there can be, each mostly of one kind: the longest lists of every sort.
fn longest(seed: u64) -> impl Iterator<Item = Answered> {
    let random = &mut Random::new(seed);
    let mut runs = Vec::new();
    for kind in [IN, ADD, SUB, PLUS, TIMES, MUL, OUT, SQ, GIVE, OVER] {
        for parties in [2, 3, 8] {
            let mut kinds = [kind; MAX_GATES];
            kinds[0] = IN;
            kinds[MAX_GATES - 1] = if parties == 3 { GIVE } else { OUT };
            let circuit = from_kinds(random, parties, &kinds);
            let shape = circuit::shape(parties, &circuit).expect("an accepted circuit");
            let key = random.element();
            let preps = prep::make(random, parties, &circuit, key);
            let inputs = random.elements(shape.inputs);
            let coefficients = random.elements(shape.coefficients());
            let nonces = random.bytes(shape.nonces());
            let run = blank_joint(parties, &circuit, &preps, &inputs, &coefficients, &nonces);
            runs.push(run.expect("an accepted circuit").answered());
        }
    }
    runs.into_iter()
}

/// Compares all answers, later contents of lists among them: how many requests there are.
pub fn compare() -> usize {
    let mut compared = 0;
    for seed in SEEDS {
        let sets = [
            Set::Small,
            Set::Square,
            Set::Mark,
            Set::Give,
            Set::Over,
            Set::SquaresLarge,
            Set::MarksLarge,
            Set::GivesLarge,
            Set::OversLarge,
        ];
        let sets = sets.into_iter().flat_map(|set| set.make(seed));
        let short = generate(seed, SMALL, Size::SMALL);
        let any = generate(seed, FULL, Size::FULL);
        for one in sets.chain(short).chain(any).chain(longest(seed)) {
            if let Some(answer) = tuned_answer(&one.request) {
                assert_eq!(answer, one.answer, "{:?}", one.request);
                compared += 1;
            }
        }
    }
    compared
}

/// One way to ask the tool of ranges.
pub type FitEntry =
    fn(u32, &[u32], &[u32], Option<Change>, &mut [u32], &mut [u32]) -> answers::Answer;

pub fn rust_fit(
    parties: u32,
    circuit: &[u32],
    ranges: &[u32],
    change: Option<Change>,
    intervals: &mut [u32],
    moves: &mut [u32],
) -> answers::Answer {
    let result = fit::fit(parties, circuit, ranges, change, intervals, moves);
    answers::fit(result)
}

pub fn tuned_fit(
    parties: u32,
    circuit: &[u32],
    ranges: &[u32],
    change: Option<Change>,
    intervals: &mut [u32],
    moves: &mut [u32],
) -> answers::Answer {
    let result = tuned::fit(parties, circuit, ranges, change, intervals, moves);
    answers::fit(result)
}

/// The answers and lists of all these ways must be equal: how many requests there are. Texts that call nothing are left out.
pub fn compare_fits(entries: &[FitEntry], seeds: &[u64]) -> usize {
    let sets = seeds
        .iter()
        .flat_map(|&seed| FitSet::ALL.map(|set| (set, seed)));
    let mut compared = 0;
    for request in sets.flat_map(|(set, seed)| set.make(seed)) {
        let FitRequest::Fit {
            parties,
            circuit,
            ranges,
            change,
            intervals,
            moves,
        } = &request
        else {
            continue;
        };
        let mut answers = entries.iter().map(|entry| {
            let (mut intervals, mut moves) = (intervals.clone(), moves.clone());
            let answer = entry(
                *parties,
                circuit,
                ranges,
                *change,
                &mut intervals,
                &mut moves,
            );
            (answer, intervals, moves)
        });
        let first = answers.next();
        for (way, other) in (1..).zip(answers) {
            assert_eq!(Some(other), first, "way {way} against way 0: {request:?}");
        }
        compared += 1;
    }
    compared
}

/// Compares the tool of ranges in all three ways.
pub fn compare_all_fits() -> usize {
    compare_fits(&[rust_fit, proved::fit, tuned_fit], &SEEDS)
}
