//! Answered requests as theorems about the Rattle definitions, each proved by computation alone.

use std::fmt::{Display, Write};

use crate::fit::Fit;
use crate::joint::{Ending, JointResult};
use crate::party::{Position, Received, Sort, Stage};
use crate::refusal::Refusal;
use crate::requests::{Answer, Answered, FitRequest, Lent, Request};

const HEAD: &str = "\
-- Requests of the other implementation, answered by the definitions. Made by a program, not kept.
use Rattle.std.specs.Prelude.{ℕ, ◌≡◌, refl, List, [], ◌∷◌}
use Rattle.field.specs.Prime.{euclid, modular}
use Rattle.circuit.specs.Round.{First, Second, Own, Open, Commit, Reveal}
use Rattle.protocol.specs.Position.{Send, Receive, Finished, Aborted}
use Rattle.protocol.specs.Party.{Party}
use Rattle.protocol.specs.Entry.{Refusal, Next, Output, Abort, open_answer, send_answer, send_scratch, send_out, receive_answer, receive_scratch}
use Rattle.protocol.specs.Receive.{Nobody, Blames}
use Rattle.protocol.specs.Joint.{Joint}
use Rattle.protocol.specs.JointEntry.{Done, joint_answer, joint_scratch, joint_transcript, joint_outputs}
use Rattle.protocol.specs.JointEntry.{Refusal as JointRefusal, Aborted as JointAborted}
use Rattle.theorems.proofs.Hashed.{hashing}
use Rattle.field.specs.Words.{size}
use Rattle.ranges.specs.Move.{Nothing, Of}
use Rattle.ranges.specs.Entry.{query_of, Leaves, Fits, fit_answer, fit_intervals, fit_moves}
use Rattle.ranges.specs.Entry.{Refusal as FitRefusal}
use Rattle.ranges.proofs.Computing.{computing}
";

/// Whether the prover can compute the answer: not where it has a hash, which is shut to a computation.
fn is_open(one: &Answered) -> bool {
    match (&one.request, &one.answer) {
        (Request::Joint { .. }, answer) => answer.refusal().is_some(),
        (Request::Receive { position: at, .. }, answer) => {
            let reveals = matches!(
                at.stage,
                Stage::Receive(Sort::RevealOpened | Sort::RevealOutput)
            );
            !reveals || answer.refusal().is_some()
        }
        _ => true,
    }
}

/// A file of theorems, one for each request: those of the parties and of joint runs, then those about ranges.
pub fn theorems(answered: &[Answered], ranges: &[FitRequest]) -> String {
    let mut text = String::from(HEAD);
    for (number, one) in answered.iter().enumerate().filter(|(_, one)| is_open(one)) {
        let equations = equations(one);
        let proofs = vec!["refl"; equations.len()].join(", ");
        let proofs = if equations.len() == 1 {
            proofs
        } else {
            format!("({proofs})")
        };
        let _ = write!(
            text,
            "\n-- {}\ncase_{number} :\n    {}\nunfolding hashing euclid modular\ncase_{number} = {proofs}\n",
            one.label(),
            equations.join("\n    × "),
        );
    }
    let ranges = ranges.iter().enumerate();
    text.extend(ranges.filter_map(|(number, request)| fit_theorem(number, request)));
    text
}

/// The theorem of one request about ranges. None where its text calls nothing.
fn fit_theorem(number: usize, request: &FitRequest) -> Option<String> {
    let FitRequest::Fit {
        parties,
        circuit,
        ranges,
        change,
        intervals,
        moves,
    } = request
    else {
        return None;
    };
    let answer = request.answered()?;
    let change = match change {
        None => "Nothing".to_string(),
        Some(of) => format!("(Of {} {})", of.gate, of.amount),
    };
    let query = format!(
        "(query_of {parties} {} {} {change})",
        list(circuit),
        list(ranges)
    );
    let result = match &answer.result {
        Ok(Fit::Fits) => "Fits".to_string(),
        Ok(Fit::Leaves { gate }) => format!("Leaves {gate}"),
        Err(refusal) => refused("FitRefusal", refusal),
    };
    Some(format!(
        "\nfit_{number} :\n    (fit_answer size {query} {} {} ≡ {result})\n    × (fit_intervals size {query} {} {} ≡ {})\n    × (fit_moves size {query} {} {} ≡ {})\nunfolding computing\nfit_{number} = (refl, refl, refl)\n",
        intervals.len(),
        moves.len(),
        list(intervals),
        moves.len(),
        list(&answer.intervals),
        intervals.len(),
        list(moves),
        list(&answer.moves),
    ))
}

/// What the prover computes. What a commitment posts is a hash, and is left to the other tests.
fn equations(one: &Answered) -> Vec<String> {
    match (&one.request, &one.answer) {
        (Request::Open { lent }, Answer::Open { result }) => {
            vec![format!(
                "(open_answer modular {} {} ≡ {})",
                party(lent),
                list(&lent.scratch),
                moved(result)
            )]
        }
        (
            Request::Send {
                lent,
                position: at,
                coefficients,
                nonce,
                out,
            },
            Answer::Send {
                result,
                scratch,
                out: later,
            },
        ) => {
            let call = format!(
                "{} {} {} {} {}",
                party(lent),
                list(&lent.scratch),
                position(at),
                list(coefficients),
                list(nonce)
            );
            let mut equations = vec![
                format!(
                    "(send_answer modular {call} {} ≡ {})",
                    out.len(),
                    moved(result)
                ),
                format!(
                    "(send_scratch modular {call} {} ≡ {})",
                    out.len(),
                    list(scratch)
                ),
            ];
            let commits = matches!(
                at.stage,
                Stage::Send(Sort::CommitOpened | Sort::CommitOutput)
            );
            if result.is_err() || !commits {
                equations.push(format!(
                    "(send_out modular {call} {} ≡ {})",
                    list(out),
                    list(later)
                ));
            }
            equations
        }
        (
            Request::Receive {
                lent,
                position: at,
                heard,
            },
            Answer::Receive { result, scratch },
        ) => {
            let call = format!(
                "{} {} {} {}",
                party(lent),
                list(&lent.scratch),
                position(at),
                list(heard)
            );
            let answer = match result {
                Ok(Received::Moved(next)) => format!("Next {}", position(next)),
                Ok(Received::Released {
                    output,
                    position: next,
                }) => format!("Output {output} {}", position(next)),
                Ok(Received::Aborted {
                    position: next,
                    party,
                }) => format!("Abort {} {}", named(party), position(next)),
                Err(refusal) => refused("Refusal", refusal),
            };
            vec![
                format!("(receive_answer modular {call} ≡ {answer})"),
                format!("(receive_scratch modular {call} ≡ {})", list(scratch)),
            ]
        }
        (
            Request::Joint {
                parties,
                circuit,
                preps,
                inputs,
                scratch,
                coefficients,
                nonces,
                transcript,
                outputs,
            },
            Answer::Joint {
                result,
                scratch: scratch_later,
                transcript: transcript_later,
                outputs: outputs_later,
            },
        ) => {
            let call = format!(
                "modular (record {{ parties = {parties}; circuit = {}; preps = {}; inputs = {}; coefficients = {}; nonces = {} }}) {} {} {}",
                list(circuit),
                list(preps),
                list(inputs),
                list(coefficients),
                list(nonces),
                list(scratch),
                list(transcript),
                list(outputs)
            );
            let answer = match result {
                Ok(JointResult {
                    ending: Ending::Finished,
                    rounds,
                    ..
                }) => format!("Done {rounds}"),
                Ok(JointResult {
                    ending: Ending::Aborted { gate, party },
                    rounds,
                    ..
                }) => format!("JointAborted {gate} {} {rounds}", named(party)),
                Err(refusal) => refused("JointRefusal", refusal),
            };
            vec![
                format!("(joint_answer {call} ≡ {answer})"),
                format!("(joint_scratch {call} ≡ {})", list(scratch_later)),
                format!("(joint_transcript {call} ≡ {})", list(transcript_later)),
                format!("(joint_outputs {call} ≡ {})", list(outputs_later)),
            ]
        }
        _ => unreachable!("an answer of another entry"),
    }
}

/// The party beside a gate, or none.
fn named(party: &Option<u32>) -> String {
    party.map_or(String::from("Nobody"), |party| format!("(Blames {party})"))
}

fn list<T: Display>(numbers: &[T]) -> String {
    let mut text = String::from("(");
    for number in numbers {
        let _ = write!(text, "{number} ∷ ");
    }
    text.push_str("[])");
    text
}

fn party(lent: &Lent) -> String {
    format!(
        "(record {{ parties = {}; me = {}; circuit = {}; prep = {}; inputs = {} }})",
        lent.parties,
        lent.party,
        list(&lent.circuit),
        list(&lent.prep),
        list(&lent.inputs)
    )
}

fn position(at: &Position) -> String {
    let stage = match at.stage {
        Stage::Send(sort) => format!("Send {}", round(sort)),
        Stage::Receive(sort) => format!("Receive {}", round(sort)),
        Stage::Finished => String::from("Finished"),
        Stage::Aborted => String::from("Aborted"),
    };
    format!(
        "(record {{ gate = {}; stage = {stage}; held = {} }})",
        at.gate, at.held
    )
}

/// The definitions' name for the rounds of a sort.
fn round(sort: Sort) -> &'static str {
    match sort {
        Sort::Own => "Own",
        Sort::CommitOpened => "(Commit First)",
        Sort::RevealOpened => "(Reveal First)",
        Sort::OpenOutput => "Open",
        Sort::CommitOutput => "(Commit Second)",
        Sort::RevealOutput => "(Reveal Second)",
    }
}

fn moved(result: &Result<Position, Refusal>) -> String {
    match result {
        Ok(next) => format!("Next {}", position(next)),
        Err(refusal) => refused("Refusal", refusal),
    }
}

fn refused(constructor: &str, refusal: &Refusal) -> String {
    format!("{constructor} {} {}", refusal.number, refusal.index)
}
