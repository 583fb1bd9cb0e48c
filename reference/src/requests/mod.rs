//! Requests to all entries with this implementation's answers: the source of test vectors.
//!
//! `generate` goes through a fixed rotation of cases, filled in at random: a whole run of one party by
//! single entries, every refusal number in every entry that asks it, and accepted requests at the
//! edges of what is accepted. A `Set` has these, both sides of every question's boundary, and whole
//! runs; `measured`, `neighbours` and `single_runs` tell what a list of requests covers. A `SheetSet` has
//! requests to the entries that read and write sheets, a `FitSet` requests to the tool of ranges.

mod accept;
mod boundary;
mod boundary_steps;
mod coverage;
mod fit_boundaries;
mod fit_edges;
mod fit_sets;
mod fits;
mod gives;
mod marks;
mod neighbours;
mod overs;
mod products;
mod random_fit;
mod random_sheet;
mod refuse;
mod refuse_steps;
mod rotation;
mod runs;
mod scene;
mod sets;
mod sheet_calls;
mod sheet_gives;
mod sheet_overs;
mod sheet_reads;
mod sheet_sets;
mod sheet_squares;
mod sheet_writes;
mod sheets;
mod single_runs;
mod squares;

use std::slice::from_ref;

use crate::circuit;
use crate::joint::{joint_run, Ending, JointResult};
use crate::party::{open, receive, send, Party, Position, Received};
use crate::random::Kinds;
use crate::refusal::Refusal;

pub use coverage::{coverage, measured, table};
pub use fit_sets::FitSet;
pub use fits::FitRequest;
pub use neighbours::neighbours;
pub use random_sheet::random_sheet;
pub use rotation::generate;
pub use sets::Set;
pub use sheet_sets::SheetSet;
pub use sheets::{score_request, scored, SheetRequest};
pub use single_runs::{single_runs, SingleRun};

/// The kinds of gates, and bounds for the circuits and the numbers of parties. A few cases need more than
/// a small bound allows and take it: the boundaries at 8 parties and at 256 gates, and rich circuits.
#[derive(Clone, Copy, Debug, PartialEq, Eq)]
pub struct Size {
    pub kinds: Kinds,
    pub max_lines: usize,
    pub max_parties: u32,
}

impl Size {
    pub const SMALL: Size = Size {
        kinds: Kinds::Overs,
        max_lines: 15,
        max_parties: 4,
    };
    pub const FULL: Size = Size {
        kinds: Kinds::Overs,
        max_lines: 256,
        max_parties: 8,
    };
}

/// What one party is lent, its scratch included.
#[derive(Clone, Debug, PartialEq, Eq)]
pub struct Lent {
    pub parties: u32,
    pub party: u32,
    pub circuit: Vec<u32>,
    pub prep: Vec<u32>,
    pub inputs: Vec<u32>,
    pub scratch: Vec<u32>,
}

impl Lent {
    pub fn party(&self) -> Party<'_> {
        Party {
            parties: self.parties,
            party: self.party,
            circuit: &self.circuit,
            prep: &self.prep,
            inputs: &self.inputs,
        }
    }
}

/// A call of one entry, with the contents of every list before it.
#[derive(Clone, Debug, PartialEq, Eq)]
pub enum Request {
    Open {
        lent: Lent,
    },
    Send {
        lent: Lent,
        position: Position,
        coefficients: Vec<u32>,
        nonce: Vec<u8>,
        out: Vec<u32>,
    },
    Receive {
        lent: Lent,
        position: Position,
        heard: Vec<u32>,
    },
    Joint {
        parties: u32,
        circuit: Vec<u32>,
        preps: Vec<u32>,
        inputs: Vec<u32>,
        scratch: Vec<u32>,
        coefficients: Vec<u32>,
        nonces: Vec<u8>,
        transcript: Vec<u32>,
        outputs: Vec<u32>,
    },
}

/// The result of a call, and the contents of each list lent for writing after it.
#[derive(Clone, Debug, PartialEq, Eq)]
pub enum Answer {
    Open {
        result: Result<Position, Refusal>,
    },
    Send {
        result: Result<Position, Refusal>,
        scratch: Vec<u32>,
        out: Vec<u32>,
    },
    Receive {
        result: Result<Received, Refusal>,
        scratch: Vec<u32>,
    },
    Joint {
        result: Result<JointResult, Refusal>,
        scratch: Vec<u32>,
        transcript: Vec<u32>,
        outputs: Vec<u32>,
    },
}

#[derive(Clone, Debug, PartialEq, Eq)]
pub struct Answered {
    pub request: Request,
    pub answer: Answer,
}

#[derive(Clone, Copy, Debug, PartialEq, Eq, PartialOrd, Ord)]
pub enum Entry {
    Open,
    Send,
    Receive,
    Joint,
}

impl Entry {
    pub const ALL: [Entry; 4] = [Entry::Open, Entry::Send, Entry::Receive, Entry::Joint];

    pub fn name(self) -> &'static str {
        match self {
            Entry::Open => "open",
            Entry::Send => "send",
            Entry::Receive => "receive",
            Entry::Joint => "joint",
        }
    }
}

/// One thing that an entry is lent.
#[derive(Clone, Copy, Debug, PartialEq, Eq)]
pub enum Field<'a> {
    Numbers(&'a [u32]),
    Bytes(&'a [u8]),
    Position(Position),
}

impl Lent {
    fn fields(&self) -> Vec<(&'static str, Field<'_>)> {
        vec![
            ("parties", Field::Numbers(from_ref(&self.parties))),
            ("party", Field::Numbers(from_ref(&self.party))),
            ("circuit", Field::Numbers(&self.circuit)),
            ("prep", Field::Numbers(&self.prep)),
            ("inputs", Field::Numbers(&self.inputs)),
            ("scratch", Field::Numbers(&self.scratch)),
        ]
    }
}

/// A joint run whose lists to be written are zeros and just long enough. Fails as questions 1 and 3
/// to 7 do.
pub fn blank_joint(
    parties: u32,
    circuit: &[u32],
    preps: &[u32],
    inputs: &[u32],
    coefficients: &[u32],
    nonces: &[u8],
) -> Result<Request, Refusal> {
    let shape = circuit::shape(parties, circuit)?;
    let count = parties as usize;
    Ok(Request::Joint {
        parties,
        circuit: circuit.to_vec(),
        preps: preps.to_vec(),
        inputs: inputs.to_vec(),
        scratch: vec![0; count * shape.scratch_len()],
        coefficients: coefficients.to_vec(),
        nonces: nonces.to_vec(),
        transcript: vec![0; count * shape.words()],
        outputs: vec![0; shape.outputs],
    })
}

impl Request {
    /// All that the entry is lent, in the order and by the names of the text.
    pub fn fields(&self) -> Vec<(&'static str, Field<'_>)> {
        match self {
            Request::Open { lent } => lent.fields(),
            Request::Send {
                lent,
                position,
                coefficients,
                nonce,
                out,
            } => {
                let mut fields = lent.fields();
                fields.extend([
                    ("position", Field::Position(*position)),
                    ("coefficients", Field::Numbers(coefficients)),
                    ("nonce", Field::Bytes(nonce)),
                    ("out", Field::Numbers(out)),
                ]);
                fields
            }
            Request::Receive {
                lent,
                position,
                heard,
            } => {
                let mut fields = lent.fields();
                fields.extend([
                    ("position", Field::Position(*position)),
                    ("heard", Field::Numbers(heard)),
                ]);
                fields
            }
            Request::Joint {
                parties,
                circuit,
                preps,
                inputs,
                scratch,
                coefficients,
                nonces,
                transcript,
                outputs,
            } => vec![
                ("parties", Field::Numbers(from_ref(parties))),
                ("circuit", Field::Numbers(circuit)),
                ("preps", Field::Numbers(preps)),
                ("inputs", Field::Numbers(inputs)),
                ("scratch", Field::Numbers(scratch)),
                ("coefficients", Field::Numbers(coefficients)),
                ("nonces", Field::Bytes(nonces)),
                ("transcript", Field::Numbers(transcript)),
                ("outputs", Field::Numbers(outputs)),
            ],
        }
    }

    pub fn entry(&self) -> Entry {
        match self {
            Request::Open { .. } => Entry::Open,
            Request::Send { .. } => Entry::Send,
            Request::Receive { .. } => Entry::Receive,
            Request::Joint { .. } => Entry::Joint,
        }
    }

    /// Makes the call on copies of the lists to be written.
    pub fn answer(&self) -> Answer {
        match self {
            Request::Open { lent } => Answer::Open {
                result: open(&lent.party(), &lent.scratch),
            },
            Request::Send {
                lent,
                position,
                coefficients,
                nonce,
                out,
            } => {
                let (mut scratch, mut out) = (lent.scratch.clone(), out.clone());
                let result = send(
                    &lent.party(),
                    &mut scratch,
                    *position,
                    coefficients,
                    nonce,
                    &mut out,
                );
                Answer::Send {
                    result,
                    scratch,
                    out,
                }
            }
            Request::Receive {
                lent,
                position,
                heard,
            } => {
                let mut scratch = lent.scratch.clone();
                let result = receive(&lent.party(), &mut scratch, *position, heard);
                Answer::Receive { result, scratch }
            }
            Request::Joint {
                parties,
                circuit,
                preps,
                inputs,
                scratch,
                coefficients,
                nonces,
                transcript,
                outputs,
            } => {
                let (mut scratch, mut transcript, mut outputs) =
                    (scratch.clone(), transcript.clone(), outputs.clone());
                let result = joint_run(
                    *parties,
                    circuit,
                    preps,
                    inputs,
                    &mut scratch,
                    coefficients,
                    nonces,
                    &mut transcript,
                    &mut outputs,
                );
                Answer::Joint {
                    result,
                    scratch,
                    transcript,
                    outputs,
                }
            }
        }
    }

    pub fn answered(self) -> Answered {
        let answer = self.answer();
        Answered {
            request: self,
            answer,
        }
    }
}

impl Answer {
    /// The later contents of the lists that the entry may write, in the order of the text.
    pub fn lists(&self) -> Vec<(&'static str, &[u32])> {
        match self {
            Answer::Open { .. } => Vec::new(),
            Answer::Send { scratch, out, .. } => vec![("scratch", scratch), ("out", out)],
            Answer::Receive { scratch, .. } => vec![("scratch", scratch)],
            Answer::Joint {
                scratch,
                transcript,
                outputs,
                ..
            } => vec![
                ("scratch", scratch),
                ("transcript", transcript),
                ("outputs", outputs),
            ],
        }
    }

    pub fn refusal(&self) -> Option<Refusal> {
        match self {
            Answer::Open { result } | Answer::Send { result, .. } => result.err(),
            Answer::Receive { result, .. } => result.err(),
            Answer::Joint { result, .. } => result.err(),
        }
    }

    /// Whether the call ended a run by a failing check.
    pub fn aborted(&self) -> bool {
        match self {
            Answer::Receive { result, .. } => matches!(result, Ok(Received::Aborted { .. })),
            Answer::Joint { result, .. } => {
                result.is_ok_and(|result| matches!(result.ending, Ending::Aborted { .. }))
            }
            _ => false,
        }
    }
}

impl Answer {
    /// The party that a failing check names.
    pub fn named(&self) -> Option<u32> {
        match self {
            Answer::Receive {
                result: Ok(Received::Aborted { party, .. }),
                ..
            } => *party,
            Answer::Joint { result, .. } => match result.ok()?.ending {
                Ending::Aborted { party, .. } => party,
                Ending::Finished => None,
            },
            _ => None,
        }
    }
}

impl Answered {
    /// The entry with its refusal number, or with the round and what came of it.
    pub fn label(&self) -> String {
        let entry = self.request.entry().name();
        if let Some(refusal) = self.answer.refusal() {
            return format!("{entry} refused {:02}", refusal.number);
        }
        let round = match &self.request {
            Request::Send { lent, position, .. } | Request::Receive { lent, position, .. } => {
                let round = position.round(&lent.circuit);
                round.map_or(String::new(), |round| format!(" {round:?}"))
            }
            _ => String::new(),
        };
        let outcome = match &self.answer {
            Answer::Receive {
                result: Ok(Received::Released { .. }),
                ..
            } => " released",
            Answer::Joint {
                result:
                    Ok(JointResult {
                        ending: Ending::Finished,
                        ..
                    }),
                ..
            } => " finished",
            answer if answer.aborted() => " aborted",
            _ => "",
        };
        format!("{entry} accepted{round}{outcome}")
    }
}
