//! Requests to read and write sheets and to score one, and requests whose text has a fault.

use super::{Answered, Field, Request};
use crate::circuit::MAX_GATES;
use crate::refusal::Refusal;
use crate::sheet::{read_sheet, write_sheet};
use crate::text;

/// A call with the contents of every list before it, or a text that calls nothing.
#[derive(Clone, Debug, PartialEq, Eq)]
pub enum SheetRequest {
    Read {
        parties: u32,
        text: Vec<u8>,
        circuit: Vec<u32>,
    },
    Write {
        parties: u32,
        circuit: Vec<u32>,
        text: Vec<u8>,
    },
    /// A joint run on the circuit of a sheet. The circuit of the request is not lent.
    Score { text: Vec<u8>, joint: Request },
    /// Lines of a request of which one, counted from 0, has a fault; the next request may have it.
    Faulty {
        lines: String,
        line: usize,
        message: &'static str,
    },
}

fn first_line(word: &str, result: Result<usize, Refusal>) -> String {
    match result {
        Ok(count) => format!("{word} {count}\n"),
        Err(refusal) => text::refusal(refusal),
    }
}

impl SheetRequest {
    pub fn name(&self) -> &'static str {
        match self {
            SheetRequest::Read { .. } => "read",
            SheetRequest::Write { .. } => "write",
            SheetRequest::Score { .. } => "score",
            SheetRequest::Faulty { .. } => "fault",
        }
    }

    pub fn request(&self) -> String {
        match self {
            SheetRequest::Read {
                parties,
                text,
                circuit,
            } => {
                let (text, circuit) = (
                    text::bytes_line("text", text),
                    text::line("circuit", circuit),
                );
                format!("read\nparties {parties}\n{text}{circuit}")
            }
            SheetRequest::Write {
                parties,
                circuit,
                text,
            } => {
                let (text, circuit) = (
                    text::bytes_line("text", text),
                    text::line("circuit", circuit),
                );
                format!("write\nparties {parties}\n{circuit}{text}")
            }
            SheetRequest::Score { text, joint } => {
                score_request(&text::bytes_line("text", text), joint)
            }
            SheetRequest::Faulty { lines, .. } => lines.clone(),
        }
    }

    /// The answer, where so many lines of the input stand before the request.
    pub fn answer(&self, before: usize) -> String {
        match self {
            SheetRequest::Read {
                parties,
                text,
                circuit,
            } => {
                let mut circuit = circuit.clone();
                let result = read_sheet(*parties, text, &mut circuit);
                first_line("lines", result) + &text::line("circuit", &circuit)
            }
            SheetRequest::Write {
                parties,
                circuit,
                text,
            } => {
                let mut text = text.clone();
                let result = write_sheet(*parties, circuit, &mut text);
                first_line("bytes", result) + &text::bytes_line("text", &text)
            }
            SheetRequest::Score { text, joint } => match scored(text, joint) {
                Ok(answered) => text::show(&answered),
                Err(refusal) => text::refusal(refusal),
            },
            SheetRequest::Faulty { line, message, .. } => {
                format!("line {}: {message}\n", before + line + 1)
            }
        }
    }
}

/// A request to `score`: that of a joint run with a line for the sheet where the circuit stands.
pub fn score_request(sheet: &str, joint: &Request) -> String {
    let mut request = String::from("score\n");
    for (name, field) in joint.fields() {
        match field {
            Field::Numbers(_) if name == "circuit" => request.push_str(sheet),
            Field::Numbers(numbers) => request.push_str(&text::line(name, numbers)),
            Field::Bytes(bytes) => request.push_str(&text::bytes_line(name, bytes)),
            Field::Position(_) => unreachable!("a joint run has no position"),
        }
    }
    request
}

/// The joint run on the circuit that is read.
pub fn scored(sheet: &[u8], joint: &Request) -> Result<Answered, Refusal> {
    let mut joint = joint.clone();
    let Request::Joint {
        parties, circuit, ..
    } = &mut joint
    else {
        unreachable!("a sheet is scored by a joint run");
    };
    let mut read = [0; 4 * MAX_GATES];
    let gates = read_sheet(*parties, sheet, &mut read)?;
    *circuit = read[..4 * gates].to_vec();
    Ok(joint.answered())
}
