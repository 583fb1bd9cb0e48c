//! Requests to the tool of ranges, and requests to it whose text has a fault.

use crate::circuit;
use crate::fit::{fit, Change, Fit};
use crate::refusal::Refusal;
use crate::text;

/// A call with the contents of every list before it, or a text that calls nothing.
#[derive(Clone, Debug, PartialEq, Eq)]
pub enum FitRequest {
    Fit {
        parties: u32,
        circuit: Vec<u32>,
        ranges: Vec<u32>,
        change: Option<Change>,
        intervals: Vec<u32>,
        moves: Vec<u32>,
    },
    /// Lines of a request of which one, counted from 0, has a fault; the next request may have it.
    Faulty {
        lines: String,
        line: usize,
        message: &'static str,
    },
}

/// What a call tells, and the lists after it.
#[derive(Clone, Debug, PartialEq, Eq)]
pub struct FitAnswer {
    pub result: Result<Fit, Refusal>,
    pub intervals: Vec<u32>,
    pub moves: Vec<u32>,
}

impl FitRequest {
    /// A call whose lists to be written are just long enough, the second only if there is a change; short ones for a
    /// circuit that is refused.
    pub fn new(
        parties: u32,
        circuit: &[u32],
        ranges: &[u32],
        change: Option<(u32, u32)>,
    ) -> FitRequest {
        let (gates, outputs) = match circuit::shape(parties, circuit) {
            Ok(shape) => (shape.gates, shape.outputs),
            Err(_) => (1, 1),
        };
        FitRequest::Fit {
            parties,
            circuit: circuit.to_vec(),
            ranges: ranges.to_vec(),
            change: change.map(|(gate, amount)| Change { gate, amount }),
            intervals: vec![9; 2 * gates],
            moves: vec![7; change.map_or(0, |_| outputs)],
        }
    }

    /// The same with lists to be written of other lengths.
    pub fn with_lists(mut self, of_intervals: usize, of_moves: usize) -> FitRequest {
        if let FitRequest::Fit {
            intervals, moves, ..
        } = &mut self
        {
            *intervals = vec![9; of_intervals];
            *moves = vec![7; of_moves];
        }
        self
    }

    pub fn request(&self) -> String {
        match self {
            FitRequest::Fit {
                parties,
                circuit,
                ranges,
                change,
                intervals,
                moves,
            } => {
                let change = change.map_or(Vec::new(), |of| vec![of.gate, of.amount]);
                let lists = [
                    ("circuit", circuit),
                    ("ranges", ranges),
                    ("change", &change),
                    ("intervals", intervals),
                    ("moves", moves),
                ];
                let lists = lists.map(|(name, list)| text::line(name, list));
                format!("fit\nparties {parties}\n{}", lists.concat())
            }
            FitRequest::Faulty { lines, .. } => lines.clone(),
        }
    }

    /// Makes the call on copies of the lists to be written. None if nothing is called.
    pub fn answered(&self) -> Option<FitAnswer> {
        let FitRequest::Fit {
            parties,
            circuit,
            ranges,
            change,
            intervals,
            moves,
        } = self
        else {
            return None;
        };
        let (mut intervals, mut moves) = (intervals.clone(), moves.clone());
        let result = fit(
            *parties,
            circuit,
            ranges,
            *change,
            &mut intervals,
            &mut moves,
        );
        Some(FitAnswer {
            result,
            intervals,
            moves,
        })
    }

    /// The answer, where so many lines of the input stand before the request.
    pub fn answer(&self, before: usize) -> String {
        if let FitRequest::Faulty { line, message, .. } = self {
            return format!("line {}: {message}\n", before + line + 1);
        }
        let answered = self.answered().expect("a call");
        let first = match answered.result {
            Ok(Fit::Fits) => String::from("fits\n"),
            Ok(Fit::Leaves { gate }) => format!("leaves {gate}\n"),
            Err(refusal) => text::refusal(refusal),
        };
        let lists = [("intervals", answered.intervals), ("moves", answered.moves)];
        first + &lists.map(|(name, list)| text::line(name, &list)).concat()
    }
}
