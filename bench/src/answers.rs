//! Answers of the Rust implementation, as the six numbers that the proved entries give; a refusal is 0, its number and its index.

use reference::fit::Fit;
use reference::{Ending, JointResult, Position, Received, Refusal, Sort, Stage};

pub const PLACES: usize = 6;

pub type Answer = [u64; PLACES];

fn round_number(sort: Sort) -> u32 {
    match sort {
        Sort::Own => 0,
        Sort::OpenOutput => 1,
        Sort::CommitOpened => 2,
        Sort::RevealOpened => 3,
        Sort::CommitOutput => 4,
        Sort::RevealOutput => 5,
    }
}

/// A stage's half and round.
pub fn stage_numbers(stage: Stage) -> [u32; 2] {
    match stage {
        Stage::Send(sort) => [0, round_number(sort)],
        Stage::Receive(sort) => [1, round_number(sort)],
        Stage::Finished => [2, 0],
        Stage::Aborted => [3, 0],
    }
}

pub fn refused(number: u32, index: usize) -> Answer {
    [0, number.into(), index as u64, 0, 0, 0]
}

fn refusal(refusal: Refusal) -> Answer {
    refused(refusal.number, refusal.index)
}

fn at(kind: u64, output: u32, position: Position) -> Answer {
    let [half, round] = stage_numbers(position.stage);
    [
        kind,
        output.into(),
        position.gate.into(),
        half.into(),
        round.into(),
        position.held.into(),
    ]
}

pub fn sent(result: Result<Position, Refusal>) -> Answer {
    result.map_or_else(refusal, |position| at(1, 0, position))
}

/// One more than the number of the party that is named, or 0.
fn named(party: Option<u32>) -> u32 {
    party.map_or(0, |party| party + 1)
}

pub fn received(result: Result<Received, Refusal>) -> Answer {
    match result {
        Err(refused) => refusal(refused),
        Ok(Received::Moved(position)) => at(1, 0, position),
        Ok(Received::Released { output, position }) => at(2, output, position),
        Ok(Received::Aborted { position, party }) => at(3, named(party), position),
    }
}

pub fn joint(result: Result<JointResult, Refusal>) -> Answer {
    match result {
        Err(refused) => refusal(refused),
        Ok(run) => match run.ending {
            Ending::Finished => [1, run.rounds as u64, 0, 0, 0, 0],
            Ending::Aborted { gate, party } => {
                [2, run.rounds as u64, gate.into(), named(party).into(), 0, 0]
            }
        },
    }
}

/// The kinds of the answers of reader and writer.
const READ: u64 = 4;
const WRITTEN: u64 = 5;

fn counted(kind: u64, result: Result<usize, Refusal>) -> Answer {
    result.map_or_else(refusal, |count| [kind, count as u64, 0, 0, 0, 0])
}

pub fn read(result: Result<usize, Refusal>) -> Answer {
    counted(READ, result)
}

pub fn written(result: Result<usize, Refusal>) -> Answer {
    counted(WRITTEN, result)
}

/// The kinds of the answers of the tool of ranges.
pub const FITS: u64 = 6;
const LEAVES: u64 = 7;

pub fn fit(result: Result<Fit, Refusal>) -> Answer {
    match result {
        Err(refused) => refusal(refused),
        Ok(Fit::Fits) => [FITS, 0, 0, 0, 0, 0],
        Ok(Fit::Leaves { gate }) => [LEAVES, gate as u64, 0, 0, 0, 0],
    }
}
