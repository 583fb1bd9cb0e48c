//! Positions in a run, and question 13: which of them can occur.

use crate::circuit::{self, Gate};
use crate::commitment;
use crate::field::P;

/// A round. An out or give gate has two checks: the first of all opened and unchecked entries, the second of
/// the output itself.
#[derive(Clone, Copy, Debug, PartialEq, Eq, PartialOrd, Ord)]
pub enum Round {
    Input,
    Multiply,
    Square,
    CommitOpened,
    RevealOpened,
    OpenOutput,
    CommitOutput,
    RevealOutput,
}

impl Round {
    pub const ALL: [Round; 8] = [
        Round::Input,
        Round::Multiply,
        Round::Square,
        Round::CommitOpened,
        Round::RevealOpened,
        Round::OpenOutput,
        Round::CommitOutput,
        Round::RevealOutput,
    ];

    /// The name that document 01 prints for the round.
    pub fn name(self) -> &'static str {
        match self {
            Round::Input => "in",
            Round::Multiply => "mul",
            Round::Square => "sq",
            Round::CommitOpened | Round::CommitOutput => "seal",
            Round::RevealOpened | Round::RevealOutput => "reveal",
            Round::OpenOutput => "show",
        }
    }

    /// Words that each party sends.
    pub fn words(self) -> usize {
        match self {
            Round::Multiply => 2,
            Round::CommitOpened | Round::CommitOutput => commitment::WORDS,
            Round::RevealOpened | Round::RevealOutput => commitment::REVEALED,
            _ => 1,
        }
    }

    /// Whether the word of this index, among those of all parties, must be an element: "mark and nonce words are
    /// any 32-bit numbers".
    pub fn has_element(self, index: usize) -> bool {
        !self.is_commit() && (!self.is_reveal() || index.is_multiple_of(commitment::REVEALED))
    }

    /// Opened and unchecked entries during the round, with `pending` of them when its gate is reached.
    pub fn unchecked(self, pending: usize) -> usize {
        match self {
            Round::Input
            | Round::Multiply
            | Round::Square
            | Round::CommitOpened
            | Round::RevealOpened => pending,
            Round::OpenOutput => 0,
            Round::CommitOutput | Round::RevealOutput => 1,
        }
    }

    /// How a position names the round.
    pub fn sort(self) -> Sort {
        match self {
            Round::Input | Round::Multiply | Round::Square => Sort::Own,
            Round::CommitOpened => Sort::CommitOpened,
            Round::RevealOpened => Sort::RevealOpened,
            Round::OpenOutput => Sort::OpenOutput,
            Round::CommitOutput => Sort::CommitOutput,
            Round::RevealOutput => Sort::RevealOutput,
        }
    }

    pub fn is_commit(self) -> bool {
        self.sort().is_commit()
    }

    pub fn is_reveal(self) -> bool {
        self.sort().is_reveal()
    }
}

/// What a position says of a round. The rounds of in, mul and sq gates are of one sort: each is its
/// gate's own, and the gate tells them apart.
#[derive(Clone, Copy, Debug, PartialEq, Eq, PartialOrd, Ord)]
pub enum Sort {
    Own,
    CommitOpened,
    RevealOpened,
    OpenOutput,
    CommitOutput,
    RevealOutput,
}

impl Sort {
    pub const ALL: [Sort; 6] = [
        Sort::Own,
        Sort::CommitOpened,
        Sort::RevealOpened,
        Sort::OpenOutput,
        Sort::CommitOutput,
        Sort::RevealOutput,
    ];

    /// The round of the sort that such a gate has: a give gate "stops as out does". Whether the gate has its
    /// first check is told by the unchecked entries before it, and is not asked here.
    pub fn at(self, gate: Gate) -> Option<Round> {
        let round = match self {
            Sort::Own => return gate.needs().round,
            Sort::CommitOpened => Round::CommitOpened,
            Sort::RevealOpened => Round::RevealOpened,
            Sort::OpenOutput => Round::OpenOutput,
            Sort::CommitOutput => Round::CommitOutput,
            Sort::RevealOutput => Round::RevealOutput,
        };
        gate.is_output().then_some(round)
    }

    pub fn is_commit(self) -> bool {
        matches!(self, Sort::CommitOpened | Sort::CommitOutput)
    }

    pub fn is_reveal(self) -> bool {
        matches!(self, Sort::RevealOpened | Sort::RevealOutput)
    }
}

#[derive(Clone, Copy, Debug, PartialEq, Eq)]
pub enum Stage {
    Send(Sort),
    Receive(Sort),
    Finished,
    Aborted,
}

/// "A place is a line, a stage and a held check word."
#[derive(Clone, Copy, Debug, PartialEq, Eq)]
pub struct Position {
    pub gate: u32,
    pub stage: Stage,
    pub held: u32,
}

impl Position {
    /// The round that a position of an accepted circuit is in, as far as its gate has one.
    pub fn round(self, circuit: &[u32]) -> Option<Round> {
        let (Stage::Send(sort) | Stage::Receive(sort)) = self.stage else {
            return None;
        };
        sort.at(circuit::gate(circuit, self.gate as usize)?)
    }
}

/// Whether the circuit has such a position, its held word aside.
pub(crate) fn can_occur(gate: Gate, is_last: bool, pending: usize, stage: Stage) -> bool {
    let (Stage::Send(sort) | Stage::Receive(sort)) = stage else {
        // Only a failing reveal aborts, so an aborted position names an out or a give gate.
        return match stage {
            Stage::Finished => is_last,
            _ => gate.is_output(),
        };
    };
    match sort.at(gate) {
        Some(Round::CommitOpened | Round::RevealOpened) => pending > 0,
        round => round.is_some(),
    }
}

/// "0 unless between speaking a seal and speaking its reveal."
pub(crate) fn can_hold(stage: Stage, held: u32) -> bool {
    let between = match stage {
        Stage::Receive(sort) => sort.is_commit(),
        Stage::Send(sort) => sort.is_reveal(),
        _ => false,
    };
    held == 0 || (between && held < P)
}
