//! One party: opening a run, sending and receiving.

use crate::circuit::{self, Before, Gate, Shape};
use crate::commitment::{self, NONCE_BYTES, REVEALED};
use crate::field::{self, P};
use crate::local::Local;
use crate::position::{can_hold, can_occur};
use crate::refusal::{ask, ask_elements, ask_elements_where, ask_parties, Refusal};

pub use crate::position::{Position, Round, Sort, Stage};

/// What a party is lent besides its scratch.
#[derive(Clone, Copy, Debug, PartialEq, Eq)]
pub struct Party<'a> {
    pub parties: u32,
    pub party: u32,
    pub circuit: &'a [u32],
    pub prep: &'a [u32],
    pub inputs: &'a [u32],
}

#[derive(Clone, Copy, Debug, PartialEq, Eq)]
pub enum Received {
    Moved(Position),
    /// At an out gate every party is released its output; at a give gate the receiver alone.
    Released {
        output: u32,
        position: Position,
    },
    Aborted {
        position: Position,
        /// The lowest party whose words do not hash to its mark. None if all do and the check shares do not sum
        /// to zero.
        party: Option<u32>,
    },
}

/// An accepted step: where it is, and what it works with.
struct Step<'a> {
    index: usize,
    gate: Gate,
    round: Round,
    before: Before,
    record: &'a [u32],
    shape: Shape,
    local: Local,
}

#[derive(Clone, Copy, PartialEq)]
enum Half {
    Send,
    Receive,
}

/// Questions 1 to 12.
fn ask_lent(lent: &Party<'_>, scratch: &[u32]) -> Result<Shape, Refusal> {
    ask_parties(lent.parties)?;
    ask(2, lent.party < lent.parties)?;
    let shape = circuit::ask_circuit(lent.parties, lent.circuit)?;
    ask(8, lent.prep.len() == shape.prep_len())?;
    ask_elements(9, lent.prep)?;
    ask(10, lent.inputs.len() == shape.owned[lent.party as usize])?;
    ask_elements(11, lent.inputs)?;
    ask(12, scratch.len() >= shape.scratch_len())?;
    Ok(shape)
}

/// Questions 1 to 15 of sending and receiving.
fn ask_step<'a>(
    lent: &Party<'a>,
    scratch: &[u32],
    position: Position,
    half: Half,
) -> Result<Step<'a>, Refusal> {
    let shape = ask_lent(lent, scratch)?;
    let no = |number| Refusal { number, index: 0 };

    let index = position.gate as usize;
    let gate = circuit::gate(lent.circuit, index).ok_or(no(13))?;
    let before = circuit::before(lent.circuit, lent.party, index);
    ask(
        13,
        can_occur(
            gate,
            index + 1 == shape.gates,
            before.pending,
            position.stage,
        ),
    )?;
    ask(13, can_hold(position.stage, position.held))?;

    let sort = match (position.stage, half) {
        (Stage::Send(sort), Half::Send) | (Stage::Receive(sort), Half::Receive) => sort,
        _ => return Err(no(14)),
    };
    let round = sort.at(gate).ok_or(no(13))?;

    ask_scratch(
        lent.circuit,
        &shape,
        index,
        round.unchecked(before.pending),
        scratch,
    )?;
    let record = &lent.prep[before.record..][..gate.record_len()];
    let local = Local::new(lent.party as usize, lent.prep, shape.layout());
    Ok(Step {
        index,
        gate,
        round,
        before,
        record,
        shape,
        local,
    })
}

/// Question 15: every share comes before every MAC share, and these before the opened entries, as in
/// the scratch itself, so the first no found has the lowest index.
fn ask_scratch(
    circuit: &[u32],
    shape: &Shape,
    index: usize,
    unchecked: usize,
    scratch: &[u32],
) -> Result<(), Refusal> {
    let layout = shape.layout();
    let no = |index| Err(Refusal { number: 15, index });
    for first in [layout.share(0), layout.mac(0)] {
        let lines = circuit.chunks_exact(4).zip(&scratch[first..][..index]);
        for (wire, (line, &number)) in lines.enumerate() {
            if number >= P && circuit::has_value(line) {
                return no(first + wire);
            }
        }
    }
    for first in [layout.opened(0), layout.opened_mac(0)] {
        let entries = &scratch[first..][..unchecked];
        if let Some(entry) = entries.iter().position(|&number| number >= P) {
            return no(first + entry);
        }
    }
    Ok(())
}

/// "Opening a run writes nothing and gives the speaking half of line 0", which is an in gate, as
/// every other kind names an earlier gate.
pub fn open(lent: &Party<'_>, scratch: &[u32]) -> Result<Position, Refusal> {
    ask_lent(lent, scratch)?;
    Ok(Position {
        gate: 0,
        stage: Stage::Send(Sort::Own),
        held: 0,
    })
}

/// The sending half of a round: writes the party's words at the start of `out`, and at a commitment the nonce
/// into the scratch.
pub fn send(
    lent: &Party<'_>,
    scratch: &mut [u32],
    position: Position,
    coefficients: &[u32],
    nonce: &[u8],
    out: &mut [u32],
) -> Result<Position, Refusal> {
    let Step {
        gate,
        round,
        before,
        record,
        local,
        ..
    } = ask_step(lent, scratch, position, Half::Send)?;
    let (wanted, nonce_len) = if round.is_commit() {
        (round.unchecked(before.pending), NONCE_BYTES)
    } else {
        (0, 0)
    };
    ask(16, coefficients.len() == wanted)?;
    ask_elements(17, coefficients)?;
    ask(25, nonce.len() == nonce_len)?;
    ask(18, out.len() >= round.words())?;

    let mut held = 0;
    match gate {
        Gate::Input { owner } => {
            out[0] = if owner == lent.party {
                Local::input_word(record, lent.inputs[before.own_inputs])
            } else {
                0
            };
        }
        Gate::Multiply { left, right } => {
            out[..2].copy_from_slice(&local.multiply_words(scratch, record, left, right));
        }
        Gate::Square { wire } => out[0] = local.square_word(scratch, record, wire),
        Gate::Output { wire } if round == Round::OpenOutput => {
            out[0] = local.output_word(scratch, wire)
        }
        Gate::Give { wire, .. } if round == Round::OpenOutput => {
            out[0] = local.give_word(scratch, record, wire)
        }
        _ if round.is_commit() => {
            held = local.check_share(scratch, coefficients);
            local.keep_nonce(scratch, nonce);
            let mark = commitment::mark(&local.revealed(scratch, held));
            out[..mark.len()].copy_from_slice(&mark);
        }
        _ => {
            let words = local.revealed(scratch, position.held);
            out[..words.len()].copy_from_slice(&words);
        }
    }
    Ok(Position {
        stage: Stage::Receive(round.sort()),
        held,
        ..position
    })
}

/// The receiving half of a round: reads all parties' words, the party's own among them.
pub fn receive(
    lent: &Party<'_>,
    scratch: &mut [u32],
    position: Position,
    heard: &[u32],
) -> Result<Received, Refusal> {
    let step = ask_step(lent, scratch, position, Half::Receive)?;
    let Step {
        index,
        gate,
        round,
        before,
        record,
        local,
        ..
    } = step;
    ask(19, heard.len() == lent.parties as usize * round.words())?;
    ask_elements_where(20, heard, |index| round.has_element(index))?;

    let same_gate = |sort, held| Position {
        stage: Stage::Send(sort),
        held,
        ..position
    };
    let aborted = |party| Received::Aborted {
        position: Position {
            gate: position.gate,
            stage: Stage::Aborted,
            held: 0,
        },
        party,
    };
    if round.is_commit() {
        local.receive_marks(scratch, heard);
    }
    if round.is_reveal() {
        if let Some(party) = local.lowest_unfit(scratch, heard) {
            return Ok(aborted(Some(party)));
        }
        if field::sum(heard.iter().step_by(REVEALED)) != 0 {
            return Ok(aborted(None));
        }
    }
    Ok(match (round, gate) {
        (Round::Input, Gate::Input { owner }) => {
            local.receive_input(scratch, index, record, heard[owner as usize]);
            Received::Moved(next_gate(lent.circuit, &step, scratch))
        }
        (Round::Multiply, Gate::Multiply { left, right }) => {
            let e = field::sum(heard.iter().step_by(2));
            let d = field::sum(heard.iter().skip(1).step_by(2));
            local.receive_multiply(
                scratch,
                (index, left, right),
                record,
                before.pending,
                (e, d),
            );
            Received::Moved(next_gate(lent.circuit, &step, scratch))
        }
        (Round::Square, Gate::Square { wire }) => {
            let e = field::sum(heard);
            local.receive_square(scratch, (index, wire), record, before.pending, e);
            Received::Moved(next_gate(lent.circuit, &step, scratch))
        }
        (Round::OpenOutput, Gate::Output { wire }) => {
            local.receive_output(scratch, wire, field::sum(heard));
            Received::Moved(same_gate(Sort::CommitOutput, 0))
        }
        (Round::OpenOutput, Gate::Give { wire, .. }) => {
            local.receive_give(scratch, record, wire, field::sum(heard));
            Received::Moved(same_gate(Sort::CommitOutput, 0))
        }
        (Round::CommitOpened, _) => Received::Moved(same_gate(Sort::RevealOpened, position.held)),
        (Round::CommitOutput, _) => Received::Moved(same_gate(Sort::RevealOutput, position.held)),
        (Round::RevealOpened, _) => Received::Moved(same_gate(Sort::OpenOutput, 0)),
        // Question 13 leaves only the second reveal of an out or a give gate.
        _ => {
            let output = match gate.receiver() {
                None => Some(local.output(scratch)),
                // "Others get no score."
                Some(receiver) => (receiver == lent.party).then(|| local.given(scratch, record)),
            };
            let position = next_gate(lent.circuit, &step, scratch);
            match output {
                Some(output) => Received::Released { output, position },
                None => Received::Moved(position),
            }
        }
    })
}

/// "Hearing does all such lines up to the next stop": works out the linear gates after the step's
/// gate and gives the sending half of the next gate that needs a round, or the finished position.
fn next_gate(circuit: &[u32], step: &Step<'_>, scratch: &mut [u32]) -> Position {
    let pending = step.gate.pending_after(step.before.pending);
    let at = |index: usize, stage| Position {
        gate: index as u32,
        stage,
        held: 0,
    };
    for (index, gate) in circuit::gates(circuit).enumerate().skip(step.index + 1) {
        if step.local.linear(scratch, index, gate) {
            continue;
        }
        let sort = match gate {
            _ if gate.needs().round.is_some() => Sort::Own,
            _ if pending > 0 => Sort::CommitOpened,
            _ => Sort::OpenOutput,
        };
        return at(index, Stage::Send(sort));
    }
    at(step.shape.gates - 1, Stage::Finished)
}
