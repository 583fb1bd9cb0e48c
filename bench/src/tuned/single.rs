//! One party: sending and receiving.

use reference::circuit::{ADD, MAX_PARTIES, OVER, PLUS, SUB, TIMES};
use reference::{Party, Position, Received, Refusal, Sort, Stage, P};

use super::field::{
    add, all_elements, ask, ask_elements, inner_product, product, reduce, remainder, sub, times,
};
use super::gates::{Gates, ADD8, GIVE8, IN8, MUL8, OUT8, OVER8, PLUS8, SQ8, SUB8, TIMES8};
use super::inverses::Inverses;
use super::sha256::{self, Schedule, MARK, NONCE, REVEALED};

/// An accepted step.
struct Step<'a> {
    gates: &'a Gates,
    index: usize,
    kind: u8,
    /// The wires that the gate names.
    left: usize,
    right: usize,
    sort: Sort,
    /// Opened entries that the gates before leave unchecked.
    pending: usize,
    /// Where the gate's record starts in the preprocessing.
    record: usize,
    /// Where MAC shares, opened values and their MAC shares start in the scratch.
    macs: usize,
    opened: usize,
    opened_macs: usize,
    /// Where the nonce and the marks start in the scratch.
    nonce: usize,
    marks: usize,
}

impl Step<'_> {
    /// Words that each party sends.
    fn words(&self) -> usize {
        match self.sort {
            Sort::Own => 1 + usize::from(self.kind == MUL8),
            Sort::OpenOutput => 1,
            Sort::CommitOpened | Sort::CommitOutput => MARK,
            Sort::RevealOpened | Sort::RevealOutput => REVEALED,
        }
    }

    fn is_commit(&self) -> bool {
        matches!(self.sort, Sort::CommitOpened | Sort::CommitOutput)
    }

    fn is_reveal(&self) -> bool {
        matches!(self.sort, Sort::RevealOpened | Sort::RevealOutput)
    }

    /// Opened and unchecked entries during the round.
    fn unchecked(&self) -> usize {
        match self.sort {
            Sort::Own | Sort::CommitOpened | Sort::RevealOpened => self.pending,
            Sort::OpenOutput => 0,
            Sort::CommitOutput | Sort::RevealOutput => 1,
        }
    }
}

/// Whether the circuit has such a position, given the gate's kind and the unchecked entries before it.
fn can_occur(kind: u8, is_last: bool, pending: usize, position: Position) -> bool {
    let (exists, holds) = match position.stage {
        Stage::Send(Sort::Own) | Stage::Receive(Sort::Own) => {
            ([IN8, MUL8, SQ8].contains(&kind), false)
        }
        Stage::Send(sort) | Stage::Receive(sort) => {
            let first_check = matches!(sort, Sort::CommitOpened | Sort::RevealOpened);
            let holds = match position.stage {
                Stage::Receive(_) => matches!(sort, Sort::CommitOpened | Sort::CommitOutput),
                _ => matches!(sort, Sort::RevealOpened | Sort::RevealOutput),
            };
            let output = [OUT8, GIVE8].contains(&kind);
            (output && (!first_check || pending > 0), holds)
        }
        Stage::Finished => (is_last, false),
        Stage::Aborted => ([OUT8, GIVE8].contains(&kind), false),
    };
    exists && (position.held == 0 || (holds && position.held < P))
}

/// Questions 1 to 15, with the sort of the round if the position is of the half that is called.
fn ask_step<'a>(
    gates: &'a mut Gates,
    lent: &Party<'_>,
    scratch: &[u32],
    position: Position,
    called: Option<Sort>,
) -> Result<Step<'a>, Refusal> {
    ask(1, (2..=8).contains(&lent.parties))?;
    ask(2, lent.party < lent.parties)?;
    gates.read(lent.parties, lent.circuit)?;
    let gates = &*gates;
    let counts = gates.counts();
    ask(8, lent.prep.len() == counts.prep_len())?;
    ask_elements(9, lent.prep)?;
    ask(10, lent.inputs.len() == gates.owned(lent.party as u8))?;
    ask_elements(11, lent.inputs)?;
    let entries = counts.entries() + 1;
    let nonce = 2 * gates.len + 2 * entries;
    let marks = nonce + MARK;
    ask(12, scratch.len() >= marks + MARK * lent.parties as usize)?;

    let index = position.gate as usize;
    ask(13, index < gates.len)?;
    let (kind, left, right) = gates.gate(index);
    let pending = gates.pending(index);
    ask(
        13,
        can_occur(kind, index + 1 == gates.len, pending, position),
    )?;
    let sort = called.ok_or(Refusal {
        number: 14,
        index: 0,
    })?;
    let step = Step {
        index,
        kind,
        left: left.into(),
        right: right.into(),
        sort,
        pending,
        record: gates.counts_before(index as u8).prep_len(),
        macs: gates.len,
        opened: 2 * gates.len,
        opened_macs: 2 * gates.len + entries,
        nonce,
        marks,
        gates,
    };
    ask_scratch(&step, scratch)?;
    Ok(step)
}

/// Question 15.
fn ask_scratch(step: &Step<'_>, scratch: &[u32]) -> Result<(), Refusal> {
    let unchecked = step.unchecked();
    let lists = [
        (0, step.index),
        (step.macs, step.index),
        (step.opened, unchecked),
        (step.opened_macs, unchecked),
    ];
    if lists
        .iter()
        .all(|&(first, len)| all_elements(&scratch[first..][..len]))
    {
        Ok(())
    } else {
        first_no(step, scratch, lists)
    }
}

/// The first number asked by question 15 that is no element; those of out and give gates are not asked.
#[cold]
fn first_no(step: &Step<'_>, scratch: &[u32], lists: [(usize, usize); 4]) -> Result<(), Refusal> {
    for (first, len) in lists {
        for (place, &number) in scratch[first..][..len].iter().enumerate() {
            let kind = || step.gates.gate(place).0;
            let asked = first >= step.opened || ![OUT8, GIVE8].contains(&kind());
            if number >= P && asked {
                let index = first + place;
                return Err(Refusal { number: 15, index });
            }
        }
    }
    Ok(())
}

/// The sending half of a round: writes the party's words at the start of `out`, and at a commitment the nonce into the scratch.
pub fn send(
    lent: &Party<'_>,
    scratch: &mut [u32],
    position: Position,
    coefficients: &[u32],
    nonce: &[u8],
    out: &mut [u32],
) -> Result<Position, Refusal> {
    let called = match position.stage {
        Stage::Send(sort) => Some(sort),
        _ => None,
    };
    let mut gates = Gates::new();
    let step = ask_step(&mut gates, lent, scratch, position, called)?;
    let (wanted, bytes) = if step.is_commit() {
        (step.unchecked(), NONCE)
    } else {
        (0, 0)
    };
    ask(16, coefficients.len() == wanted)?;
    ask_elements(17, coefficients)?;
    ask(25, nonce.len() == bytes)?;
    ask(18, out.len() >= step.words())?;

    let prep = lent.prep;
    let record = &prep[step.record..];
    let mut held = 0;
    match (step.sort, step.kind) {
        (Sort::Own, IN8) => {
            out[0] = if lent.circuit[4 * step.index + 1] == lent.party {
                let input = step.gates.owned_before(lent.party as u8, step.index);
                sub(lent.inputs[input], record[2])
            } else {
                0
            };
        }
        (Sort::Own, MUL8) => {
            out[0] = sub(scratch[step.left], record[0]);
            out[1] = sub(scratch[step.right], record[2]);
        }
        (Sort::Own, _) => out[0] = sub(scratch[step.left], record[0]),
        (Sort::OpenOutput, GIVE8) => out[0] = sub(scratch[step.left], record[0]),
        (Sort::OpenOutput, _) => out[0] = scratch[step.left],
        (Sort::CommitOpened | Sort::CommitOutput, _) => {
            let opened = &scratch[step.opened..][..wanted];
            let opened_macs = &scratch[step.opened_macs..][..wanted];
            let v = remainder(inner_product(coefficients, opened));
            held = reduce(inner_product(coefficients, opened_macs) + product(prep[0], P - v));
            if let Some(nonce) = nonce.first_chunk() {
                let words = sha256::nonce_words(nonce);
                scratch[step.nonce..][..MARK].copy_from_slice(&words);
                out[..MARK].copy_from_slice(&sha256::mark(&sha256::revealed(held, &words)));
            }
        }
        (Sort::RevealOpened | Sort::RevealOutput, _) => {
            out[0] = position.held;
            out[1..REVEALED].copy_from_slice(&scratch[step.nonce..][..MARK]);
        }
    }
    Ok(Position {
        stage: Stage::Receive(step.sort),
        held,
        ..position
    })
}

/// The sum of the numbers.
fn sum<'a>(numbers: impl Iterator<Item = &'a u32>) -> u32 {
    remainder(numbers.map(|&x| u64::from(x)).sum())
}

/// The receiving half of a round: reads all parties' words, the party's own among them.
pub fn receive(
    lent: &Party<'_>,
    scratch: &mut [u32],
    position: Position,
    heard: &[u32],
) -> Result<Received, Refusal> {
    let called = match position.stage {
        Stage::Receive(sort) => Some(sort),
        _ => None,
    };
    let mut gates = Gates::new();
    let step = ask_step(&mut gates, lent, scratch, position, called)?;
    ask(19, heard.len() == lent.parties as usize * step.words())?;
    if step.is_reveal() {
        let mut shares = heard.iter().step_by(REVEALED);
        if let Some(party) = shares.position(|&share| share >= P) {
            return Err(Refusal {
                number: 20,
                index: REVEALED * party,
            });
        }
    } else if !step.is_commit() {
        ask_elements(20, heard)?;
    }

    let same_gate = |sort, held| {
        Received::Moved(Position {
            stage: Stage::Send(sort),
            held,
            ..position
        })
    };
    let (index, left, right) = (step.index, step.left, step.right);
    let (macs, opened, opened_macs) = (step.macs, step.opened, step.opened_macs);
    let record = &lent.prep[step.record..];
    // A public number counts at party 0 alone, its MAC share at each.
    let public = [u32::from(lent.party == 0), lent.prep[0]];
    let failing = match step.is_reveal() {
        true => failing(&scratch[step.marks..], heard),
        false => None,
    };
    Ok(match (step.sort, step.kind) {
        (Sort::Own, IN8) => {
            let e = heard[lent.circuit[4 * index + 1] as usize];
            scratch[index] = reduce(u64::from(record[0]) + product(public[0], e));
            scratch[macs + index] = reduce(u64::from(record[1]) + product(public[1], e));
            Received::Moved(next_gate(lent, &step, scratch, step.pending))
        }
        (Sort::Own, MUL8) => {
            let e = sum(heard.iter().step_by(2));
            let d = sum(heard.iter().skip(1).step_by(2));
            let entry = step.pending;
            scratch[opened + entry] = e;
            scratch[opened + entry + 1] = d;
            scratch[opened_macs + entry] = sub(scratch[macs + left], record[1]);
            scratch[opened_macs + entry + 1] = sub(scratch[macs + right], record[3]);
            let ed = reduce(product(e, d));
            for (j, public) in public.into_iter().enumerate() {
                scratch[j * macs + index] = reduce(
                    u64::from(record[4 + j])
                        + product(record[2 + j], e)
                        + product(record[j], d)
                        + product(public, ed),
                );
            }
            Received::Moved(next_gate(lent, &step, scratch, entry + 2))
        }
        (Sort::Own, _) => {
            let e = sum(heard.iter());
            let entry = step.pending;
            scratch[opened + entry] = e;
            scratch[opened_macs + entry] = sub(scratch[macs + left], record[1]);
            let ee = reduce(product(e, e));
            for (j, public) in public.into_iter().enumerate() {
                scratch[j * macs + index] = reduce(
                    u64::from(record[2 + j]) + product(record[j], 2 * e) + product(public, ee),
                );
            }
            Received::Moved(next_gate(lent, &step, scratch, entry + 1))
        }
        (Sort::OpenOutput, _) => {
            let mask_mac = if step.kind == GIVE8 { record[1] } else { 0 };
            scratch[opened] = sum(heard.iter());
            scratch[opened_macs] = sub(scratch[macs + left], mask_mac);
            same_gate(Sort::CommitOutput, 0)
        }
        (Sort::CommitOpened, _) => {
            scratch[step.marks..][..heard.len()].copy_from_slice(heard);
            same_gate(Sort::RevealOpened, position.held)
        }
        (Sort::CommitOutput, _) => {
            scratch[step.marks..][..heard.len()].copy_from_slice(heard);
            same_gate(Sort::RevealOutput, position.held)
        }
        _ if failing.is_some() => Received::Aborted {
            position: Position {
                gate: position.gate,
                stage: Stage::Aborted,
                held: 0,
            },
            party: failing.flatten(),
        },
        (Sort::RevealOpened, _) => same_gate(Sort::OpenOutput, 0),
        (Sort::RevealOutput, kind) => {
            let shown = scratch[opened];
            let position = next_gate(lent, &step, scratch, 0);
            let output = match kind {
                GIVE8 if lent.circuit[4 * index + 2] != lent.party => {
                    return Ok(Received::Moved(position));
                }
                GIVE8 => add(shown, record[2]),
                _ => shown,
            };
            Received::Released { output, position }
        }
    })
}

/// Whether what is revealed fails, and the lowest party whose mark it does not fit.
fn failing(marks: &[u32], heard: &[u32]) -> Option<Option<u32>> {
    let revealed = heard.as_chunks::<REVEALED>().0;
    let parties = revealed.len();
    let mut made = [[0; MARK]; MAX_PARTIES];
    sha256::marks(&mut Schedule::of(parties), revealed, &mut made[..parties]);
    let mut pairs = made[..parties].iter().zip(marks.as_chunks().0);
    match pairs.position(|(made, mark)| made != mark) {
        Some(party) => Some(Some(party as u32)),
        None => (sum(heard.iter().step_by(REVEALED)) != 0).then_some(None),
    }
}

/// The kinds of gates that need no round.
const LINEAR: [u32; 5] = [ADD, SUB, PLUS, TIMES, OVER];

/// Works out the linear gates after the step's gate: where the next round is, or the finished position.
fn next_gate(lent: &Party<'_>, step: &Step<'_>, scratch: &mut [u32], pending: usize) -> Position {
    let at = |index: usize, stage| Position {
        gate: index as u32,
        stage,
        held: 0,
    };
    let public = [u32::from(lent.party == 0), lent.prep[0]];
    let lines = lent.circuit.as_chunks::<4>().0;
    let mut inverses = Inverses::new();
    for index in step.index + 1..step.gates.len {
        let (kind, left, right) = step.gates.gate(index);
        let (left, right) = (usize::from(left), usize::from(right));
        let mut constant = lines[index][3];
        if kind == OVER8 {
            // Those of the over gates that this hearing works out.
            let linear = |line: &&[u32; 4]| LINEAR.contains(&line[0]);
            constant = inverses.next(lines[index..].iter().take_while(linear));
        }
        for (list, public) in [0, step.macs].into_iter().zip(public) {
            let (x, y) = (scratch[list + left], scratch[list + right]);
            scratch[list + index] = match kind {
                ADD8 => add(x, y),
                SUB8 => sub(x, y),
                PLUS8 => reduce(u64::from(x) + product(public, constant)),
                TIMES8 | OVER8 => times(x, 2 * constant),
                OUT8 | GIVE8 if pending > 0 => return at(index, Stage::Send(Sort::CommitOpened)),
                OUT8 | GIVE8 => return at(index, Stage::Send(Sort::OpenOutput)),
                _ => return at(index, Stage::Send(Sort::Own)),
            };
        }
    }
    at(step.gates.len - 1, Stage::Finished)
}
