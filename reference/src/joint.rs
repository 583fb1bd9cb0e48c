//! The joint run: all parties of one circuit, driven by one caller.

use crate::circuit::{self, Gate, Layout, Shape};
use crate::commitment::{self, NONCE_BYTES, REVEALED, WORDS};
use crate::field;
use crate::local::Local;
use crate::refusal::{ask, ask_elements, Refusal};

#[derive(Clone, Copy, Debug, PartialEq, Eq)]
pub enum Ending {
    Finished,
    Aborted {
        gate: u32,
        /// A party whose words do not hash to its mark. A joint run, in which every mark is made of the words that
        /// are revealed, names none.
        party: Option<u32>,
    },
}

#[derive(Clone, Copy, Debug, PartialEq, Eq)]
pub struct JointResult {
    pub ending: Ending,
    /// Rounds made, that of a failing reveal included.
    pub rounds: usize,
    /// Outputs released.
    pub outputs: usize,
    /// Words written into the transcript.
    pub words: usize,
}

/// The lists of all parties during a run.
struct Run<'a> {
    parties: usize,
    layout: Layout,
    prep_len: usize,
    preps: &'a [u32],
    scratch: &'a mut [u32],
    /// The coefficients not yet used.
    coefficients: &'a [u32],
    /// The nonces not yet used.
    nonces: &'a [u8],
    /// The part of the transcript not yet written.
    transcript: &'a mut [u32],
    rounds: usize,
    words: usize,
}

impl<'a> Run<'a> {
    /// Each party's steps, its preprocessing and its band of the scratch. The excess of the scratch
    /// lies after the last band and is reached by none.
    fn each(&mut self) -> impl Iterator<Item = (Local, &'a [u32], &mut [u32])> {
        let layout = self.layout;
        let preps = self.preps.chunks_exact(self.prep_len);
        let bands = self.scratch.chunks_exact_mut(layout.len());
        preps
            .zip(bands)
            .enumerate()
            .map(move |(party, (prep, band))| (Local::new(party, prep, layout), prep, band))
    }

    /// Starts a round: the part of the transcript for its words.
    fn round(&mut self, words: usize) -> &'a mut [u32] {
        let len = self.parties * words;
        let (now, later) = std::mem::take(&mut self.transcript).split_at_mut(len);
        self.transcript = later;
        self.rounds += 1;
        self.words += len;
        now
    }

    fn input(&mut self, gate: usize, record: usize, owner: usize, input: u32) {
        let words = self.round(1);
        words.fill(0);
        let owner_prep = &self.preps[owner * self.prep_len..];
        let e = Local::input_word(&owner_prep[record..], input);
        words[owner] = e;
        for (local, prep, band) in self.each() {
            local.receive_input(band, gate, &prep[record..], e);
        }
    }

    fn multiply(&mut self, wires: (usize, usize, usize), record: usize, pending: usize) {
        let (_, left, right) = wires;
        let words = self.round(2);
        let (mut e, mut d) = (0, 0);
        for (pair, (local, prep, band)) in words.chunks_exact_mut(2).zip(self.each()) {
            pair.copy_from_slice(&local.multiply_words(band, &prep[record..], left, right));
            e = field::add(e, pair[0]);
            d = field::add(d, pair[1]);
        }
        for (local, prep, band) in self.each() {
            local.receive_multiply(band, wires, &prep[record..], pending, (e, d));
        }
    }

    fn square(&mut self, wires: (usize, usize), record: usize, pending: usize) {
        let (_, wire) = wires;
        let words = self.round(1);
        for (word, (local, prep, band)) in words.iter_mut().zip(self.each()) {
            *word = local.square_word(band, &prep[record..], wire);
        }
        let e = field::sum(&*words);
        for (local, prep, band) in self.each() {
            local.receive_square(band, wires, &prep[record..], pending, e);
        }
    }

    fn open_output(&mut self, wire: usize) -> u32 {
        let words = self.round(1);
        for (word, (local, _, band)) in words.iter_mut().zip(self.each()) {
            *word = local.output_word(band, wire);
        }
        let sum = field::sum(&*words);
        for (local, _, band) in self.each() {
            local.receive_output(band, wire, sum);
        }
        sum
    }

    fn open_give(&mut self, wire: usize, record: usize) -> u32 {
        let words = self.round(1);
        for (word, (local, prep, band)) in words.iter_mut().zip(self.each()) {
            *word = local.give_word(band, &prep[record..], wire);
        }
        let sum = field::sum(&*words);
        for (local, prep, band) in self.each() {
            local.receive_give(band, &prep[record..], wire, sum);
        }
        sum
    }

    /// The commit and reveal rounds of a check of the first `entries` opened entries: whether it passes.
    fn check(&mut self, entries: usize) -> bool {
        let (now, later) = self.coefficients.split_at(entries);
        self.coefficients = later;
        let (nonces, later) = self.nonces.split_at(NONCE_BYTES * self.parties);
        self.nonces = later;
        let marks = self.round(WORDS);
        let revealed = self.round(REVEALED);
        let words = marks
            .chunks_exact_mut(WORDS)
            .zip(revealed.as_chunks_mut::<REVEALED>().0);
        let nonces = nonces.chunks_exact(NONCE_BYTES);
        for (((mark, words), nonce), (local, _, band)) in words.zip(nonces).zip(self.each()) {
            local.keep_nonce(band, nonce);
            *words = local.revealed(band, local.check_share(band, now));
            mark.copy_from_slice(&commitment::mark(words));
        }
        for (local, _, band) in self.each() {
            local.receive_marks(band, marks);
        }
        // Each mark was made of the words that are revealed, so that all fit.
        field::sum(revealed.iter().step_by(REVEALED)) == 0
    }

    /// The rounds of an out or a give gate: the released output, or None if a check fails.
    fn output(
        &mut self,
        wire: usize,
        receiver: Option<u32>,
        record: usize,
        pending: usize,
    ) -> Option<u32> {
        if pending > 0 && !self.check(pending) {
            return None;
        }
        let output = match receiver {
            None => self.open_output(wire),
            Some(receiver) => {
                let whole_mask = self.preps[receiver as usize * self.prep_len + record + 2];
                field::add(self.open_give(wire, record), whole_mask)
            }
        };
        self.check(1).then_some(output)
    }

    fn result(&self, ending: Ending, outputs: usize) -> JointResult {
        JointResult {
            ending,
            rounds: self.rounds,
            outputs,
            words: self.words,
        }
    }
}

/// Runs all parties. The lists are joined in party order; the coefficients are in order of use, the nonces in order
/// of checks, parties in order within.
#[allow(clippy::too_many_arguments)]
pub fn joint_run(
    parties: u32,
    circuit: &[u32],
    preps: &[u32],
    inputs: &[u32],
    scratch: &mut [u32],
    coefficients: &[u32],
    nonces: &[u8],
    transcript: &mut [u32],
    outputs: &mut [u32],
) -> Result<JointResult, Refusal> {
    let shape = circuit::shape(parties, circuit)?;
    let count = parties as usize;
    ask(8, preps.len() == count * shape.prep_len())?;
    ask_elements(9, preps)?;
    ask(10, inputs.len() == shape.inputs)?;
    ask_elements(11, inputs)?;
    ask(12, scratch.len() >= count * shape.scratch_len())?;
    ask(16, coefficients.len() == shape.coefficients())?;
    ask_elements(17, coefficients)?;
    ask(25, nonces.len() == shape.nonces())?;
    ask(
        18,
        transcript.len() >= count * shape.words() && outputs.len() >= shape.outputs,
    )?;

    let mut run = Run {
        parties: count,
        layout: shape.layout(),
        prep_len: shape.prep_len(),
        preps,
        scratch,
        coefficients,
        nonces,
        transcript,
        rounds: 0,
        words: 0,
    };
    let mut next_input = first_inputs(&shape);
    let (mut record, mut pending, mut released) = (1, 0, 0);
    for (index, gate) in circuit::gates(circuit).enumerate() {
        match gate {
            Gate::Input { owner } => {
                let owner = owner as usize;
                run.input(index, record, owner, inputs[next_input[owner]]);
                next_input[owner] += 1;
            }
            Gate::Multiply { left, right } => run.multiply((index, left, right), record, pending),
            Gate::Square { wire } => run.square((index, wire), record, pending),
            Gate::Output { wire } | Gate::Give { wire, .. } => {
                let Some(output) = run.output(wire, gate.receiver(), record, pending) else {
                    let ending = Ending::Aborted {
                        gate: index as u32,
                        party: None,
                    };
                    return Ok(run.result(ending, released));
                };
                outputs[released] = output;
                released += 1;
            }
            Gate::Add { .. }
            | Gate::Sub { .. }
            | Gate::Plus { .. }
            | Gate::Times { .. }
            | Gate::Over { .. } => {
                for (local, _, band) in run.each() {
                    local.linear(band, index, gate);
                }
            }
        }
        record += gate.record_len();
        pending = gate.pending_after(pending);
    }
    Ok(run.result(Ending::Finished, released))
}

/// Where each party's inputs start in the joined list.
pub(crate) fn first_inputs(shape: &Shape) -> [usize; circuit::MAX_PARTIES] {
    let mut next = 0;
    shape.owned.map(|owned| {
        let first = next;
        next += owned;
        first
    })
}
