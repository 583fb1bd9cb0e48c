//! A run of all parties by single entries, and random circuits to run.

#![allow(dead_code)]

pub mod answers;
pub mod matching;

use reference::circuit::{self, Shape};
use reference::random::{self, Kinds, Random};
use reference::{joint_run, open, prep, receive, send};
use reference::{Ending, JointResult, Party, Position, Received, Refusal, Round, Stage};

/// The lists of a joint run that are only read.
#[derive(Clone)]
pub struct Case {
    pub parties: u32,
    pub circuit: Vec<u32>,
    pub shape: Shape,
    pub preps: Vec<u32>,
    pub inputs: Vec<u32>,
    pub coefficients: Vec<u32>,
    pub nonces: Vec<u8>,
}

/// What a run leaves.
#[derive(Clone, Debug, PartialEq, Eq)]
pub struct Left {
    pub result: Result<JointResult, Refusal>,
    pub scratch: Vec<u32>,
    pub transcript: Vec<u32>,
    pub outputs: Vec<u32>,
}

impl Case {
    /// With gates of every kind.
    pub fn random(random: &mut Random, max_lines: usize, key: u32) -> Case {
        Case::random_of(random, Kinds::Overs, max_lines, key)
    }

    pub fn random_of(random: &mut Random, kinds: Kinds, max_lines: usize, key: u32) -> Case {
        let parties = random.between(2, 8) as u32;
        let lines = random.between(2, max_lines);
        let circuit = random::circuit(random, kinds, parties, lines);
        Case::of(random, parties, circuit, key)
    }

    pub fn of(random: &mut Random, parties: u32, circuit: Vec<u32>, key: u32) -> Case {
        let shape = circuit::shape(parties, &circuit).unwrap();
        Case {
            parties,
            preps: prep::make(random, parties, &circuit, key),
            inputs: (0..shape.inputs).map(|_| random.edge_element()).collect(),
            coefficients: random.elements(shape.coefficients()),
            nonces: random.bytes(shape.nonces()),
            circuit,
            shape,
        }
    }

    pub fn count(&self) -> usize {
        self.parties as usize
    }

    pub fn views(&self) -> Vec<Party<'_>> {
        let mut inputs = &self.inputs[..];
        let preps = self.preps.chunks_exact(self.shape.prep_len());
        let view = |(party, prep)| {
            let (own, others) = inputs.split_at(self.shape.owned[party]);
            inputs = others;
            Party {
                parties: self.parties,
                party: party as u32,
                circuit: &self.circuit,
                prep,
                inputs: own,
            }
        };
        preps.enumerate().map(view).collect()
    }

    /// Lists to be written, with an excess in each, full of numbers that are no elements.
    pub fn blank(&self) -> Left {
        Left {
            result: Err(Refusal {
                number: 0,
                index: 0,
            }),
            scratch: vec![u32::MAX; self.count() * self.shape.scratch_len() + 3],
            transcript: vec![u32::MAX; self.count() * self.shape.words() + 2],
            outputs: vec![u32::MAX; self.shape.outputs + 1],
        }
    }

    pub fn joint(&self) -> Left {
        let mut left = self.blank();
        left.result = joint_run(
            self.parties,
            &self.circuit,
            &self.preps,
            &self.inputs,
            &mut left.scratch,
            &self.coefficients,
            &self.nonces,
            &mut left.transcript,
            &mut left.outputs,
        );
        left
    }

    /// The same run by single entries; `alter` may change the words of a round before they are heard.
    pub fn single(&self, mut alter: impl FnMut(usize, Round, &mut [u32])) -> Left {
        let mut left = self.blank();
        let len = self.shape.scratch_len();
        let views = self.views();
        let mut positions: Vec<Position> = views
            .iter()
            .zip(left.scratch.chunks_exact(len))
            .map(|(view, band)| open(view, band).unwrap())
            .collect();
        let (mut rounds, mut words, mut outputs, mut used) = (0, 0, 0, 0);
        let mut nonces = &self.nonces[..];
        let mut named = None;
        let ending = loop {
            let at = positions[0];
            let round = match at.stage {
                Stage::Send(_) => at.round(&self.circuit).expect("the gate has the round"),
                Stage::Finished => break Ending::Finished,
                Stage::Aborted => {
                    break Ending::Aborted {
                        gate: positions[0].gate,
                        party: named,
                    }
                }
                Stage::Receive(_) => panic!("a receiving half comes after its sending half"),
            };
            let pending = circuit::before(&self.circuit, 0, positions[0].gate as usize).pending;
            let wanted = if round.is_commit() {
                round.unchecked(pending)
            } else {
                0
            };
            let coefficients = &self.coefficients[used..used + wanted];
            used += wanted;
            let mut heard = Vec::new();
            for ((view, band), position) in views
                .iter()
                .zip(left.scratch.chunks_exact_mut(len))
                .zip(&mut positions)
            {
                let (nonce, later) = nonces.split_at(if round.is_commit() { 32 } else { 0 });
                nonces = later;
                let mut out = vec![u32::MAX; round.words() + 1];
                *position = send(view, band, *position, coefficients, nonce, &mut out).unwrap();
                assert_eq!(out.pop(), Some(u32::MAX));
                heard.extend(out);
            }
            alter(rounds, round, &mut heard);
            left.transcript[words..words + heard.len()].copy_from_slice(&heard);
            words += heard.len();
            rounds += 1;
            let mut released = Vec::new();
            for ((view, band), position) in views
                .iter()
                .zip(left.scratch.chunks_exact_mut(len))
                .zip(&mut positions)
            {
                let before = band.to_vec();
                *position = match receive(view, band, *position, &heard).unwrap() {
                    Received::Moved(next) => next,
                    Received::Released {
                        output,
                        position: next,
                    } => {
                        released.push((view.party, output));
                        next
                    }
                    Received::Aborted {
                        position: next,
                        party,
                    } => {
                        assert_eq!(before, band);
                        assert!(view.party == 0 || named == party);
                        named = party;
                        next
                    }
                };
            }
            assert!(positions
                .iter()
                .all(|position| (position.gate, position.stage)
                    == (positions[0].gate, positions[0].stage)));
            if let Some(&(_, output)) = released.first() {
                // At an out gate to all alike, at a give gate to the receiver alone.
                let gate = circuit::gate(&self.circuit, at.gate as usize).unwrap();
                let told =
                    (0..self.parties).filter(|&one| gate.receiver().is_none_or(|it| it == one));
                assert_eq!(
                    released,
                    told.map(|party| (party, output)).collect::<Vec<_>>()
                );
                left.outputs[outputs] = output;
                outputs += 1;
            }
        };
        left.result = Ok(JointResult {
            ending,
            rounds,
            outputs,
            words,
        });
        left
    }
}
