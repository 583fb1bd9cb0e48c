//! Both sides of the boundaries of questions 13 to 20 and 25.

use super::boundary::{len_of, Boundaries, NO_ELEMENTS};
use super::refuse::set_position;
use super::scene::Scene;
use super::{Entry, Request};
use crate::circuit::{self, ADD, GIVE, IN, MUL, OUT, OVER, PLUS, SQ, SUB, TIMES};
use crate::field::P;
use crate::party::{Position, Round, Sort, Stage};

/// One round of a scene, and a party's request in it.
struct At {
    scene: Scene,
    gate: usize,
    round: Round,
    position: Position,
    base: Request,
}

impl At {
    /// The nearest gate of such a kind.
    fn nearest(&self, kinds: &[u32]) -> u32 {
        let gates = self.scene.gates_of(kinds).into_iter();
        let nearest = gates.min_by_key(|gate| gate.abs_diff(self.gate));
        nearest.expect("the scene has every kind") as u32
    }

    /// Two gates that have no round of the sort: one that needs no round, and one that has others.
    fn other_gates(&self) -> [u32; 2] {
        let others: &[u32] = match self.round {
            Round::Input | Round::Multiply | Round::Square => &[OUT, GIVE],
            _ => &[IN, MUL, SQ],
        };
        [&[ADD, SUB, PLUS, TIMES, OVER], others].map(|kinds| self.nearest(kinds))
    }

    /// The out or give gate before which nothing is unchecked.
    fn unneeded(&self) -> u32 {
        let mut outs = self.scene.gates_of(&[OUT, GIVE]).into_iter();
        let found = outs.find(|&out| self.scene.pending(out) == 0);
        found.expect("the scene has such a gate") as u32
    }

    /// The indices of the scratch that question 15 asks, by its four parts.
    fn asked(&self) -> [Vec<usize>; 4] {
        let layout = self.scene.shape.layout();
        let unchecked = self.round.unchecked(self.scene.pending(self.gate));
        let circuit = &self.scene.circuit;
        let wires: Vec<usize> = (0..self.gate)
            .filter(|wire| circuit::has_value(&circuit[4 * wire..]))
            .collect();
        [
            wires.iter().map(|&wire| layout.share(wire)).collect(),
            wires.iter().map(|&wire| layout.mac(wire)).collect(),
            (0..unchecked).map(|entry| layout.opened(entry)).collect(),
            (0..unchecked)
                .map(|entry| layout.opened_mac(entry))
                .collect(),
        ]
    }
}

pub(super) fn coefficients(request: &mut Request) -> &mut Vec<u32> {
    match request {
        Request::Send { coefficients, .. } | Request::Joint { coefficients, .. } => coefficients,
        _ => unreachable!("the entry takes no coefficients"),
    }
}

pub(super) fn heard(request: &mut Request) -> &mut Vec<u32> {
    match request {
        Request::Receive { heard, .. } => heard,
        _ => unreachable!("the entry hears nothing"),
    }
}

/// The nonce of a round, or the nonces of a run.
pub(super) fn nonces(request: &mut Request) -> &mut Vec<u8> {
    match request {
        Request::Send { nonce: nonces, .. } | Request::Joint { nonces, .. } => nonces,
        _ => unreachable!("the entry takes no nonce"),
    }
}

/// The list for the words of a round or of a run.
pub(super) fn words(request: &mut Request) -> &mut Vec<u32> {
    match request {
        Request::Send { out, .. } => out,
        Request::Joint { transcript, .. } => transcript,
        _ => unreachable!("the entry sends nothing"),
    }
}

/// The list of a run's outputs.
pub(super) fn outputs(request: &mut Request) -> &mut Vec<u32> {
    match request {
        Request::Joint { outputs, .. } => outputs,
        _ => unreachable!("the entry has no list of outputs"),
    }
}

impl Boundaries<'_> {
    /// Questions 13 to 20 and 25, as far as the entry asks them.
    pub fn steps(&mut self) {
        match self.entry {
            Entry::Open => {}
            Entry::Joint => {
                let scene = self.scene();
                let base = scene.joint(self.random);
                self.coefficients_of(&base);
                self.nonces_of(&base);
                let len = scene.parties as usize * scene.shape.words();
                self.least_length(18, &base, len, words);
                self.least_length(18, &base, scene.shape.outputs, outputs);
            }
            Entry::Send | Entry::Receive => {
                for round in self.kinds.rounds() {
                    let at = self.at(round);
                    self.positions(&at);
                    self.scratch_of(&at);
                    match self.entry {
                        Entry::Send => self.sending(&at),
                        _ => self.receiving(&at),
                    }
                }
                self.ends();
            }
        }
    }

    /// A request of a party in the last such round of a scene.
    fn at(&mut self, round: Round) -> At {
        // An in gate after the first, so that question 15 has something to ask.
        let scene = self.scene_where(|scene| scene.gates_of(&[IN]).len() > 1);
        let chosen = scene.rounds.iter().rposition(|&(_, here)| here == round);
        let chosen = chosen.expect("the scene has every round");
        let party = scene.any_party(self.random);
        let base = scene.step(self.random, self.entry, party, chosen);
        let (Request::Send { position, .. } | Request::Receive { position, .. }) = base else {
            unreachable!("a step is a request to send or to receive")
        };
        At {
            gate: scene.rounds[chosen].0,
            round,
            position,
            scene,
            base,
        }
    }

    fn half(&self, sort: Sort) -> Stage {
        match self.entry {
            Entry::Send => Stage::Send(sort),
            _ => Stage::Receive(sort),
        }
    }

    fn other_half(&self, sort: Sort) -> Stage {
        match self.entry {
            Entry::Send => Stage::Receive(sort),
            _ => Stage::Send(sort),
        }
    }

    fn position(&mut self, number: u32, base: &Request, inside: Position, outside: &[Position]) {
        self.add(number, base, inside, outside, set_position);
    }

    /// Questions 13 and 14 of the positions next to that of a round.
    fn positions(&mut self, at: &At) {
        let here = at.position;
        let with_held = |held| Position { held, ..here };
        let with_stage = |stage| Position { stage, ..here };

        let holds = match here.stage {
            Stage::Receive(sort) => sort.is_commit(),
            Stage::Send(sort) => sort.is_reveal(),
            _ => false,
        };
        if holds {
            let outside = NO_ELEMENTS.map(with_held);
            self.position(13, &at.base, with_held(P - 1), &outside);
        } else {
            self.position(13, &at.base, here, &[1, P - 1, u32::MAX].map(with_held));
        }

        let past_the_end = at.scene.shape.gates as u32;
        let mut gates = at.other_gates().to_vec();
        gates.extend([past_the_end, u32::MAX]);
        if [Round::CommitOpened, Round::RevealOpened].contains(&at.round) {
            gates.push(at.unneeded());
        }
        let unheld = with_held(0);
        let outside: Vec<Position> = gates
            .into_iter()
            .map(|gate| Position { gate, ..unheld })
            .collect();
        self.position(13, &at.base, unheld, &outside);

        let elsewhere: &[Sort] = match at.round {
            Round::Input => &[Sort::CommitOpened, Sort::OpenOutput],
            Round::Multiply => &[Sort::RevealOpened, Sort::CommitOutput],
            Round::Square => &[Sort::CommitOpened, Sort::RevealOutput],
            _ => &[Sort::Own],
        };
        let elsewhere = elsewhere.iter().map(|&sort| with_stage(self.half(sort)));
        let outside: Vec<Position> = elsewhere.collect();
        self.position(13, &at.base, here, &outside);

        let stage = self.other_half(at.round.sort());
        self.position(14, &at.base, unheld, &[Position { stage, ..unheld }]);
    }

    /// Questions 13 and 14 of an out or give gate with nothing unchecked and of the ends.
    fn ends(&mut self) {
        let at = self.at(Round::OpenOutput);
        let unneeded = Position {
            gate: at.unneeded(),
            ..at.position
        };
        let checks = [Sort::CommitOpened, Sort::RevealOpened];
        let outside = checks.map(|sort| Position {
            stage: self.half(sort),
            ..unneeded
        });
        self.position(13, &at.base, unneeded, &outside);

        let at = self.at(Round::RevealOutput);
        let last = Position {
            held: 0,
            ..at.position
        };
        let [finished, aborted] = [Stage::Finished, Stage::Aborted];
        let outside = [finished, aborted].map(|stage| Position { stage, ..last });
        self.position(14, &at.base, last, &outside);
        let beside = [
            (finished, [last.gate - 1, last.gate + 1]),
            (aborted, [at.nearest(&[IN, MUL, SQ]), last.gate + 1]),
        ];
        for (stage, gates) in beside {
            let end = Position { stage, ..last };
            let outside = gates.map(|gate| Position { gate, ..end });
            self.position(13, &at.base, end, &outside);
            let outside = [1, P - 1, u32::MAX].map(|held| Position { held, ..end });
            self.position(13, &at.base, end, &outside);
        }
    }

    /// Question 15, with numbers that are no elements wherever it does not ask.
    fn scratch_of(&mut self, at: &At) {
        let asked = at.asked();
        let mut base = at.base.clone();
        for (index, number) in base.lists().scratch.iter_mut().enumerate() {
            if !asked.iter().flatten().any(|&asked| asked == index) {
                *number = NO_ELEMENTS[index % 2];
            }
        }
        let parts = asked.iter().filter(|part| !part.is_empty());
        let ends = parts.map(|part| self.random.pick(&[part[0], part[part.len() - 1]]));
        let indices: Vec<usize> = ends.collect();
        self.elements(15, &base, &indices, |request| request.lists().scratch);
    }

    /// Questions 16 to 18 and 25 of a round.
    fn sending(&mut self, at: &At) {
        self.coefficients_of(&at.base);
        self.nonces_of(&at.base);
        self.least_length(18, &at.base, at.round.words(), words);
    }

    /// Questions 16 and 17.
    fn coefficients_of(&mut self, base: &Request) {
        self.exact_length(16, base, coefficients);
        let len = len_of(base, coefficients);
        if len > 0 {
            self.elements(17, base, &[0, len - 1], coefficients);
        }
    }

    /// Question 25: one more, one less, none.
    fn nonces_of(&mut self, base: &Request) {
        let len = nonces(&mut base.clone()).len();
        let mut outside = vec![len + 1];
        outside.extend(len.checked_sub(1));
        if len > 1 {
            outside.push(0);
        }
        self.add(25, base, len, &outside, |request, len| {
            nonces(request).resize(len, 1);
        });
    }

    /// Questions 19 and 20 of a round: of a commitment no word must be an element, of a reveal the check shares.
    fn receiving(&mut self, at: &At) {
        self.exact_length(19, &at.base, heard);
        let asked = (0..len_of(&at.base, heard)).filter(|&index| at.round.has_element(index));
        let asked: Vec<usize> = asked.collect();
        if let [first, .., last] = asked[..] {
            self.elements(20, &at.base, &[first, last], heard);
        }
    }
}

#[cfg(test)]
mod tests {
    use super::super::boundary::boundaries;
    use super::*;
    use crate::random::{Kinds, Random};

    #[test]
    fn only_the_outside_is_refused_by_the_number() {
        let mut random = Random::new(1);
        let each = Kinds::ALL.map(|kinds| Entry::ALL.map(|entry| (kinds, entry)));
        for (kinds, entry) in each.into_iter().flatten() {
            let lines = kinds.rich_lines() + 2;
            let small =
                |random: &mut Random, parties| Scene::rich_of(random, kinds, parties, lines);
            for boundary in boundaries(&mut random, entry, kinds, &small) {
                let refused = |request: &Request| request.answer().refusal().map(|no| no.number);
                let crowded = boundary.clone().crowded(&mut random);
                for boundary in [boundary, crowded] {
                    let number = boundary.number;
                    assert_ne!(
                        refused(&boundary.inside),
                        Some(number),
                        "{:?}",
                        boundary.inside
                    );
                    for outside in boundary.outside {
                        assert_eq!(refused(&outside), Some(number), "{outside:?}");
                    }
                }
            }
        }
    }
}
