//! Requests that one of the questions 13 to 20 and 25 refuses.

use super::refuse::{set_len, set_position, spoil_elements};
use super::scene::Scene;
use super::{Entry, Request};
use crate::circuit::{ADD, GIVE, IN, MUL, OUT, OVER, PLUS, SQ, SUB, TIMES};
use crate::commitment::REVEALED;
use crate::field::P;
use crate::party::{Position, Round, Sort, Stage};
use crate::random::Random;

use Entry::{Joint, Receive, Send};

/// Question 13: positions that no run of the circuit has.
pub(super) fn impossible_position(
    random: &mut Random,
    scene: &Scene,
    entry: Entry,
    variant: usize,
) -> Position {
    let half = |sort| {
        if entry == Send {
            Stage::Send(sort)
        } else {
            Stage::Receive(sort)
        }
    };
    // The rounds in which this half may hold a check share, and those next to them, which may not.
    let (holding, not_holding) = if entry == Send {
        (
            [Sort::RevealOpened, Sort::RevealOutput],
            [Sort::CommitOpened, Sort::CommitOutput],
        )
    } else {
        (
            [Sort::CommitOpened, Sort::CommitOutput],
            [Sort::RevealOpened, Sort::RevealOutput],
        )
    };
    let last = scene.shape.gates - 1;
    let mut of = |kinds: &[u32]| random.pick(&scene.gates_of(kinds));
    let outs = scene.gates_of(&[OUT, GIVE]);
    let (checked, unneeded): (Vec<usize>, Vec<usize>) =
        outs.iter().partition(|&&out| scene.pending(out) > 0);
    let (gate, stage, held) = match variant {
        0 => (last + 1, half(Sort::OpenOutput), 0),
        1 => (u32::MAX as usize, half(Sort::Own), 0),
        2 => (of(&[MUL, SQ]), half(Sort::CommitOpened), 0),
        3 => (of(&[OUT, GIVE]), half(Sort::Own), 0),
        4 => (of(&[IN]), half(Sort::OpenOutput), 0),
        5 => (
            of(&[ADD, SUB, PLUS, TIMES, OVER]),
            half(random.pick(&Sort::ALL)),
            0,
        ),
        6 => (random.pick(&unneeded), half(Sort::CommitOpened), 0),
        7 => (random.pick(&unneeded), half(Sort::RevealOpened), 0),
        8 => (0, half(Sort::Own), 1),
        9 => (
            random.pick(&checked),
            half(random.pick(&not_holding)),
            random.nonzero(),
        ),
        10 => (random.pick(&checked), half(holding[0]), P),
        11 => (random.pick(&outs), half(holding[1]), u32::MAX),
        12 => (random.below(last), Stage::Finished, 0),
        13 => (
            of(&[IN, ADD, SUB, PLUS, TIMES, OVER, MUL, SQ]),
            Stage::Aborted,
            0,
        ),
        14 => (last, Stage::Finished, 1),
        15 => (of(&[OUT, GIVE]), Stage::Aborted, P - 1),
        _ => (of(&[OUT, GIVE]), half(Sort::OpenOutput), random.nonzero()),
    };
    Position {
        gate: gate as u32,
        stage,
        held,
    }
}

/// Question 14: the other half of a round, or a position that has neither.
pub(super) fn wrong_half(
    random: &mut Random,
    scene: &Scene,
    entry: Entry,
    party: u32,
    variant: usize,
) -> Request {
    let mut request = scene.any(random, entry, party);
    let gate = match variant {
        0 => 0,
        1 => scene.shape.gates - 1,
        _ => random.pick(&scene.gates_of(&[OUT, GIVE])),
    } as u32;
    match (variant, &mut request) {
        (0, Request::Send { position, .. } | Request::Receive { position, .. }) => {
            let (stage, holds) = match position.stage {
                Stage::Send(sort) => (Stage::Receive(sort), sort.is_commit()),
                Stage::Receive(sort) => (Stage::Send(sort), sort.is_reveal()),
                stage => (stage, false),
            };
            let held = if holds { random.element() } else { 0 };
            *position = Position {
                stage,
                held,
                ..*position
            };
        }
        (1, request) => set_position(
            request,
            Position {
                gate,
                stage: Stage::Finished,
                held: 0,
            },
        ),
        (_, request) => set_position(
            request,
            Position {
                gate,
                stage: Stage::Aborted,
                held: 0,
            },
        ),
    }
    request
}

/// Question 15: a number that is asked and is no element, in each of the four parts of the scratch.
pub(super) fn spoiled_scratch(
    random: &mut Random,
    scene: &Scene,
    entry: Entry,
    party: u32,
    part: usize,
) -> Request {
    let unchecked = |gate, round: Round| round.unchecked(scene.pending(gate));
    let chosen = scene.find(random, |gate, round| {
        if part < 2 {
            gate > 0
        } else {
            unchecked(gate, round) > 0
        }
    });
    let mut request = scene.step(random, entry, party, chosen);
    let (gate, round) = scene.rounds[chosen];
    let layout = scene.shape.layout();
    let mut wires = scene.gates_of(&[IN, ADD, SUB, PLUS, TIMES, MUL, SQ]);
    wires.retain(|&wire| wire < gate);
    let index = match part {
        0 => layout.share(random.pick(&wires)),
        1 => layout.mac(random.pick(&wires)),
        2 => layout.opened(random.below(unchecked(gate, round))),
        _ => layout.opened_mac(random.below(unchecked(gate, round))),
    };
    let number = random.pick(&[P, u32::MAX]);
    let scratch = request.lists().scratch;
    let last = layout.len() - 1;
    scratch[last] = u32::MAX;
    scratch[index] = number;
    request
}

/// Questions 16 to 18 and 25: coefficients, outgoing lists and nonces.
pub(super) fn spoiled_sending(
    random: &mut Random,
    scene: &Scene,
    entry: Entry,
    party: u32,
    number: u32,
    variant: usize,
) -> Request {
    let mut request = match entry {
        Joint => scene.joint(random),
        _ => {
            let round = scene.find(random, |_, round| match (number, variant) {
                (16, 2) | (25, 3) => !round.is_commit(),
                (18, 0) => round.words() > 1,
                (18, _) => true,
                _ => round.is_commit(),
            });
            scene.step(random, entry, party, round)
        }
    };
    match &mut request {
        Request::Send { coefficients, .. } | Request::Joint { coefficients, .. }
            if number == 16 =>
        {
            match variant {
                0 => drop(coefficients.pop()),
                1 => coefficients.push(random.element()),
                _ if entry == Joint => coefficients.clear(),
                _ => coefficients.push(1),
            }
        }
        Request::Send { coefficients, .. } | Request::Joint { coefficients, .. }
            if number == 17 =>
        {
            spoil_elements(random, coefficients, [P, u32::MAX][variant]);
        }
        Request::Send { nonce: nonces, .. } | Request::Joint { nonces, .. } if number == 25 => {
            let len = nonces.len();
            nonces.resize([len.saturating_sub(1), len + 1, 0, len + 1][variant], 1);
        }
        Request::Send {
            lent,
            position,
            out,
            ..
        } => {
            let words = position.round(&lent.circuit).map_or(1, Round::words);
            out.truncate((words - 1) * (1 - variant));
        }
        Request::Joint {
            transcript,
            outputs,
            ..
        } if variant == 0 => {
            transcript.truncate(scene.parties as usize * scene.shape.words() - 1);
            outputs.truncate(scene.shape.outputs);
        }
        Request::Joint { outputs, .. } => outputs.truncate(scene.shape.outputs - 1),
        _ => {}
    }
    request
}

/// Questions 19 and 20: the words heard.
pub(super) fn spoiled_hearing(
    random: &mut Random,
    scene: &Scene,
    party: u32,
    number: u32,
    variant: usize,
) -> Request {
    let chosen = scene.find(random, |_, round| match (number, variant) {
        (19, _) => true,
        (20, 0) => round == Round::Input,
        (20, 1) => !round.is_commit() && !round.is_reveal(),
        _ => round.is_reveal(),
    });
    let mut request = scene.step(random, Receive, party, chosen);
    let gate = scene.rounds[chosen].0;
    let Request::Receive { heard, .. } = &mut request else {
        return request;
    };
    let len = heard.len();
    match (number, variant) {
        (19, _) => set_len(random, heard, [len - 1, len + 1, 0][variant]),
        (20, 0) => {
            // A word that the in round ignores is asked all the same.
            let owner = scene.circuit[4 * gate + 1] as usize;
            heard[(owner + 1) % len] = random.pick(&[P, u32::MAX]);
        }
        (20, 1) => spoil_elements(random, heard, P),
        _ => {
            // The check share of one party; the words of nonces are not asked.
            let party = random.below(scene.parties as usize);
            for (index, word) in heard.iter_mut().enumerate() {
                if index % REVEALED != 0 {
                    *word = u32::MAX;
                }
            }
            heard[REVEALED * party] = random.pick(&[P, u32::MAX]);
        }
    }
    request
}
