//! Accepted requests: whole runs, the edges of what is accepted, altered words, and aborts.

use super::marks::Reveal;
use super::rotation::Expected;
use super::scene::{alter, Scene};
use super::{Entry, Request, Size};
use crate::circuit::{self, GIVE, IN, MUL, OUT, OVER, PLUS, SQ, TIMES};
use crate::commitment::WORDS;
use crate::field::{self, P};
use crate::party::{Round, Stage};
use crate::random::{self, Kinds, Random};

use Expected::{Aborted, Accepted};

#[derive(Clone, Copy, Debug)]
pub(super) enum Subject {
    /// Every number `P - 1`, wherever an element is asked.
    HighestOpen,
    HighestCommitSent,
    HighestRevealSent,
    HighestReceived,
    HighestCommitReceived,
    HighestJoint,
    EightParties,
    MostGates,
    /// Numbers at or above `P` in the parts of the scratch that question 15 leaves out.
    LaterGates,
    OwnGate,
    OutGates,
    Excess,
    CheckedEntries,
    /// Words heard that are not those sent.
    OwnerWord,
    IgnoredWord,
    MultiplyWord,
    SquareWord,
    OutputWord,
    FirstReveal,
    SecondReveal,
    /// The second reveal of a give gate, at a party that is not its receiver and at the receiver in turns.
    GivenReveal,
    /// A mark in the scratch that is not the one heard.
    WrittenMark,
    /// Check shares that do not sum to zero, under marks that fit.
    NonzeroSum,
    /// Preprocessing that is not good.
    JointFirstCheck,
    JointSecondCheck,
    JointLateAbort,
    /// Good preprocessing, once for each number of parties.
    JointRuns,
}

use Subject::*;

const SUBJECTS: [Subject; 27] = [
    HighestOpen,
    HighestCommitSent,
    HighestRevealSent,
    HighestReceived,
    HighestCommitReceived,
    HighestJoint,
    EightParties,
    MostGates,
    LaterGates,
    OwnGate,
    OutGates,
    Excess,
    CheckedEntries,
    OwnerWord,
    IgnoredWord,
    MultiplyWord,
    SquareWord,
    OutputWord,
    FirstReveal,
    SecondReveal,
    GivenReveal,
    WrittenMark,
    NonzeroSum,
    JointFirstCheck,
    JointSecondCheck,
    JointLateAbort,
    JointRuns,
];

pub(super) fn subjects(kinds: Kinds) -> impl Iterator<Item = Subject> {
    let has = move |subject: &Subject| match subject {
        SquareWord => kinds.has(SQ),
        GivenReveal => kinds.has(GIVE),
        _ => true,
    };
    SUBJECTS.into_iter().filter(has)
}

/// A run of one party by single entries, from opening to the finished position. The first turn's
/// circuit is the shortest that has every stage.
pub(super) fn whole_run(random: &mut Random, turn: usize, size: Size) -> Vec<(Request, Expected)> {
    let parties = random.between(2, size.max_parties as usize) as u32;
    let circuit = if turn == 0 {
        let last = if size.kinds.has(GIVE) { GIVE } else { OUT };
        let kinds = [IN, OVER, MUL, SQ, OUT, last].into_iter();
        let kinds: Vec<u32> = kinds.filter(|&kind| size.kinds.has(kind)).collect();
        random::from_kinds(random, parties, &kinds)
    } else {
        let lines = random.between(2, size.max_lines.min(14));
        random::circuit(random, size.kinds, parties, lines)
    };
    let key = random.element();
    let scene = Scene::new(random, parties, circuit, key);
    let party = scene.any_party(random);
    scene
        .whole(random, Some(party))
        .into_iter()
        .map(|request| (request, Accepted))
        .collect()
}

pub(super) fn accepted(
    random: &mut Random,
    turn: usize,
    size: Size,
    subject: Subject,
) -> Vec<(Request, Expected)> {
    let one = |request| vec![(request, Accepted)];
    match subject {
        HighestOpen
        | HighestCommitSent
        | HighestRevealSent
        | HighestReceived
        | HighestCommitReceived
        | HighestJoint => vec![highest(random, size, subject)],
        EightParties => {
            let circuit = random::rich_circuit(random, size.kinds, 8, size.kinds.rich_lines());
            let key = random.element();
            let scene = Scene::new(random, 8, circuit, key);
            let entry = [Entry::Receive, Entry::Joint, Entry::Open, Entry::Send][turn % 4];
            let party = scene.any_party(random);
            one(scene.any(random, entry, party))
        }
        MostGates => {
            let circuit = random::circuit(random, size.kinds, 2, circuit::MAX_GATES);
            let key = random.element();
            let scene = Scene::new(random, 2, circuit, key);
            let entry = [Entry::Open, Entry::Joint][turn % 2];
            let party = scene.any_party(random);
            one(scene.any(random, entry, party))
        }
        LaterGates | OwnGate | OutGates | Excess | CheckedEntries => {
            let entry = [Entry::Send, Entry::Receive][(turn + subject as usize) % 2];
            one(not_asked(random, size, entry, subject))
        }
        OwnerWord | IgnoredWord | MultiplyWord | SquareWord | OutputWord => {
            one(altered_word(random, size, subject))
        }
        FirstReveal | SecondReveal => vec![(altered_word(random, size, subject), Aborted)],
        GivenReveal => one(given_reveal(random, size, turn)),
        WrittenMark | NonzeroSum => vec![(failing_reveal(random, size, subject), Aborted)],
        JointFirstCheck | JointSecondCheck | JointLateAbort => {
            vec![(bad_prep(random, size, subject), Aborted)]
        }
        JointRuns => (2..=size.max_parties)
            .map(|parties| joint_run(random, size, parties, turn))
            .collect(),
    }
}

/// A joint run with good preprocessing; every other number of parties has key 0.
fn joint_run(random: &mut Random, size: Size, parties: u32, turn: usize) -> (Request, Expected) {
    let bound = if random.once_in(6) {
        size.max_lines
    } else {
        size.max_lines.min(24)
    };
    let lines = random.between(2, bound);
    let circuit = random::circuit(random, size.kinds, parties, lines);
    let key = if (parties as usize + turn).is_multiple_of(2) {
        0
    } else {
        random.nonzero()
    };
    let scene = Scene::new(random, parties, circuit, key);
    (scene.joint(random), Accepted)
}

/// Every number as high as an element can be.
fn highest(random: &mut Random, size: Size, subject: Subject) -> (Request, Expected) {
    let mut scene = Scene::rich(random, size);
    for line in scene
        .circuit
        .chunks_exact_mut(4)
        .filter(|line| [PLUS, TIMES, OVER].contains(&line[0]))
    {
        line[3] = P - 1;
    }
    let party = scene.any_party(random);
    let mut at = |entry, wanted: &[Round]| {
        let round = scene.find(random, |_, round| wanted.contains(&round));
        scene.step(random, entry, party, round)
    };
    let commits = [Round::CommitOpened, Round::CommitOutput];
    let mut request = match subject {
        HighestOpen => scene.open(random, party),
        HighestCommitSent => at(Entry::Send, &commits),
        HighestRevealSent => at(Entry::Send, &[Round::RevealOpened, Round::RevealOutput]),
        HighestReceived => at(
            Entry::Receive,
            &[
                Round::Input,
                Round::Multiply,
                Round::Square,
                Round::OpenOutput,
            ],
        ),
        HighestCommitReceived => at(Entry::Receive, &commits),
        _ => scene.joint(random),
    };
    match &mut request {
        Request::Open { lent } | Request::Send { lent, .. } | Request::Receive { lent, .. } => {
            for list in [&mut lent.prep, &mut lent.inputs, &mut lent.scratch] {
                list.fill(P - 1);
            }
        }
        Request::Joint {
            inputs,
            scratch,
            coefficients,
            nonces,
            ..
        } => {
            for list in [inputs, scratch, coefficients] {
                list.fill(P - 1);
            }
            nonces.fill(255);
        }
    }
    match (subject, &mut request) {
        (
            _,
            Request::Send {
                position,
                coefficients,
                nonce,
                ..
            },
        ) => {
            coefficients.fill(P - 1);
            nonce.fill(255);
            if matches!(subject, HighestRevealSent) {
                position.held = P - 1;
            }
        }
        (
            HighestCommitReceived,
            Request::Receive {
                position, heard, ..
            },
        ) => {
            position.held = P - 1;
            heard.fill(u32::MAX);
        }
        (_, Request::Receive { heard, .. }) => heard.fill(P - 1),
        (_, Request::Joint { preps, .. }) => {
            // The whole mask of gate 0 where it is not read: the preprocessing stays good.
            let party = (scene.circuit[1] + 1) % scene.parties;
            preps[party as usize * scene.shape.prep_len() + 3] = P - 1;
        }
        _ => {}
    }
    (request, Accepted)
}

/// A request whose scratch has numbers at or above `P` where question 15 does not ask.
fn not_asked(random: &mut Random, size: Size, entry: Entry, subject: Subject) -> Request {
    let scene = Scene::rich(random, size);
    let outs = scene.gates_of(&[OUT, GIVE]);
    let first_out = outs[0];
    let chosen = scene.find(random, |gate, round| match subject {
        // After a check has passed, its entries remain as numbers that are not asked any more.
        CheckedEntries => gate > first_out || (gate == first_out && round == Round::OpenOutput),
        OutGates => gate > first_out,
        OwnGate => gate != 0,
        _ => true,
    });
    let (gate, round) = scene.rounds[chosen];
    let party = scene.any_party(random);
    let mut request = scene.step(random, entry, party, chosen);
    let (Request::Send { lent, .. } | Request::Receive { lent, .. }) = &mut request else {
        return request;
    };
    let layout = scene.shape.layout();
    let gates: Vec<usize> = match subject {
        LaterGates => (gate + 1..scene.shape.gates).collect(),
        OwnGate => vec![gate],
        OutGates => outs.into_iter().filter(|&out| out < gate).collect(),
        _ => Vec::new(),
    };
    for gate in gates {
        lent.scratch[layout.share(gate)] = u32::MAX;
        lent.scratch[layout.mac(gate)] = P;
    }
    match subject {
        Excess => lent.scratch.extend([P, u32::MAX]),
        CheckedEntries => {
            for entry in round.unchecked(scene.pending(gate))..layout.entries() {
                lent.scratch[layout.opened(entry)] = P;
                lent.scratch[layout.opened_mac(entry)] = u32::MAX;
            }
        }
        _ => {}
    }
    request
}

/// A receiving half that hears another word than was sent.
fn altered_word(random: &mut Random, size: Size, subject: Subject) -> Request {
    let scene = Scene::rich(random, size);
    let wanted = match subject {
        OwnerWord | IgnoredWord => Round::Input,
        MultiplyWord => Round::Multiply,
        SquareWord => Round::Square,
        OutputWord => Round::OpenOutput,
        FirstReveal => Round::RevealOpened,
        _ => Round::RevealOutput,
    };
    let chosen = scene.find(random, |_, round| round == wanted);
    let party = scene.any_party(random);
    let mut request = scene.step(random, Entry::Receive, party, chosen);
    let owner = scene.circuit[4 * scene.rounds[chosen].0 + 1] as usize;
    if let Request::Receive {
        heard, position, ..
    } = &mut request
    {
        debug_assert_eq!(position.stage, Stage::Receive(wanted.sort()));
        let len = heard.len();
        let index = match subject {
            OwnerWord => owner,
            IgnoredWord => (owner + 1) % len,
            _ => random.below(len),
        };
        alter(wanted, heard, index, random.nonzero());
    }
    request
}

/// The second reveal of a give gate.
fn given_reveal(random: &mut Random, size: Size, turn: usize) -> Request {
    let scene = Scene::rich(random, size);
    let is_give = |gate: usize| scene.circuit[4 * gate] == GIVE;
    let chosen = scene.find(random, |gate, round| {
        is_give(gate) && round == Round::RevealOutput
    });
    let receiver = scene.circuit[4 * scene.rounds[chosen].0 + 2];
    let other = (receiver + 1) % scene.parties;
    let party = if turn.is_multiple_of(2) {
        other
    } else {
        receiver
    };
    scene.step(random, Entry::Receive, party, chosen)
}

/// A reveal that fails although its words are heard as they were sent, or although the marks fit them.
fn failing_reveal(random: &mut Random, size: Size, subject: Subject) -> Request {
    let scene = Scene::rich(random, size);
    let chosen = scene.find(random, |_, round| round.is_reveal());
    let party = scene.any_party(random);
    let mut reveal = Reveal::new(random, &scene, party, chosen);
    let altered = random.below(scene.parties as usize);
    let by = random.nonzero();
    match subject {
        WrittenMark => reveal.alter_mark(altered, random.below(WORDS), by),
        _ => {
            reveal.alter_word(altered, 0, by);
            reveal.fit();
        }
    }
    reveal.request
}

/// A joint run with one MAC share altered, so that a check fails unless its coefficient is 0.
fn bad_prep(random: &mut Random, size: Size, subject: Subject) -> Request {
    let mut scene = if matches!(subject, JointSecondCheck) {
        // The out gate's wire is an input that no product uses, so only the second check sees it.
        let parties = random.between(2, size.max_parties as usize) as u32;
        let inputs = random.between(1, 4);
        let mut kinds = vec![IN; inputs];
        kinds.push(OUT);
        let circuit = random::from_kinds(random, parties, &kinds);
        let key = random.element();
        Scene::new(random, parties, circuit, key)
    } else {
        Scene::rich(random, size)
    };
    let products = scene.gates_of(&[MUL, SQ]);
    let gate = match subject {
        JointFirstCheck => products[0],
        JointSecondCheck => scene.circuit[4 * (scene.shape.gates - 1) + 1] as usize,
        // A rich circuit has two out gates before its last product or square; both are passed.
        _ => products[products.len() - 1],
    };
    let party = scene.any_party(random) as usize;
    let mac = circuit::before(&scene.circuit, 0, gate).record + 1;
    let altered = &mut scene.preps[party * scene.shape.prep_len() + mac];
    *altered = field::add(*altered, random.nonzero());
    scene.joint(random)
}
