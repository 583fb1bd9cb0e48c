//! Whole runs, by single entries and joint: with good preprocessing, with bad, and with a word that is
//! heard otherwise than it was sent.

use super::scene::{Scene, Tamper};
use super::Request;
use crate::circuit::{self, GIVE, IN, MUL, SQ};
use crate::field;
use crate::party::Round;
use crate::random::{self, Kinds, Random};
use crate::refusal::Refusal;

/// What is wrong with preprocessing.
#[derive(Clone, Copy, Debug)]
pub(super) enum Wrong {
    KeyShare,
    /// A number of an in gate's record: share, MAC share.
    Mask(usize),
    /// The whole mask that the owner reads. No check sees it.
    WholeMask,
    /// A number of a mul gate's record: a, MAC of a, b, MAC of b, c, MAC of c.
    Triple(usize),
    /// c is not a times b, but its MAC is right. No check sees it.
    Product,
    /// A number of an sq gate's record: a, MAC of a, c, MAC of c.
    Pair(usize),
    /// c is not a times a, but its MAC is right. No check sees it.
    Square,
    /// A number of a give gate's record: share, MAC share.
    Given(usize),
    /// The whole mask that the receiver reads. No check sees it.
    GivenMask,
    /// What another party has in the place of that whole mask. It is never read, and the preprocessing stays good.
    OtherMask,
}

pub(super) const TRIPLE_WRONGS: [Wrong; 11] = [
    Wrong::KeyShare,
    Wrong::Mask(0),
    Wrong::Mask(1),
    Wrong::WholeMask,
    Wrong::Triple(0),
    Wrong::Triple(1),
    Wrong::Triple(2),
    Wrong::Triple(3),
    Wrong::Triple(4),
    Wrong::Triple(5),
    Wrong::Product,
];

pub(super) const PAIR_WRONGS: [Wrong; 5] = [
    Wrong::Pair(0),
    Wrong::Pair(1),
    Wrong::Pair(2),
    Wrong::Pair(3),
    Wrong::Square,
];

pub(super) const GIVE_WRONGS: [Wrong; 4] = [
    Wrong::Given(0),
    Wrong::Given(1),
    Wrong::GivenMask,
    Wrong::OtherMask,
];

/// Spoils the preprocessing at the last gate of the kind that can be spoilt so.
pub(super) fn spoil(random: &mut Random, scene: &mut Scene, wrong: Wrong) {
    let len = scene.shape.prep_len();
    let by = random.nonzero();
    let record = |kind| {
        let gate = scene.gates_of(&[kind]).pop().expect("there is such a gate");
        let owner = scene.circuit[4 * gate + 1];
        (circuit::before(&scene.circuit, 0, gate).record, owner)
    };
    let party = scene.any_party(random);
    let alterations = match wrong {
        Wrong::KeyShare => vec![(party, 0, by)],
        Wrong::Mask(number) => vec![(party, record(IN).0 + number, by)],
        Wrong::WholeMask => {
            let (record, owner) = record(IN);
            vec![(owner, record + 2, by)]
        }
        Wrong::Triple(number) => vec![(party, record(MUL).0 + number, by)],
        Wrong::Pair(number) => vec![(party, record(SQ).0 + number, by)],
        Wrong::Given(number) => vec![(party, record(GIVE).0 + number, by)],
        Wrong::GivenMask | Wrong::OtherMask => {
            let gate = scene.gates_of(&[GIVE]).pop().expect("there is a give gate");
            let other = u32::from(matches!(wrong, Wrong::OtherMask));
            let knower = (scene.circuit[4 * gate + 2] + other) % scene.parties;
            vec![(knower, record(GIVE).0 + 2, by)]
        }
        Wrong::Product | Wrong::Square => {
            let key = field::sum(scene.preps.iter().step_by(len));
            let c = match wrong {
                Wrong::Product => record(MUL).0 + 4,
                _ => record(SQ).0 + 2,
            };
            vec![(party, c, by), (party, c + 1, field::mul(key, by))]
        }
    };
    for (party, index, by) in alterations {
        let number = &mut scene.preps[party as usize * len + index];
        *number = field::add(*number, by);
    }
}

/// A scene for so many parties under a key.
pub(super) type SceneOf = fn(&mut Random, u32, u32) -> Scene;

/// Two products with an output after each; the second product is of the first.
pub(super) fn two_products(random: &mut Random, parties: u32, key: u32) -> Scene {
    #[rustfmt::skip]
    let circuit = vec![
        1, 0, 0, 0,
        1, parties - 1, 0, 0,
        6, 0, 1, 0,
        7, 2, 0, 0,
        4, 2, 0, random.element(),
        6, 4, 0, 0,
        7, 5, 0, 0,
    ];
    Scene::new(random, parties, circuit, key)
}

/// A product with an output after it.
pub(super) fn one_product(random: &mut Random, parties: u32, key: u32) -> Scene {
    #[rustfmt::skip]
    let circuit = vec![
        1, parties - 1, 0, 0,
        6, 0, 0, 0,
        7, 1, 0, 0,
    ];
    Scene::new(random, parties, circuit, key)
}

/// Runs with each kind of bad preprocessing: joint under a key of 0 and another one, and one party by single entries.
pub(super) fn bad_preps(random: &mut Random, wrongs: &[Wrong], scene_of: SceneOf) -> Vec<Request> {
    let mut requests = Vec::new();
    for &wrong in wrongs {
        for key in [0, random.nonzero()] {
            let parties = random.between(2, 4) as u32;
            let mut scene = scene_of(random, parties, key);
            spoil(random, &mut scene, wrong);
            requests.push(scene.joint(random));
            if key != 0 {
                let party = scene.any_party(random);
                requests.extend(scene.whole_and_after(random, Some(party), None));
            }
        }
    }
    requests
}

/// Runs of a few parties that hear one word otherwise than it was sent, in each of the rounds.
pub(super) fn tampered(
    random: &mut Random,
    rounds: impl Iterator<Item = Round>,
    most: usize,
    scene_of: SceneOf,
) -> Vec<Request> {
    let mut requests = Vec::new();
    for round in rounds {
        let parties = random.between(2, most) as u32;
        let key = random.nonzero();
        let scene = scene_of(random, parties, key);
        let chosen = scene.find(random, |_, here| here == round);
        let words = round.words() * parties as usize;
        // In an in round only the owner's word counts; both it and another's are tampered with.
        let owner = scene.circuit[4 * scene.rounds[chosen].0 + 1] as usize;
        let altered = match round {
            Round::Input => vec![owner, (owner + 1) % words],
            _ => vec![random.below(words)],
        };
        for word in altered {
            let tamper = Tamper {
                round: chosen,
                word,
                by: random.nonzero(),
            };
            requests.extend(scene.whole_and_after(random, None, Some(tamper)));
        }
    }
    requests
}

/// For each number of parties a run by single entries, of all of them or of one among many, and joint runs of circuits
/// of any length up to `max_lines`.
pub(super) fn good(random: &mut Random, kinds: Kinds, max_lines: usize) -> Vec<Request> {
    let mut requests = Vec::new();
    for parties in 2..=8 {
        let lines = random.between(4, 6);
        let circuit = random::circuit(random, kinds, parties, lines);
        let key = random.element();
        let scene = Scene::new(random, parties, circuit, key);
        requests.push(scene.joint(random));
        let party = (parties > 4).then(|| scene.any_party(random));
        requests.extend(scene.whole_and_after(random, party, None));
        for key in [0, random.nonzero(), random.nonzero()] {
            let lines = random.between(2, max_lines);
            let circuit = random::circuit(random, kinds, parties, lines);
            requests.push(Scene::new(random, parties, circuit, key).joint(random));
        }
    }
    requests
}

/// A worked run of two parties: joint, by single entries at both, and with party 1's word of the output's
/// opening heard as one more than it is.
pub(super) fn worked(random: &mut Random, run: Result<Request, Refusal>) -> Vec<Request> {
    let scene = Scene::of(run.expect("an accepted circuit"));
    let shown = scene.find(random, |_, round| round == Round::OpenOutput);
    let tamper = Tamper {
        round: shown,
        word: 1,
        by: 1,
    };
    let mut requests = vec![scene.joint(random)];
    requests.extend(scene.whole_and_after(random, None, None));
    requests.extend(scene.whole_and_after(random, None, Some(tamper)));
    requests
}
