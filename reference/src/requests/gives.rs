//! Requests about gives: a set that is kept, and a larger one.

use super::boundary::{boundaries, len_of, Boundaries, Boundary, ListOf};
use super::boundary_steps::{coefficients, nonces, outputs, words};
use super::runs::{self, Wrong, GIVE_WRONGS};
use super::scene::{Scene, Tamper};
use super::sets::{filled, filled_to, longest_run};
use super::{rotation, Entry, Request, Size};
use crate::circuit::{self, GIVE, IN, MAX_GATES, MUL, OUT, SQ};
use crate::give;
use crate::party::Round;
use crate::random::{self, Kinds, Random};

const KINDS: Kinds = Kinds::Gives;

/// A product given to the last party, which has a first check; then its square to party 0.
fn after_products(parties: u32) -> Vec<u32> {
    #[rustfmt::skip]
    let circuit = vec![
        1, 0, 0, 0,
        6, 0, 0, 0,
        9, 1, parties - 1, 0,
        8, 1, 0, 0,
        9, 3, 0, 0,
    ];
    circuit
}

/// Outs and gives in turns, with and without a first check, to party 0, to party 1 and to the last one.
fn in_turns(parties: u32) -> Vec<u32> {
    #[rustfmt::skip]
    let circuit = vec![
        1, 0, 0, 0,
        1, parties - 1, 0, 0,
        7, 0, 0, 0,
        9, 0, parties - 1, 0,
        6, 0, 1, 0,
        9, 4, 0, 0,
        9, 4, 1, 0,
        2, 4, 0, 0,
        7, 7, 0, 0,
        8, 7, 0, 0,
        7, 9, 0, 0,
        9, 9, 1, 0,
    ];
    circuit
}

/// Circuits with gives, the first ones short.
fn circuits(parties: u32) -> Vec<Vec<u32>> {
    let last = parties - 1;
    #[rustfmt::skip]
    let others = [
        // To party 0, which is not the owner; to the last one; back to the owner.
        vec![
            1, 1, 0, 0,
            9, 0, 0, 0,
        ],
        vec![
            1, 0, 0, 0,
            9, 0, last, 0,
        ],
        vec![
            1, last, 0, 0,
            9, 0, last, 0,
        ],
        // Gives of linear gates of every kind, and a last out.
        vec![
            1, 0, 0, 0,
            4, 0, 0, 2147483646,
            9, 1, 1, 0,
            5, 1, 0, 2147483646,
            9, 3, 0, 0,
            3, 3, 0, 0,
            9, 5, last, 0,
            2, 5, 3, 0,
            9, 7, last, 0,
            7, 0, 0, 0,
        ],
        // The same wire twice to one party, and to another.
        vec![
            1, last, 0, 0,
            8, 0, 0, 0,
            9, 1, 1, 0,
            9, 1, 1, 0,
            9, 1, 0, 0,
        ],
        // A product after a give, which is never shown.
        vec![
            1, 0, 0, 0,
            9, 0, last, 0,
            6, 0, 0, 0,
            9, 0, 0, 0,
        ],
    ];
    let mut circuits = others.to_vec();
    circuits.extend([after_products(parties), in_turns(parties)]);
    circuits
}

fn scene_of(random: &mut Random, circuit: Vec<u32>, parties: u32) -> Scene {
    let key = random.nonzero();
    Scene::new(random, parties, circuit, key)
}

fn products_given(random: &mut Random, parties: u32, key: u32) -> Scene {
    Scene::new(random, parties, after_products(parties), key)
}

/// A rich scene that ends with a give, so that the last rounds of its checks are those of a give. Of two parties where
/// the number may be smaller, and mostly of zeros.
fn rich(random: &mut Random, parties: u32) -> Scene {
    let parties = if parties == 8 { 8 } else { 2 };
    loop {
        let lines = KINDS.rich_lines() + 1;
        let circuit = random::rich_circuit(random, KINDS, parties, lines);
        if circuit[circuit.len() - 4] == GIVE {
            let mut scene = scene_of(random, circuit, parties);
            scene.zeros = !random.once_in(6);
            return scene.shortened();
        }
    }
}

pub(super) fn kept(random: &mut Random) -> Vec<Request> {
    let mut requests = runs::worked(random, give::request());
    for (number, parties) in (0..8).zip((2..=8).cycle()) {
        let circuit = circuits(parties).swap_remove(number);
        for key in [random.nonzero(), 0].into_iter().take(1 + number % 2) {
            let scene = Scene::new(random, parties, circuit.clone(), key);
            requests.push(scene.joint(random));
        }
    }
    requests.push(scene_of(random, in_turns(4), 4).joint(random));
    // Single entries: all parties, of which one receives; then one that is the receiver of some gives and not of others.
    let scene = scene_of(random, vec![1, 0, 0, 0, 8, 0, 0, 0, 9, 1, 2, 0], 3);
    requests.extend(scene.whole_and_after(random, None, None));
    let scene = scene_of(random, in_turns(2), 2);
    requests.extend(scene.whole_and_after(random, Some(1), None));

    for entry in Entry::ALL {
        let all = boundaries(random, entry, KINDS, &rich);
        let chosen = chosen(all).into_iter().chain(of_gives(random, entry));
        requests.extend(chosen.flat_map(Boundary::requests));
    }

    for wrong in GIVE_WRONGS {
        for key in [0, random.nonzero()] {
            let parties = random.between(2, 4) as u32;
            let mut scene = products_given(random, parties, key);
            runs::spoil(random, &mut scene, wrong);
            requests.push(scene.joint(random));
        }
    }
    for wrong in [Wrong::Given(1), Wrong::GivenMask, Wrong::OtherMask] {
        let mut scene = scene_of(random, vec![1, 0, 0, 0, 9, 0, 1, 0], 2);
        runs::spoil(random, &mut scene, wrong);
        requests.extend(scene.whole_and_after(random, None, None));
    }
    requests.extend(at_a_give(random, 2));
    requests
}

/// Runs of all parties that hear one word otherwise than it was sent, in each round of a give and in a product before it.
fn at_a_give(random: &mut Random, most: usize) -> Vec<Request> {
    let mut requests = Vec::new();
    for round in [
        Round::Multiply,
        Round::CommitOpened,
        Round::RevealOpened,
        Round::OpenOutput,
        Round::CommitOutput,
        Round::RevealOutput,
    ] {
        let parties = random.between(2, most) as u32;
        // The rounds of the second check need no product before the give.
        let second = [Round::OpenOutput, Round::CommitOutput, Round::RevealOutput];
        let circuit = match second.contains(&round) {
            true => vec![1, 1, 0, 0, 9, 0, 0, 0],
            false => vec![1, 0, 0, 0, 6, 0, 0, 0, 9, 1, parties - 1, 0],
        };
        let scene = scene_of(random, circuit, parties);
        let chosen = scene.find(random, |_, here| here == round);
        let tamper = Tamper {
            round: chosen,
            word: random.below(round.words() * parties as usize),
            by: random.nonzero(),
        };
        requests.extend(scene.whole_and_after(random, None, Some(tamper)));
    }
    requests
}

/// The first boundary of each number, and those at a give.
fn chosen(all: Vec<Boundary>) -> Vec<Boundary> {
    let mut numbers = Vec::new();
    let mut chosen = |boundary: &Boundary| {
        let first = !numbers.contains(&boundary.number);
        numbers.push(boundary.number);
        first || is_about_gives(boundary)
    };
    all.into_iter()
        .filter(|boundary| chosen(boundary))
        .collect()
}

fn is_about_gives(boundary: &Boundary) -> bool {
    match (boundary.number, &boundary.inside) {
        (4..=6, inside) => {
            let circuit = inside.clone().lists().circuit.clone();
            let refusals = boundary.outside.iter().map(|one| one.answer().refusal());
            refusals
                .flatten()
                .any(|refusal| circuit[4 * refusal.index] == GIVE)
        }
        (
            number,
            Request::Send { lent, position, .. } | Request::Receive { lent, position, .. },
        ) => {
            let at_a_give = lent.circuit.get(4 * position.gate as usize) == Some(&GIVE);
            let round = position.round(&lent.circuit);
            let opening = [Some(Round::OpenOutput), Some(Round::CommitOutput)].contains(&round);
            at_a_give
                && match number {
                    14 => true,
                    // Those of its slots and its entry are made apart.
                    13 | 16.. => opening,
                    _ => false,
                }
        }
        _ => false,
    }
}

/// Boundaries that only gives have: a whole mask at the receiver and elsewhere, lengths as they would be if a give took nothing, or
/// were checked and listed nowhere, and numbers in a give's slots and in its opened entry.
fn of_gives(random: &mut Random, entry: Entry) -> Vec<Boundary> {
    let mut all = Boundaries::new(random, entry, KINDS, &rich);
    let prep: ListOf = |request| request.lists().prep;
    let scratch: ListOf = |request| request.lists().scratch;
    let put = |list: ListOf| move |request: &mut Request, len| list(request).resize(len, 1);

    let scene = all.scene();
    let bands = match entry {
        Entry::Joint => scene.parties as usize,
        _ => 1,
    };
    let gives = scene.shape.gives;
    let party = scene.any_party(all.random);
    let base = scene.any(all.random, entry, party);
    let len = len_of(&base, prep);
    let lens = [
        len - 3 * bands * gives,
        len - bands * gives,
        len + bands * gives,
    ];
    all.add(8, &base, len, &lens, put(prep));

    // The last give's whole mask, of the receiver and of another party.
    let last = scene.shape.gates - 1;
    let receiver = scene.circuit[4 * last + 2];
    let record = circuit::before(&scene.circuit, 0, last).record;
    for party in [receiver, (receiver + 1) % scene.parties] {
        let base = scene.any(all.random, entry, party);
        let first = match entry {
            Entry::Joint => party as usize * scene.shape.prep_len(),
            _ => 0,
        };
        all.elements(9, &base, &[first + record + 2], prep);
    }

    match entry {
        Entry::Open => {}
        Entry::Joint => {
            let len = len_of(&base, coefficients);
            all.add(16, &base, len, &[len - gives], put(coefficients));
            let len = len_of(&base, words);
            let lens = [len - bands * gives, len - 18 * bands * gives];
            all.add(18, &base, len, &lens, put(words));
            let len = len_of(&base, outputs);
            all.add(18, &base, len, &[len - 1, len - gives, 0], put(outputs));
            let len = scene.shape.nonces();
            let lens = [len - 32 * bands, len - 32 * bands * gives];
            all.add(25, &base, len, &lens, |request, len| {
                nonces(request).resize(len, 1);
            });
        }
        Entry::Send | Entry::Receive => {
            let mut scene = Scene::new(all.random, 2, in_turns(2), 7);
            scene.zeros = true;
            let layout = scene.shape.layout();
            let of = |gate: usize, wanted: Round| {
                let found = scene.rounds.iter().position(|&one| one == (gate, wanted));
                found.expect("the scene has the round")
            };
            // The opening of a give that stands after others: of their slots and the checked entries nothing is asked.
            let mut base = scene.step(all.random, entry, 1, of(6, Round::OpenOutput));
            let unasked = [2, 3, 5, 6]
                .into_iter()
                .flat_map(|gate| [layout.share(gate), layout.mac(gate)]);
            for place in unasked.chain([layout.opened(0), layout.opened_mac(1)]) {
                scratch(&mut base)[place] = u32::MAX;
            }
            let places = [layout.share(4), layout.mac(4)];
            all.elements(15, &base, &places, scratch);
            // Its check: one entry, whatever was opened before.
            let mut base = scene.step(all.random, entry, 0, of(6, Round::CommitOutput));
            for place in [layout.opened(1), layout.opened_mac(2), layout.share(5)] {
                scratch(&mut base)[place] = u32::MAX;
            }
            let places = [layout.opened(0), layout.opened_mac(0)];
            all.elements(15, &base, &places, scratch);
            if entry == Entry::Send {
                all.add(16, &base, 1, &[0, 2, 3], put(coefficients));
                // The first check after gives: what was opened since the last of them.
                let base = scene.step(all.random, entry, 1, of(10, Round::CommitOpened));
                all.add(16, &base, 1, &[0, 2, 3], put(coefficients));
            }
        }
    }
    all.made()
}

/// Turns of the rotation in the large set.
const TURNS: usize = 4;

pub(super) fn large(random: &mut Random) -> Vec<Request> {
    let mut requests = Vec::new();
    let any = |random: &mut Random, parties| {
        if random.once_in(2) {
            return rich(random, parties);
        }
        let lines = random.between(KINDS.rich_lines(), KINDS.rich_lines() + 4);
        Scene::rich_of(random, KINDS, parties, lines)
    };
    for entry in Entry::ALL {
        let all = boundaries(random, entry, KINDS, &any);
        let all = all.into_iter().chain(of_gives(random, entry));
        requests.extend(all.flat_map(Boundary::requests));
    }
    requests.extend(runs::good(random, KINDS, 60));
    requests.extend(runs::bad_preps(random, &GIVE_WRONGS, products_given));
    requests.extend(runs::tampered(random, KINDS.rounds(), 3, products_given));
    for _ in 0..3 {
        requests.extend(at_a_give(random, 4));
    }
    let size = Size {
        kinds: KINDS,
        max_lines: 60,
        max_parties: 8,
    };
    for turn in 0..TURNS {
        requests.extend(rotation::requests(random, turn, size));
    }

    // The longest lists that gives make, and the longest runs.
    for kinds in [
        filled_to(GIVE, GIVE),
        filled(GIVE),
        longest_run(MUL, GIVE),
        longest_run(SQ, GIVE),
        filled_to(MUL, GIVE),
    ] {
        for parties in [2, 8] {
            let circuit = random::from_kinds(random, parties, &kinds);
            let mut scene = scene_of(random, circuit, parties);
            scene.zeros = true;
            requests.push(scene.joint(random));
            let last = scene.rounds.len() - 1;
            let receiver = scene.circuit[4 * (MAX_GATES - 1) + 2] % parties;
            requests.extend(scene.halves(random, receiver, &[1, 128, last]));
            let other = (receiver + 1) % parties;
            requests.extend(scene.halves(random, other, &[2, last]));
            runs::spoil(random, &mut scene, Wrong::Given(1));
            requests.push(scene.joint(random));
        }
    }
    // Outs and gives by turns, and both sides of the longest list of outputs.
    let mut kinds = vec![IN];
    kinds.extend([GIVE, OUT].repeat((MAX_GATES - 2) / 2));
    kinds.push(GIVE);
    let circuit = random::from_kinds(random, 8, &kinds);
    let mut scene = scene_of(random, circuit, 8);
    scene.zeros = true;
    let base = scene.joint(random);
    for (number, list) in [(18, outputs as ListOf), (18, words), (16, coefficients)] {
        let len = len_of(&base, list);
        let boundary = Boundary::new(number, &base, len, &[len - 1], |request, len| {
            list(request).truncate(len);
        });
        requests.extend(boundary.requests());
    }
    for parties in [2, 3, 5, 8] {
        let mut scene = Scene::rich_of(random, KINDS, parties, MAX_GATES);
        scene.zeros = true;
        requests.push(scene.joint(random));
    }
    requests
}
