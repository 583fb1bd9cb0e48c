//! Requests about squares: a set that is kept, and a larger one.

use super::boundary::{boundaries, len_of, Boundaries, Boundary, ListOf};
use super::boundary_steps::{coefficients, words};
use super::runs::{self, Wrong, PAIR_WRONGS};
use super::scene::Scene;
use super::sets::{filled, longest_run};
use super::{rotation, Entry, Request, Size};
use crate::circuit::{MAX_GATES, OUT, SQ};
use crate::party::Round;
use crate::random::{self, Kinds, Random};
use crate::square;

const KINDS: Kinds = Kinds::Squares;

/// A square with an output after it, which no product is before.
#[rustfmt::skip]
const ONE_SQUARE: &[u32] = &[
    1, 1, 0, 0,
    8, 0, 0, 0,
    7, 1, 0, 0,
];

/// Squares and products in turns: the opened entries are 1, 2, 1 and 2.
#[rustfmt::skip]
const IN_TURNS: &[u32] = &[
    1, 0, 0, 0,
    1, 1, 0, 0,
    8, 0, 0, 0,
    6, 2, 1, 0,
    8, 3, 0, 0,
    6, 4, 4, 0,
    7, 5, 0, 0,
];

/// Outputs after a square, after nothing, and after a product and two squares.
#[rustfmt::skip]
const BETWEEN_OUTPUTS: &[u32] = &[
    1, 1, 0, 0,
    8, 0, 0, 0,
    7, 1, 0, 0,
    7, 1, 0, 0,
    8, 1, 0, 0,
    6, 4, 0, 0,
    8, 5, 0, 0,
    7, 6, 0, 0,
];

#[rustfmt::skip]
const OTHERS: [&[u32]; 5] = [
    // The square of a square of a square: three entries.
    &[
        1, 0, 0, 0,
        8, 0, 0, 0,
        8, 1, 0, 0,
        8, 2, 0, 0,
        7, 3, 0, 0,
    ],
    // Squares of linear gates of every kind.
    &[
        1, 0, 0, 0,
        4, 0, 0, 2147483646,
        8, 1, 0, 0,
        5, 2, 0, 2147483646,
        8, 3, 0, 0,
        3, 4, 0, 0,
        8, 5, 0, 0,
        2, 6, 2, 0,
        8, 7, 0, 0,
        7, 8, 0, 0,
    ],
    // A product before a square.
    &[
        1, 1, 0, 0,
        6, 0, 0, 0,
        8, 1, 0, 0,
        7, 2, 0, 0,
    ],
    // A square that is never shown.
    &[
        1, 0, 0, 0,
        8, 0, 0, 0,
        7, 0, 0, 0,
    ],
    // A square less the product of the wire with itself: 0.
    &[
        1, 1, 0, 0,
        8, 0, 0, 0,
        6, 0, 0, 0,
        3, 1, 2, 0,
        7, 3, 0, 0,
    ],
];

fn one_square(random: &mut Random, parties: u32, key: u32) -> Scene {
    Scene::new(random, parties, ONE_SQUARE.to_vec(), key)
}

/// A square with an output after it; then a product and its square, and the last output.
fn two_squares(random: &mut Random, parties: u32, key: u32) -> Scene {
    #[rustfmt::skip]
    let circuit = vec![
        1, parties - 1, 0, 0,
        8, 0, 0, 0,
        7, 1, 0, 0,
        4, 1, 0, random.element(),
        6, 3, 0, 0,
        8, 4, 0, 0,
        7, 5, 0, 0,
    ];
    Scene::new(random, parties, circuit, key)
}

fn rich(random: &mut Random, parties: u32) -> Scene {
    let lines = random.between(KINDS.rich_lines(), KINDS.rich_lines() + 2);
    let mut scene = Scene::rich_of(random, KINDS, parties, lines);
    scene.zeros = random.once_in(2);
    scene.shortened()
}

pub(super) fn kept(random: &mut Random) -> Vec<Request> {
    let mut requests = runs::worked(random, square::request());
    let circuits = [ONE_SQUARE, IN_TURNS, BETWEEN_OUTPUTS];
    let all = circuits.into_iter().chain(OTHERS).zip((2..=8).cycle());
    for (number, (circuit, parties)) in all.enumerate() {
        for key in [random.nonzero(), 0].into_iter().take(1 + number % 2) {
            let scene = Scene::new(random, parties, circuit.to_vec(), key);
            requests.push(scene.joint(random));
        }
    }
    for circuit in circuits {
        let parties = random.between(2, 4) as u32;
        let key = random.nonzero();
        let scene = Scene::new(random, parties, circuit.to_vec(), key);
        let party = scene.any_party(random);
        requests.extend(scene.whole_and_after(random, Some(party), None));
    }
    for parties in 2..=8 {
        let key = random.nonzero();
        if [2, 5, 8].contains(&parties) {
            requests.push(rich(random, parties).joint(random));
        }
        let scene = Scene::new(random, parties, IN_TURNS.to_vec(), key);
        requests.push(scene.joint(random));
    }
    for entry in Entry::ALL {
        let all = boundaries(random, entry, KINDS, &rich);
        let chosen = chosen(all).into_iter().chain(of_squares(random, entry));
        requests.extend(chosen.flat_map(Boundary::requests));
    }
    for wrong in PAIR_WRONGS {
        for key in [0, random.nonzero()] {
            let parties = random.between(2, 4) as u32;
            let mut scene = two_squares(random, parties, key);
            runs::spoil(random, &mut scene, wrong);
            requests.push(scene.joint(random));
        }
    }
    for wrong in [Wrong::Pair(1), Wrong::Square] {
        let key = random.nonzero();
        let mut scene = two_squares(random, 3, key);
        runs::spoil(random, &mut scene, wrong);
        requests.extend(scene.whole_and_after(random, Some(1), None));
    }
    let rounds = [Round::Square, Round::CommitOpened, Round::RevealOpened];
    requests.extend(runs::tampered(random, rounds.into_iter(), 2, one_square));
    requests
}

/// The first boundary of each number, and those at a square or at the seal of the first check.
fn chosen(all: Vec<Boundary>) -> Vec<Boundary> {
    let mut numbers = Vec::new();
    let mut chosen = |boundary: &Boundary| {
        let first = !numbers.contains(&boundary.number);
        numbers.push(boundary.number);
        first || is_about_squares(boundary)
    };
    all.into_iter()
        .filter(|boundary| chosen(boundary))
        .collect()
}

fn is_about_squares(boundary: &Boundary) -> bool {
    match (boundary.number, &boundary.inside) {
        (4..=6, inside) => {
            let circuit = inside.clone().lists().circuit.clone();
            let refusals = boundary.outside.iter().map(|one| one.answer().refusal());
            refusals
                .flatten()
                .any(|refusal| circuit[4 * refusal.index] == SQ)
        }
        (_, Request::Send { lent, position, .. } | Request::Receive { lent, position, .. }) => {
            match position.round(&lent.circuit) {
                Some(Round::Square) => true,
                Some(Round::CommitOpened) => boundary.number >= 15,
                _ => false,
            }
        }
        _ => false,
    }
}

/// Boundaries that only squares have: lengths as they would be if a square counted as a product or not at
/// all, and numbers in a square's slots and in its opened entry.
fn of_squares(random: &mut Random, entry: Entry) -> Vec<Boundary> {
    let mut all = Boundaries::new(random, entry, KINDS, &rich);
    let prep: ListOf = |request| request.lists().prep;
    let scratch: ListOf = |request| request.lists().scratch;
    let put = |list: ListOf| move |request: &mut Request, len| list(request).resize(len, 1);

    let mut scene = all.scene();
    scene.zeros = true;
    let bands = match entry {
        Entry::Joint => scene.parties as usize,
        _ => 1,
    };
    let squares = scene.shape.squares;
    let party = scene.any_party(all.random);
    let base = scene.any(all.random, entry, party);
    let len = len_of(&base, prep);
    let lens = [len + 2 * bands * squares, len - 4 * bands * squares];
    all.add(8, &base, len, &lens, put(prep));
    let len = len_of(&base, scratch);
    all.add(12, &base, len, &[len - 2 * bands * squares], put(scratch));

    match entry {
        Entry::Open => {}
        Entry::Joint => {
            let len = len_of(&base, coefficients);
            let lens = [len + squares, len - squares];
            all.add(16, &base, len, &lens, put(coefficients));
            let len = len_of(&base, words);
            all.add(18, &base, len, &[len - bands * squares], put(words));
        }
        Entry::Send | Entry::Receive => {
            let mut scene = Scene::new(all.random, 2, BETWEEN_OUTPUTS.to_vec(), 7);
            scene.zeros = true;
            let layout = scene.shape.layout();
            let round = |wanted| {
                let found = scene.rounds.iter().rposition(|&(_, round)| round == wanted);
                found.expect("the scene has the round")
            };
            // The first seal of the last output: a square, a product and a square are unchecked, in this order.
            let seal = round(Round::CommitOpened);
            let base = scene.step(all.random, entry, 1, seal);
            if entry == Entry::Send {
                let len = len_of(&base, coefficients);
                all.add(
                    16,
                    &base,
                    len,
                    &[len - 1, len + 1, len + 2, len - 2],
                    put(coefficients),
                );
            }
            let places: Vec<usize> = [1, 4, 6]
                .into_iter()
                .flat_map(|gate| [layout.share(gate), layout.mac(gate)])
                .chain(
                    [0, 3]
                        .into_iter()
                        .flat_map(|entry| [layout.opened(entry), layout.opened_mac(entry)]),
                )
                .collect();
            all.elements(15, &base, &places, scratch);
            // Between the squares: the later one's slots and entry are not asked.
            let mut base = scene.step(all.random, entry, 0, round(Round::Multiply));
            let later = [
                layout.share(6),
                layout.mac(6),
                layout.opened(1),
                layout.opened_mac(3),
            ];
            for place in later {
                scratch(&mut base)[place] = u32::MAX;
            }
            let places = [layout.opened(0), layout.opened_mac(0)];
            all.elements(15, &base, &places, scratch);
        }
    }
    all.made()
}

/// Turns of the rotation in the large set.
const TURNS: usize = 9;

pub(super) fn large(random: &mut Random) -> Vec<Request> {
    let mut requests = Vec::new();
    for entry in Entry::ALL {
        let all = boundaries(random, entry, KINDS, &rich);
        requests.extend(all.into_iter().flat_map(Boundary::requests));
    }
    requests.extend(runs::good(random, KINDS, 60));
    requests.extend(runs::bad_preps(random, &PAIR_WRONGS, two_squares));
    requests.extend(runs::tampered(random, KINDS.rounds(), 3, two_squares));
    let size = Size {
        kinds: KINDS,
        max_lines: 60,
        max_parties: 8,
    };
    for turn in 0..TURNS {
        requests.extend(rotation::requests(random, turn, size));
    }

    // The longest lists that squares make, and the longest run.
    for kinds in [filled(SQ), longest_run(SQ, OUT)] {
        for parties in [2, 8] {
            let key = random.nonzero();
            let circuit = random::from_kinds(random, parties, &kinds);
            let mut scene = Scene::new(random, parties, circuit, key);
            scene.zeros = true;
            requests.push(scene.joint(random));
            requests.extend(scene.halves(random, parties - 1, &[1, 2, 128, 255]));
            runs::spoil(random, &mut scene, Wrong::Pair(3));
            requests.push(scene.joint(random));
        }
    }
    for parties in [2, 3, 5, 8] {
        let mut scene = Scene::rich_of(random, KINDS, parties, MAX_GATES);
        scene.zeros = true;
        requests.push(scene.joint(random));
    }
    requests
}
