//! Requests about overs: a set that is kept, and a larger one.

use super::boundary::{boundaries, len_of, Boundaries, Boundary, ListOf};
use super::boundary_steps::coefficients;
use super::products::{self, FACTORS};
use super::refuse::set_position;
use super::runs::{self, Wrong, GIVE_WRONGS, PAIR_WRONGS, TRIPLE_WRONGS};
use super::scene::{Scene, Tamper};
use super::sets::{filled, filled_to};
use super::{rotation, Entry, Request, Size};
use crate::circuit::{IN, MAX_GATES, MUL, NO_KIND, OUT, OVER, SQ, TIMES};
use crate::field::P;
use crate::over;
use crate::party::{Position, Round, Sort, Stage};
use crate::random::{self, Kinds, Random};

const KINDS: Kinds = Kinds::Overs;

/// The constants at the ends of the range, and those with the shortest inverses.
const CONSTANTS: [u32; 5] = [1, 2, 3, P - 2, P - 1];

/// An over after every stop: an input, a product, an out, a give and a square; the last one is undone before the last output.
fn after_each(parties: u32) -> Vec<u32> {
    #[rustfmt::skip]
    let circuit = vec![
        1, 0, 0, 0,
        10, 0, 0, 2,
        6, 1, 0, 0,
        10, 2, 0, P - 1,
        7, 3, 0, 0,
        10, 3, 0, 3,
        9, 5, parties - 1, 0,
        10, 5, 0, 46341,
        8, 7, 0, 0,
        10, 8, 0, P - 2,
        5, 9, 0, P - 2,
        7, 10, 0, 0,
    ];
    circuit
}

/// An over of an input and one of a product, which is shown.
fn of_a_product(random: &mut Random, parties: u32, key: u32) -> Scene {
    #[rustfmt::skip]
    let circuit = vec![
        1, parties - 1, 0, 0,
        10, 0, 0, random.divisor(),
        6, 1, 0, 0,
        10, 2, 0, random.nonzero(),
        7, 3, 0, 0,
    ];
    Scene::new(random, parties, circuit, key)
}

/// An over of a square, given away.
fn of_a_square(random: &mut Random, parties: u32, key: u32) -> Scene {
    #[rustfmt::skip]
    let circuit = vec![
        1, 0, 0, 0,
        8, 0, 0, 0,
        10, 1, 0, random.nonzero(),
        9, 2, parties - 1, 0,
    ];
    Scene::new(random, parties, circuit, key)
}

/// Circuits with overs, the first ones short.
fn circuits(random: &mut Random, parties: u32) -> Vec<Vec<u32>> {
    let last = parties - 1;
    let k = random.nonzero();
    let constants = CONSTANTS.into_iter().chain([k, random.nonzero()]);
    let by = |wire: u32, constant: u32| [OVER, wire, 0, constant];
    let first = [IN, last, 0, 0];
    // One input over every constant.
    let mut each = first.to_vec();
    each.extend(constants.clone().flat_map(|constant| by(0, constant)));
    each.extend([OUT, 4, 0, 0]);
    // Times and over by the same constant, in both orders.
    let mut both = first.to_vec();
    for constant in constants {
        let wire = both.len() as u32 / 4;
        both.extend([[TIMES, 0, 0, constant], by(wire, constant)].concat());
        both.extend([by(0, constant), [TIMES, wire + 2, 0, constant]].concat());
    }
    both.extend([OUT, both.len() as u32 / 4 - 1, 0, 0]);
    #[rustfmt::skip]
    let others = [
        // Of an input, and nothing else.
        vec![
            1, last, 0, 0,
            10, 0, 0, 1,
            7, 1, 0, 0,
        ],
        // Of linear gates of every kind, and of an over.
        vec![
            1, 0, 0, 0,
            1, last, 0, 0,
            2, 0, 1, 0,
            10, 2, 0, k,
            3, 3, 1, 0,
            10, 4, 0, P - 1,
            4, 5, 0, P - 1,
            10, 6, 0, 65536,
            5, 7, 0, k,
            10, 8, 0, k,
            10, 9, 0, 3,
            7, 10, 0, 0,
        ],
        // Of 0, which times may make.
        vec![
            1, 0, 0, 0,
            5, 0, 0, 0,
            10, 1, 0, k,
            7, 2, 0, 0,
        ],
        // Of products and squares, before and after an output that does not show them.
        vec![
            1, last, 0, 0,
            6, 0, 0, 0,
            10, 1, 0, k,
            8, 2, 0, 0,
            10, 3, 0, 2,
            7, 0, 0, 0,
            10, 1, 0, P - 2,
            10, 3, 0, 3,
            6, 6, 7, 0,
            7, 4, 0, 0,
        ],
        // Overs at the end of every run of linear gates, each shown.
        vec![
            1, 1, 0, 0,
            4, 0, 0, 7,
            10, 1, 0, 7,
            9, 2, last, 0,
            5, 2, 0, 5,
            10, 4, 0, 5,
            7, 5, 0, 0,
            10, 2, 0, k,
            9, 7, 0, 0,
        ],
    ];
    let mut circuits = others.to_vec();
    circuits.extend([each, both, after_each(parties)]);
    circuits
}

fn scene_of(random: &mut Random, circuit: Vec<u32>, parties: u32) -> Scene {
    let key = random.nonzero();
    Scene::new(random, parties, circuit, key)
}

/// A rich scene with two in gates, of two parties where the number may be smaller, and mostly of zeros.
fn rich(random: &mut Random, parties: u32) -> Scene {
    let parties = if parties == 8 { 8 } else { 2 };
    loop {
        let mut scene = Scene::rich_of(random, KINDS, parties, KINDS.rich_lines() + 1);
        if scene.gates_of(&[IN]).len() > 1 {
            scene.zeros = !random.once_in(8);
            return scene.shortened();
        }
    }
}

pub(super) fn kept(random: &mut Random) -> Vec<Request> {
    let mut requests = runs::worked(random, over::request());
    for (number, parties) in (0..8).zip((2..=8).cycle()) {
        for key in [random.nonzero(), 0].into_iter().take(1 + number % 2) {
            let circuit = circuits(random, parties).swap_remove(number);
            requests.push(Scene::new(random, parties, circuit, key).joint(random));
        }
    }
    for constant in CONSTANTS {
        requests.extend([1, P - 1].map(|x| products::over(x, constant)));
    }
    // Single entries: one party that receives the give, one that does not, and the last of three.
    for party in 0..2 {
        let mut scene = scene_of(random, after_each(2), 2);
        scene.zeros = true;
        requests.extend(scene.whole_and_after(random, Some(party), None));
    }
    let scene = scene_of(random, vec![1, 2, 0, 0, 10, 0, 0, 3, 7, 1, 0, 0], 3);
    requests.extend(scene.whole_and_after(random, Some(2), None));

    for entry in Entry::ALL {
        let all = boundaries(random, entry, KINDS, &rich);
        let chosen = chosen(all).into_iter().chain(of_overs(random, entry));
        requests.extend(chosen.flat_map(Boundary::requests));
    }

    for wrong in [
        Wrong::KeyShare,
        Wrong::Mask(1),
        Wrong::WholeMask,
        Wrong::Triple(5),
        Wrong::Product,
    ] {
        for key in [0, random.nonzero()] {
            let parties = random.between(2, 3) as u32;
            let mut scene = of_a_product(random, parties, key);
            runs::spoil(random, &mut scene, wrong);
            requests.push(scene.joint(random));
        }
    }
    let mut scene = scene_of(random, over::CIRCUIT.to_vec(), 2);
    runs::spoil(random, &mut scene, Wrong::Mask(1));
    requests.extend(scene.whole_and_after(random, None, None));
    let rounds = [
        Round::Input,
        Round::Multiply,
        Round::Square,
        Round::OpenOutput,
        Round::RevealOutput,
    ];
    requests.extend(around_overs(random, &rounds, 2));
    requests
}

/// Runs of all parties that hear one word otherwise than it was sent, in each of the rounds, with overs before and after it.
fn around_overs(random: &mut Random, rounds: &[Round], most: usize) -> Vec<Request> {
    let mut requests = Vec::new();
    for &round in rounds {
        let parties = random.between(2, most) as u32;
        let key = random.nonzero();
        let mut scene = match round {
            Round::Square => of_a_square(random, parties, key),
            // The rounds of the second check need no product before the output.
            Round::OpenOutput | Round::CommitOutput | Round::RevealOutput => {
                let by = random.nonzero();
                Scene::new(
                    random,
                    parties,
                    vec![1, 1, 0, 0, 10, 0, 0, by, 7, 1, 0, 0],
                    key,
                )
            }
            _ => of_a_product(random, parties, key),
        };
        scene.zeros = random.once_in(2);
        let chosen = scene.find(random, |_, here| here == round);
        let words = round.words() * parties as usize;
        let word = match round {
            Round::Input => scene.circuit[1] as usize,
            _ => random.below(words),
        };
        let tamper = Tamper {
            round: chosen,
            word,
            by: random.nonzero(),
        };
        requests.extend(scene.whole_and_after(random, None, Some(tamper)));
    }
    requests
}

/// The first boundary of each number, and those at an over.
fn chosen(all: Vec<Boundary>) -> Vec<Boundary> {
    let mut numbers = Vec::new();
    let mut chosen = |boundary: &Boundary| {
        let first = !numbers.contains(&boundary.number);
        numbers.push(boundary.number);
        first || is_about_overs(boundary)
    };
    all.into_iter()
        .filter(|boundary| chosen(boundary))
        .collect()
}

/// Whether a gate's question refuses an over.
fn is_about_overs(boundary: &Boundary) -> bool {
    if !(4..=6).contains(&boundary.number) {
        return false;
    }
    let circuit = boundary.inside.clone().lists().circuit.clone();
    let refusals = boundary.outside.iter().map(|one| one.answer().refusal());
    refusals
        .flatten()
        .any(|refusal| circuit[4 * refusal.index] == OVER)
}

/// Boundaries that only overs have: the questions of its gate in their order, times by 0 beside over by 0, positions at an over, its share
/// and MAC share, and lengths as they would be if an over took something or opened something.
fn of_overs(random: &mut Random, entry: Entry) -> Vec<Boundary> {
    let mut all = Boundaries::new(random, entry, KINDS, &rich);
    let scratch: ListOf = |request| request.lists().scratch;
    let put_gate = |gate: usize| {
        move |request: &mut Request, line: [u32; 4]| {
            request.lists().circuit[4 * gate..][..4].copy_from_slice(&line);
        }
    };
    #[rustfmt::skip]
    let circuit = vec![
        1, 0, 0, 0,
        10, 0, 0, 2,
        5, 1, 0, 7,
        10, 2, 0, 46341,
        10, 1, 0, P - 2,
        7, 4, 0, 0,
    ];
    let mut scene = Scene::new(all.random, 2, circuit, 7);
    scene.zeros = true;
    let scene = scene.shortened();
    let overs = scene.gates_of(&[OVER]);
    let party = scene.any_party(all.random);
    let base = scene.any(all.random, entry, party);

    // 4 before 5 before 6 of one over, and 6 of its second and its constant alike.
    let (gate, right) = (3, [OVER, 2, 0, 46341]);
    for (number, wrong) in [
        (4, [NO_KIND, 3, 1, 0]),
        (5, [OVER, 3, 1, 0]),
        (6, [OVER, 2, 1, 0]),
        (6, [OVER, 2, 1, P]),
    ] {
        all.add(number, &base, right, &[wrong], put_gate(gate));
    }
    // Over and times by 0 and by p; an over for the last gate.
    let times = [TIMES, 2, 0, 0];
    let outside = [[OVER, 2, 0, 0], [TIMES, 2, 0, P]];
    all.add(6, &base, times, &outside, put_gate(gate));
    let last = scene.shape.gates - 1;
    let outside = [[OVER, 4, 0, 1], [OVER, 4, 0, P - 1]];
    all.add(7, &base, [OUT, 4, 0, 0], &outside, put_gate(last));
    // Two overs with a fault: the first decides.
    let with_both = |request: &mut Request, constant| {
        for &gate in &overs[1..] {
            request.lists().circuit[4 * gate + 3] = constant;
        }
    };
    all.add(6, &base, 1, &[0, P], with_both);

    let bands = match entry {
        Entry::Joint => scene.parties as usize,
        _ => 1,
    };
    let prep: ListOf = |request| request.lists().prep;
    let put = |list: ListOf| move |request: &mut Request, len| list(request).resize(len, 1);
    let len = len_of(&base, prep);
    let lens = [1, 3, 6].map(|record| len + bands * record * overs.len());
    all.add(8, &base, len, &lens, put(prep));

    let mut scene = Scene::new(all.random, 2, after_each(2), 7);
    scene.zeros = true;
    let scene = scene.shortened();
    let party = scene.any_party(all.random);
    let after = scene.any(all.random, entry, party);
    // An out and a give have no value.
    all.add(5, &after, 5, &[4, 6], |request, named| {
        request.lists().circuit[4 * 7 + 1] = named;
    });

    match entry {
        Entry::Open => {}
        Entry::Joint => {
            let len = len_of(&base, coefficients);
            all.add(16, &base, len, &[len + overs.len()], put(coefficients));
        }
        Entry::Send | Entry::Receive => {
            let layout = scene.shape.layout();
            let of = |gate: usize, wanted: Round| {
                let found = scene.rounds.iter().position(|&one| one == (gate, wanted));
                found.expect("the scene has the round")
            };
            // After overs of every kind of wire: their shares and MAC shares are asked, those of later ones are not.
            let mut base = scene.step(all.random, entry, 1, of(8, Round::Square));
            for gate in [4, 6, 8, 9, 10, 11] {
                scratch(&mut base)[layout.share(gate)] = u32::MAX;
                scratch(&mut base)[layout.mac(gate)] = P;
            }
            let places = [
                layout.share(1),
                layout.share(7),
                layout.mac(3),
                layout.mac(7),
            ];
            all.elements(15, &base, &places, scratch);
            // No over has a position of its own.
            let (Request::Send { position: here, .. } | Request::Receive { position: here, .. }) =
                base
            else {
                unreachable!("a step is a request to send or to receive")
            };
            let half = |sort| match entry {
                Entry::Send => Stage::Send(sort),
                _ => Stage::Receive(sort),
            };
            let stages = Sort::ALL.map(half).into_iter();
            let at_an_over: Vec<Position> = stages
                .chain([Stage::Aborted, Stage::Finished])
                .map(|stage| Position {
                    gate: 7,
                    stage,
                    held: 0,
                })
                .collect();
            all.add(13, &base, here, &at_an_over, set_position);
            // The first check of what the square has opened, with no entry for the overs beside it.
            if entry == Entry::Send {
                let base = scene.step(all.random, entry, 0, of(11, Round::CommitOpened));
                all.add(16, &base, 1, &[0, 2, 3], put(coefficients));
            }
        }
    }
    all.made()
}

/// Turns of the rotation in the large set.
const TURNS: usize = 4;

pub(super) fn large(random: &mut Random) -> Vec<Request> {
    let mut requests = Vec::new();
    let any = |random: &mut Random, parties| {
        if random.once_in(2) {
            return rich(random, parties);
        }
        let lines = random.between(KINDS.rich_lines(), KINDS.rich_lines() + 4);
        Scene::rich_of(random, KINDS, parties, lines)
    };
    for entry in Entry::ALL {
        let all = boundaries(random, entry, KINDS, &any);
        let all = all.into_iter().chain(of_overs(random, entry));
        requests.extend(all.flat_map(Boundary::requests));
    }
    for x in FACTORS {
        let others = [random.nonzero(), random.nonzero()];
        let constants = FACTORS.into_iter().chain(CONSTANTS).chain(others);
        requests.extend(constants.map(|constant| products::over(x, constant)));
    }
    requests.extend(runs::good(random, KINDS, 60));
    requests.extend(runs::bad_preps(random, &TRIPLE_WRONGS, of_a_product));
    for wrongs in [&PAIR_WRONGS[..], &GIVE_WRONGS] {
        requests.extend(runs::bad_preps(random, wrongs, of_a_square));
    }
    for _ in 0..3 {
        requests.extend(around_overs(random, &Round::ALL, 4));
    }
    for parties in 2..=8 {
        for circuit in circuits(random, parties) {
            let scene = scene_of(random, circuit, parties);
            requests.push(scene.joint(random));
            let party = scene.any_party(random);
            requests.extend(scene.whole_and_after(random, Some(party), None));
        }
    }
    let size = Size {
        kinds: KINDS,
        max_lines: 60,
        max_parties: 8,
    };
    for turn in 0..TURNS {
        requests.extend(rotation::requests(random, turn, size));
    }
    for parties in [2, 3, 5, 8] {
        let mut scene = Scene::rich_of(random, KINDS, parties, MAX_GATES);
        scene.zeros = true;
        requests.push(scene.joint(random));
        for circuit in longest(random, parties) {
            let mut scene = scene_of(random, circuit, parties);
            scene.zeros = true;
            requests.push(scene.joint(random));
            let rounds = [0, scene.rounds.len() - 3, scene.rounds.len() - 1];
            let party = scene.any_party(random);
            requests.extend(scene.halves(random, party, &rounds));
            runs::spoil(random, &mut scene, Wrong::Mask(1));
            requests.push(scene.joint(random));
            requests.extend(at_the_last_over(random, &scene));
        }
    }
    requests
}

/// Circuits of as many gates as there can be, almost all of them overs.
fn longest(random: &mut Random, parties: u32) -> Vec<Vec<u32>> {
    let mut circuits: Vec<Vec<u32>> = [filled(OVER), filled_to(OVER, crate::circuit::GIVE)]
        .map(|kinds| random::from_kinds(random, parties, &kinds))
        .to_vec();
    // Each over names the one before it; then each names the input.
    for named in [1, 0] {
        let mut circuit = vec![IN, parties - 1, 0, 0];
        for gate in 1..MAX_GATES as u32 - 1 {
            circuit.extend([OVER, named * (gate - 1), 0, random.divisor()]);
        }
        circuit.extend([OUT, MAX_GATES as u32 - 2, 0, 0]);
        circuits.push(circuit);
    }
    // As many times and after them overs by the same constants: the input again.
    let half = (MAX_GATES as u32 - 2) / 2;
    let mut constants: Vec<u32> = (0..half).map(|_| random.nonzero()).collect();
    let mut circuit = vec![IN, 0, 0, 0];
    for kind in [TIMES, OVER] {
        for &constant in &constants {
            circuit.extend([kind, circuit.len() as u32 / 4 - 1, 0, constant]);
        }
        random.shuffle(&mut constants);
    }
    circuit.extend([OUT, MAX_GATES as u32 - 2, 0, 0]);
    circuits.push(circuit);
    // Two hundred and fifty overs, a product, a square and an output between.
    let mut kinds = filled(OVER);
    for (gate, kind) in [(64, MUL), (128, OUT), (192, SQ)] {
        kinds[gate] = kind;
    }
    circuits.push(random::from_kinds(random, parties, &kinds));
    circuits
}

/// Both sides of the questions of a gate at the last over of a scene.
fn at_the_last_over(random: &mut Random, scene: &Scene) -> Vec<Request> {
    let gate = scene.gates_of(&[OVER]).pop().expect("there is an over");
    let entry = random.pick(&Entry::ALL);
    let party = scene.any_party(random);
    let base = match entry {
        Entry::Open => scene.open(random, party),
        Entry::Joint => scene.joint(random),
        _ => scene.step(random, entry, party, 0),
    };
    let mut requests = Vec::new();
    for (number, field, inside, outside) in [
        (4, 0, OVER, [NO_KIND, u32::MAX]),
        (5, 1, gate as u32 - 1, [gate as u32, u32::MAX]),
        (6, 2, 0, [1, u32::MAX]),
        (6, 3, 1, [0, P]),
        (6, 3, P - 1, [P, 0]),
    ] {
        let put = |request: &mut Request, number| {
            request.lists().circuit[4 * gate + field] = number;
        };
        let boundary = Boundary::new(number, &base, inside, &outside, put);
        requests.extend(boundary.requests());
    }
    requests
}
