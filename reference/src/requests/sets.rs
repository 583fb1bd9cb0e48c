//! The named sets of requests: test vectors that are kept, and a larger set that is not.

use super::boundary::{boundaries, Boundary, ListOf, NO_ELEMENTS};
use super::boundary_steps::coefficients;
use super::runs::{self, Wrong, TRIPLE_WRONGS};
use super::scene::Scene;
use super::{gives, marks, overs, products, rotation, squares};
use super::{Answered, Entry, Request, Size};
use crate::circuit::{IN, MAX_GATES, MUL, OUT, PLUS};
use crate::docket;
use crate::random::{self, Kinds, Random};

#[derive(Clone, Copy, Debug, PartialEq, Eq)]
pub enum Set {
    Small,
    Large,
    Square,
    Mark,
    Give,
    Over,
    SquaresLarge,
    Products,
    MarksLarge,
    GivesLarge,
    OversLarge,
}

impl Set {
    pub const ALL: [Set; 11] = [
        Set::Small,
        Set::Large,
        Set::Square,
        Set::Mark,
        Set::Give,
        Set::Over,
        Set::SquaresLarge,
        Set::Products,
        Set::MarksLarge,
        Set::GivesLarge,
        Set::OversLarge,
    ];
    pub const KEPT: [Set; 6] = [
        Set::Small,
        Set::Large,
        Set::Square,
        Set::Mark,
        Set::Give,
        Set::Over,
    ];

    pub fn name(self) -> &'static str {
        match self {
            Set::Small => "small",
            Set::Large => "large",
            Set::Square => "square",
            Set::Mark => "mark",
            Set::Give => "give",
            Set::Over => "over",
            Set::SquaresLarge => "squares-large",
            Set::Products => "products",
            Set::MarksLarge => "marks-large",
            Set::GivesLarge => "gives-large",
            Set::OversLarge => "overs-large",
        }
    }

    pub fn about(self) -> &'static str {
        match self {
            Set::Small => "short circuits; both sides of every question's boundary, whole runs, tampered words, bad preprocessing",
            Set::Large => "circuits of up to 256 gates and 8 parties; the longest runs and lists, refusals at high indices",
            Set::Square => "squares among other gates; both sides of every question's boundary, squares of every kind of wire, tampered words, bad preprocessing",
            Set::Mark => "commitments of short circuits; nonces of every wrong length, marks and nonces of any words, every part of a check altered, heard and in the scratch",
            Set::Give => "gives among other gates; both sides of every question's boundary, gives to every party, what receiver and others are answered, tampered words, bad masks",
            Set::Over => "overs among other gates; both sides of every question's boundary, overs of every kind of wire by 1, 2, 3, p-2, p-1 and others, times by the same constants, tampered words, bad preprocessing",
            Set::SquaresLarge => "squares in circuits of up to 256 gates and 8 parties; every boundary, whole runs, the longest run",
            Set::Products => "products at the edges of a reduction: by constants, by the key share, of opened values; the largest sums of products",
            Set::MarksLarge => "commitments in circuits of up to 256 gates and 8 parties; every part of a check altered, the longest nonce lists and transcripts",
            Set::GivesLarge => "gives in circuits of up to 256 gates and 8 parties; every boundary, whole runs, the longest runs",
            Set::OversLarge => "overs in circuits of up to 256 gates and 8 parties; every boundary, whole runs, more than 250 overs",
        }
    }

    /// The requests with their answers. The same seed gives the same requests.
    pub fn make(self, seed: u64) -> Vec<Answered> {
        let mut random = Random::new(seed);
        let requests = match self {
            Set::Small => small(&mut random),
            Set::Large => large(&mut random),
            Set::Square => squares::kept(&mut random),
            Set::Mark => marks::kept(&mut random),
            Set::Give => gives::kept(&mut random),
            Set::Over => overs::kept(&mut random),
            Set::SquaresLarge => squares::large(&mut random),
            Set::Products => products::all(&mut random),
            Set::MarksLarge => marks::large(&mut random),
            Set::GivesLarge => gives::large(&mut random),
            Set::OversLarge => overs::large(&mut random),
        };
        requests.into_iter().map(Request::answered).collect()
    }
}

/// Turns of the rotation in the small set, of about 150 requests.
const TURNS: usize = 1;

fn small(random: &mut Random) -> Vec<Request> {
    let kinds = Kinds::Base;
    let mut requests = runs::worked(random, docket::request());
    let scene_of = |random: &mut Random, parties| {
        let lines = random.between(kinds.rich_lines(), 12);
        let mut scene = Scene::rich_of(random, kinds, parties, lines);
        scene.zeros = random.once_in(2);
        scene.shortened()
    };
    for entry in Entry::ALL {
        for boundary in boundaries(random, entry, kinds, &scene_of) {
            let crowded = random.once_in(4).then(|| boundary.clone().crowded(random));
            requests.extend(boundary.requests());
            requests.extend(crowded.into_iter().flat_map(Boundary::requests));
        }
    }
    let scene_of = runs::two_products;
    requests.extend(runs::good(random, kinds, 14));
    requests.extend(runs::bad_preps(random, &TRIPLE_WRONGS, scene_of));
    requests.extend(runs::tampered(random, kinds.rounds(), 2, runs::one_product));
    let size = Size {
        kinds,
        max_lines: 24,
        max_parties: 4,
    };
    for turn in 0..TURNS {
        requests.extend(rotation::requests(random, turn, size));
    }
    requests
}

/// A scene of which the lists to be written hold zeros.
fn scene(random: &mut Random, parties: u32, kinds: &[u32]) -> Scene {
    let circuit = random::from_kinds(random, parties, kinds);
    let key = random.nonzero();
    let mut scene = Scene::new(random, parties, circuit, key);
    scene.zeros = true;
    scene
}

/// As many gates as there can be, of one kind between the first and the last, which is an out gate.
pub(super) fn filled(kind: u32) -> Vec<u32> {
    filled_to(kind, OUT)
}

/// The same with a last gate of a kind.
pub(super) fn filled_to(kind: u32, last: u32) -> Vec<u32> {
    let mut kinds = vec![kind; MAX_GATES];
    kinds[0] = IN;
    kinds[MAX_GATES - 1] = last;
    kinds
}

/// The kinds of a circuit that takes 766 rounds, with a gate of the given kind, which opens, before every
/// output but the last; the outputs are out or give gates.
pub(super) fn longest_run(kind: u32, output: u32) -> Vec<u32> {
    let mut kinds = vec![IN];
    kinds.extend([kind, output].repeat((MAX_GATES - 2) / 2));
    kinds.push(output);
    kinds
}

/// Mostly gates without a round, so that a whole run takes few requests.
fn few_rounds() -> Vec<u32> {
    let mut kinds = filled(PLUS);
    for (gate, kind) in [(60, IN), (120, MUL), (150, OUT)] {
        kinds[gate] = kind;
    }
    kinds
}

fn large(random: &mut Random) -> Vec<Request> {
    let mut requests = Vec::new();

    // The longest lists: inputs, preprocessing with scratch and coefficients, outputs; and the longest run.
    for (parties, kinds) in [
        (8, filled(IN)),
        (3, filled(MUL)),
        (2, filled(OUT)),
        (2, longest_run(MUL, OUT)),
    ] {
        requests.push(scene(random, parties, &kinds).joint(random));
    }
    let mut rich = Scene::rich_of(random, Kinds::Base, 3, MAX_GATES);
    rich.zeros = true;
    requests.push(rich.joint(random));
    // Lists to be written that hold any numbers and have an excess.
    let mut used = scene(random, 4, &filled(PLUS));
    used.zeros = false;
    let mut used = used.joint(random);
    if let Request::Joint {
        scratch,
        transcript,
        outputs,
        ..
    } = &mut used
    {
        for list in [scratch, transcript, outputs] {
            list.extend(NO_ELEMENTS);
        }
    }
    requests.push(used);
    // Aborts at the first check of the last product, late in a run, and in the largest check.
    for kinds in [longest_run(MUL, OUT), filled(MUL)] {
        let mut scene = scene(random, 2, &kinds);
        runs::spoil(random, &mut scene, Wrong::Triple(1));
        requests.push(scene.joint(random));
    }

    // Single entries: a whole run, and rounds at the start, in the middle and at the end of long ones.
    let whole = scene(random, 8, &few_rounds());
    requests.extend(whole.whole_and_after(random, Some(7), None));
    let long = scene(random, 8, &longest_run(MUL, OUT));
    requests.extend(long.halves(random, 0, &[0, 1, 382, 761, 764, 765]));
    let largest_check = scene(random, 8, &filled(MUL));
    requests.extend(largest_check.halves(random, 7, &[1, 128, 255]));

    // The ends of the longest lists.
    let prep: ListOf = |request| request.lists().prep;
    let inputs: ListOf = |request| request.lists().inputs;
    for (parties, kind, number, list) in [
        (8, MUL, 9, prep),
        (2, IN, 11, inputs),
        (2, MUL, 17, coefficients),
    ] {
        let mut scene = scene(random, parties, &filled(kind));
        scene.preps.fill(0);
        let base = scene.joint(random);
        requests.extend(Boundary::last_element(number, &base, list).requests());
    }
    let scene_of = |random: &mut Random, parties| {
        let parties = if parties == 8 { 8 } else { 2 };
        let circuit = random::rich_circuit_of_few_checks(random, Kinds::Base, parties, MAX_GATES);
        let key = random.element();
        let mut scene = Scene::new(random, parties, circuit, key);
        scene.preps.fill(0);
        scene.zeros = true;
        scene
    };
    for entry in Entry::ALL {
        let mut all = highest(boundaries(random, entry, Kinds::Base, &scene_of));
        // Of the questions whose refusals have index 0, in joint runs alone.
        all.retain(|boundary| entry == Entry::Joint || WITH_INDEX.contains(&boundary.number));
        requests.extend(all.into_iter().flat_map(Boundary::requests));
    }
    requests
}

/// The questions that tell a gate or the index of a number.
const WITH_INDEX: [u32; 8] = [4, 5, 6, 9, 11, 15, 17, 20];

/// For each number the boundary that is refused with the highest index.
fn highest(all: Vec<Boundary>) -> Vec<Boundary> {
    let index = |boundary: &Boundary| {
        let refusals = boundary.outside.iter().map(|one| one.answer().refusal());
        refusals.flatten().map(|refusal| refusal.index).max()
    };
    let mut highest: Vec<Boundary> = Vec::new();
    for boundary in all {
        match highest.iter_mut().find(|one| one.number == boundary.number) {
            None => highest.push(boundary),
            Some(one) if index(one) < index(&boundary) => *one = boundary,
            Some(_) => {}
        }
    }
    highest
}
