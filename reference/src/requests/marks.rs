//! Requests about commitments: a set that is kept, and a larger one.

use super::boundary::{Boundary, ListOf, NO_ELEMENTS};
use super::boundary_steps::{coefficients, heard, nonces, words};
use super::runs::{self, Wrong};
use super::scene::{alter, Meddle, Scene, Tamper};
use super::sets::{filled, longest_run};
use super::{rotation, Entry, Request, Size};
use crate::circuit::{Layout, MAX_GATES, MUL, OUT, SQ};
use crate::commitment::{self, NONCE_BYTES, REVEALED, WORDS};
use crate::docket;
use crate::field::P;
use crate::party::Round;
use crate::random::{self, Kinds, Random};

use Entry::{Receive, Send};

const KINDS: Kinds = Kinds::Squares;

/// A product with an output after it.
#[rustfmt::skip]
const PRODUCT: &[u32] = &[
    1, 1, 0, 0,
    6, 0, 0, 0,
    7, 1, 0, 0,
];

/// A square with an output after it.
#[rustfmt::skip]
const SQUARE: &[u32] = &[
    1, 0, 0, 0,
    8, 0, 0, 0,
    7, 1, 0, 0,
];

/// An output with no first check.
#[rustfmt::skip]
const OUTPUT: &[u32] = &[
    1, 1, 0, 0,
    7, 0, 0, 0,
];

/// Outputs after a product, after nothing, and after a square.
#[rustfmt::skip]
const OUTPUTS: &[u32] = &[
    1, 0, 0, 0,
    6, 0, 0, 0,
    7, 1, 0, 0,
    7, 0, 0, 0,
    8, 1, 0, 0,
    7, 4, 0, 0,
];

fn scene_of(random: &mut Random, circuit: &[u32], parties: u32) -> Scene {
    let key = random.nonzero();
    Scene::new(random, parties, circuit.to_vec(), key)
}

fn product(random: &mut Random, parties: u32, key: u32) -> Scene {
    Scene::new(random, parties, PRODUCT.to_vec(), key)
}

fn square(random: &mut Random, parties: u32, key: u32) -> Scene {
    Scene::new(random, parties, SQUARE.to_vec(), key)
}

fn scratch(request: &mut Request) -> &mut Vec<u32> {
    request.lists().scratch
}

fn rounds_of(scene: &Scene, wanted: fn(Round) -> bool) -> Vec<usize> {
    let rounds = scene.rounds.iter().enumerate();
    let found = rounds.filter(|(_, (_, round))| wanted(*round));
    found.map(|(index, _)| index).collect()
}

/// The first round of each sort that the scene has.
fn first_of_each(scene: &Scene) -> Vec<usize> {
    let all = Round::ALL.into_iter();
    let first = all.filter_map(|round| scene.rounds.iter().position(|&(_, here)| here == round));
    first.collect()
}

/// A reveal as one party hears it.
#[derive(Clone)]
pub(super) struct Reveal {
    pub request: Request,
    layout: Layout,
    parties: usize,
}

impl Reveal {
    /// The words of all parties as they sent them, under the marks that they sent.
    pub fn new(random: &mut Random, scene: &Scene, party: u32, round: usize) -> Reveal {
        Reveal {
            request: scene.step(random, Receive, party, round),
            layout: scene.shape.layout(),
            parties: scene.parties as usize,
        }
    }

    fn heard(&mut self) -> &mut Vec<u32> {
        heard(&mut self.request)
    }

    /// Adds to a word that a party reveals: its check share is number 0.
    pub fn alter_word(&mut self, party: usize, number: usize, by: u32) {
        alter(
            Round::RevealOutput,
            self.heard(),
            REVEALED * party + number,
            by,
        );
    }

    /// Adds to a word of the mark written for a party.
    pub fn alter_mark(&mut self, party: usize, number: usize, by: u32) {
        let place = self.layout.mark(party) + number;
        let word = &mut scratch(&mut self.request)[place];
        *word = word.wrapping_add(by);
    }

    /// Writes the marks of the words that are heard.
    pub fn fit(&mut self) {
        let revealed = self.heard().as_chunks().0.to_vec();
        for (party, words) in revealed.iter().enumerate() {
            let place = self.layout.mark(party);
            let written = &mut scratch(&mut self.request)[place..][..WORDS];
            written.copy_from_slice(&commitment::mark(words));
        }
    }

    /// The check shares that are heard.
    fn set_shares(&mut self, shares: &[u32]) {
        let words = self.heard().chunks_exact_mut(REVEALED);
        for (words, &share) in words.zip(shares) {
            words[0] = share;
        }
    }

    fn with(&self, change: impl FnOnce(&mut Reveal)) -> Request {
        let mut changed = self.clone();
        change(&mut changed);
        changed.request
    }

    /// One part of one party's check altered: its check share, words of its nonce, words and single bits of its mark.
    fn one_part(&self, random: &mut Random, party: usize) -> Vec<Request> {
        let by = random.nonzero();
        let inner = random.between(1, WORDS - 2);
        let mut requests = vec![self.with(|reveal| reveal.alter_word(party, 0, by))];
        for number in [0, inner, WORDS - 1] {
            requests.push(self.with(|reveal| reveal.alter_word(party, 1 + number, by)));
            requests.push(self.with(|reveal| reveal.alter_mark(party, number, by)));
        }
        let (number, bit) = (random.below(WORDS), random.below(31));
        for bit in [bit, 31] {
            requests.push(self.with(|reveal| reveal.alter_mark(party, number, 1 << bit)));
        }
        requests
    }

    /// Parts of two parties altered, of which the lower is named; all at once.
    fn several_parts(&self, random: &mut Random) -> Vec<Request> {
        let by = random.nonzero();
        let mut requests = Vec::new();
        for low in 0..self.parties - 1 {
            let high = random.between(low + 1, self.parties - 1);
            requests.push(self.with(|reveal| {
                reveal.alter_word(high, 0, by);
                reveal.alter_mark(low, 7, by);
            }));
            requests.push(self.with(|reveal| {
                reveal.alter_mark(high, 0, by);
                reveal.alter_word(low, 8, by);
            }));
            // The last to speak cancels the others' check shares.
            requests.push(self.with(|reveal| {
                reveal.alter_word(low, 0, by);
                reveal.alter_word(high, 0, P - by);
            }));
        }
        requests.push(self.with(|reveal| reveal.heard().fill(0)));
        requests.push(self.with(|reveal| reveal.heard().fill(P - 1)));
        let marks = self.layout.mark(0)..self.layout.len();
        requests.push(self.with(|reveal| scratch(&mut reveal.request)[marks].fill(1)));
        requests
    }

    /// Marks that fit whatever is heard: the sum of the check shares alone decides.
    fn sums(&self, random: &mut Random) -> Vec<Request> {
        let mut requests = Vec::new();
        let mut fitting = |change: &dyn Fn(&mut Reveal)| {
            requests.push(self.with(|reveal| {
                change(reveal);
                reveal.fit();
            }));
        };
        let by = random.nonzero();
        for party in 0..self.parties {
            fitting(&|reveal| reveal.alter_word(party, 0, by));
        }
        let last = self.parties - 1;
        // Other check shares and nonces, and the sum is zero.
        fitting(&|reveal| {
            reveal.alter_word(0, 0, by);
            reveal.alter_word(last, 0, P - by);
        });
        fitting(&|reveal| reveal.heard().fill(0));
        fitting(&|reveal| {
            reveal.heard().fill(u32::MAX);
            reveal.set_shares(&[0; 8]);
        });
        for shares in [
            [1, P - 1, 0, 0, 0, 0, 0, 0],
            [P - 1, 1, 0, 0, 0, 0, 0, 0],
            [1, P - 2, 0, 0, 0, 0, 0, 0],
            [P - 1, 2, 0, 0, 0, 0, 0, 0],
            [P - 1; 8],
        ] {
            fitting(&|reveal| reveal.set_shares(&shares));
        }
        requests
    }

    /// Question 20 asks the check shares alone, and before the marks.
    fn elements(&self, random: &mut Random) -> Vec<Request> {
        let mut requests = Vec::new();
        for party in 0..self.parties {
            let boundary = Boundary::new(
                20,
                &self.request,
                P - 1,
                &NO_ELEMENTS,
                |request, element| heard(request)[REVEALED * party] = element,
            );
            requests.extend(boundary.requests());
        }
        let last = REVEALED * (self.parties - 1);
        // Words of nonces that are no elements, and a check share that is none.
        for (word, shares) in [(P, &[][..]), (u32::MAX, &[]), (u32::MAX, &[last])] {
            let mut reveal = self.clone();
            for (index, heard) in reveal.heard().iter_mut().enumerate() {
                if !Round::RevealOutput.has_element(index) {
                    *heard = word;
                }
            }
            for &share in shares {
                reveal.heard()[share] = P;
            }
            requests.push(reveal.request.clone());
            reveal.fit();
            requests.push(reveal.request);
        }
        // A mark that does not fit before a check share that is no element; two of these.
        requests.push(self.with(|reveal| {
            reveal.alter_word(0, 1, 1);
            reveal.heard()[last] = P;
        }));
        requests.push(self.with(|reveal| {
            reveal.heard()[last] = P;
            reveal.heard()[0] = u32::MAX;
        }));
        // Question 19 is asked before, at the lengths of other rounds too.
        for len in [
            last + REVEALED - 1,
            last + REVEALED + 1,
            WORDS * self.parties,
            self.parties,
        ] {
            let filling = random.pick(&[P, 1]);
            requests.push(self.with(|reveal| reveal.heard().resize(len, filling)));
        }
        requests
    }
}

/// Question 25 in each round: of the lengths beside the right one, and of others that one could take for it.
fn nonce_lengths(random: &mut Random, scene: &Scene) -> Vec<Request> {
    let mut requests = Vec::new();
    let mut lengths = |base: &Request, len: usize, outside: &[usize]| {
        let boundary = Boundary::new(25, base, len, outside, |request, len| {
            nonces(request).resize(len, 1);
        });
        requests.extend(boundary.requests());
    };
    for round in first_of_each(scene) {
        let party = scene.any_party(random);
        let base = scene.step(random, Send, party, round);
        match scene.rounds[round].1.is_commit() {
            true => lengths(&base, NONCE_BYTES, &[0, 1, WORDS, 31, 33, 36, 64]),
            false => lengths(&base, 0, &[1, NONCE_BYTES]),
        }
    }
    let base = scene.joint(random);
    let len = scene.shape.nonces();
    let check = NONCE_BYTES * scene.parties as usize;
    let mut outside = vec![0, len - 1, len + 1, len - NONCE_BYTES, len + NONCE_BYTES];
    // As it would be if only the second checks counted, and that of one party.
    outside.extend([
        check * scene.shape.outputs,
        NONCE_BYTES * scene.shape.checks(),
    ]);
    outside.retain(|&other| other != len);
    lengths(&base, len, &outside);
    requests
}

/// Requests that several of the questions 16, 17, 25 and 18 would refuse, in every combination.
fn in_order(random: &mut Random, scene: &Scene) -> Vec<Request> {
    let mut bases = vec![(
        scene.joint(random),
        scene.parties as usize * scene.shape.words(),
    )];
    for wanted in [
        Round::CommitOpened,
        Round::CommitOutput,
        Round::RevealOutput,
    ] {
        let round = scene.find(random, |_, round| round == wanted);
        let party = scene.any_party(random);
        bases.push((scene.step(random, Send, party, round), wanted.words()));
    }
    let mut requests = Vec::new();
    for (base, room) in bases {
        for faults in 0..16 {
            let mut request = base.clone();
            let list = coefficients(&mut request);
            if faults & 2 > 0 {
                match list.last_mut() {
                    Some(last) => *last = P,
                    // Where none are wanted, 17 can refuse nothing that 16 does not.
                    None => continue,
                }
            }
            if faults & 1 > 0 {
                list.push(0);
            }
            if faults & 4 > 0 {
                nonces(&mut request).push(0);
            }
            if faults & 8 > 0 {
                words(&mut request).truncate(room - 1);
            }
            requests.push(request);
        }
    }
    requests
}

/// Question 12 in every entry: one number short, and the lengths without marks, without one mark, without the nonce;
/// then an excess.
fn rooms(random: &mut Random, scene: &Scene, entries: &[Entry]) -> Vec<Request> {
    let mut requests = Vec::new();
    let parties = scene.parties as usize;
    for &entry in entries {
        let party = scene.any_party(random);
        let base = scene.any(random, entry, party);
        let bands = if entry == Entry::Joint { parties } else { 1 };
        let len = bands * scene.shape.scratch_len();
        let outside = [
            len - 1,
            len - bands * WORDS,
            len - bands * WORDS * (1 + parties),
        ];
        let put = |request: &mut Request, len| scratch(request).resize(len, u32::MAX);
        let boundary = Boundary::new(12, &base, len, &outside, put);
        requests.extend(boundary.requests());
        let mut longer = base;
        put(&mut longer, len);
        scratch(&mut longer).extend([P, 3, u32::MAX]);
        requests.push(longer);
    }
    requests
}

/// Every half of every round with a nonce and marks in the scratch that are no elements: question 15 asks none. At a
/// reveal the marks are those that were heard.
fn unasked(random: &mut Random, scene: &Scene) -> Vec<Request> {
    let layout = scene.shape.layout();
    let mut requests = Vec::new();
    for round in first_of_each(scene) {
        for entry in [Send, Receive] {
            let party = scene.any_party(random);
            let mut request = scene.step(random, entry, party, round);
            let end = match (entry, scene.rounds[round].1.is_reveal()) {
                (Receive, true) => layout.mark(0),
                _ => layout.len(),
            };
            for place in layout.nonce()..end {
                scratch(&mut request)[place] = NO_ELEMENTS[place % 2];
            }
            requests.push(request);
        }
    }
    requests
}

/// Commitments spoken with other nonces, over scratch that holds other numbers.
fn spoken(random: &mut Random, scene: &Scene) -> Vec<Request> {
    let mut requests = Vec::new();
    for round in rounds_of(scene, Round::is_commit) {
        let party = scene.any_party(random);
        let base = scene.step(random, Send, party, round);
        let counted: Vec<u8> = (0..32).collect();
        let fallen: Vec<u8> = (0..32).map(|place| 255 - 8 * place).collect();
        for nonce in [vec![0; 32], vec![255; 32], counted, fallen] {
            let mut request = base.clone();
            *nonces(&mut request) = nonce;
            let layout = scene.shape.layout();
            scratch(&mut request)[layout.nonce()..layout.len()].fill(u32::MAX);
            requests.push(request);
        }
    }
    requests
}

/// Marks of any words, which are written as they are heard.
fn marks_heard(random: &mut Random, scene: &Scene) -> Vec<Request> {
    let mut requests = Vec::new();
    for round in rounds_of(scene, Round::is_commit) {
        let party = scene.any_party(random);
        let base = scene.step(random, Receive, party, round);
        for word in [0, 1, P - 1, P, u32::MAX] {
            let mut request = base.clone();
            heard(&mut request).fill(word);
            requests.push(request);
        }
        let mut request = base.clone();
        for (index, word) in heard(&mut request).iter_mut().enumerate() {
            *word = index as u32;
        }
        requests.push(request);
        let len = WORDS * scene.parties as usize;
        let boundary = Boundary::new(
            19,
            &base,
            len,
            &[
                len - 1,
                len + 1,
                len + scene.parties as usize,
                scene.parties as usize,
                0,
            ],
            |request, len| heard(request).resize(len, P),
        );
        requests.extend(boundary.requests());
    }
    requests
}

/// Reveals spoken with other words in the nonce's place, which are posted as they stand, and other marks, which are not.
fn reveals_spoken(random: &mut Random, scene: &Scene) -> Vec<Request> {
    let layout = scene.shape.layout();
    let mut requests = Vec::new();
    for round in rounds_of(scene, Round::is_reveal) {
        let party = scene.any_party(random);
        let base = scene.step(random, Send, party, round);
        for place in [
            layout.nonce(),
            layout.nonce() + WORDS - 1,
            layout.mark(party as usize),
        ] {
            let mut request = base.clone();
            let number = &mut scratch(&mut request)[place];
            *number = number.wrapping_add(random.nonzero());
            requests.push(request);
        }
        let mut request = base;
        scratch(&mut request)[layout.nonce()..][..WORDS].fill(u32::MAX);
        requests.push(request);
    }
    requests
}

/// The docket with one bit of party 0's mark, a word of party 1's mark, and party 1's first nonce word heard otherwise, all at
/// the first check; then marks of 10 and 77, under which 10 and p - 10 are revealed, and 10 and 77.
pub(super) fn docket_checks(random: &mut Random) -> Vec<Request> {
    let scene = Scene::of(docket::request().expect("an accepted circuit"));
    let commit = scene.find(random, |_, round| round == Round::CommitOpened);
    let mut requests = Vec::new();
    for (round, word, by) in [
        (commit, 0, 1 << 31),
        (commit, 2 * WORDS - 1, 1),
        (commit + 1, REVEALED + 1, 1),
    ] {
        let tamper = Some(Tamper { round, word, by });
        requests.extend(scene.whole_and_after(random, None, tamper));
    }
    for party in 0..2 {
        let mut reveal = Reveal::new(random, &scene, party, commit + 1);
        reveal.set_shares(&[10, 77]);
        reveal.fit();
        requests.push(reveal.with(|reveal| reveal.set_shares(&[10, P - 10])));
        requests.push(reveal.request);
    }
    requests
}

/// Whole runs in which the caller of one party alters its scratch: a nonce word after the commitment is sent or before
/// the reveal is, a mark between the halves of the reveal, and a nonce word that has been posted already.
fn meddled(random: &mut Random, scene: &Scene, party: u32) -> Vec<Request> {
    let layout = scene.shape.layout();
    let commit = scene.find(random, |_, round| round.is_commit());
    let nonce = layout.nonce() + random.below(WORDS);
    let of = random.below(scene.parties as usize);
    let mark = layout.mark(of) + random.below(WORDS);
    let mut requests = Vec::new();
    for (round, half, place) in [
        (commit, Receive, nonce),
        (commit + 1, Send, nonce),
        (commit + 1, Receive, nonce),
        (commit + 1, Send, mark),
        (commit + 1, Receive, mark),
    ] {
        let meddle = Meddle {
            round,
            half,
            party,
            place,
            by: random.nonzero(),
        };
        requests.extend(scene.whole_meddled(random, meddle));
    }
    requests
}

/// All that concerns one reveal as one party hears it.
fn reveal(random: &mut Random, scene: &Scene, party: u32, round: usize) -> Vec<Request> {
    let reveal = Reveal::new(random, scene, party, round);
    let mut requests = vec![reveal.request.clone()];
    for altered in 0..reveal.parties {
        requests.extend(reveal.one_part(random, altered));
    }
    requests.extend(reveal.several_parts(random));
    requests.extend(reveal.sums(random));
    requests.extend(reveal.elements(random));
    requests
}

pub(super) fn kept(random: &mut Random) -> Vec<Request> {
    let mut requests = docket_checks(random);
    let scene = scene_of(random, SQUARE, 2);
    requests.extend(scene.whole_and_after(random, None, None));

    for (circuit, parties) in [PRODUCT, SQUARE, OUTPUT, OUTPUTS]
        .into_iter()
        .zip([2, 3, 8, 5])
    {
        requests.push(scene_of(random, circuit, parties).joint(random));
    }
    for parties in 2..=8 {
        requests.push(scene_of(random, OUTPUTS, parties).joint(random));
    }
    for parties in [2, 3, 8] {
        let scene = scene_of(random, OUTPUT, parties);
        requests.extend(rooms(random, &scene, &[Entry::Joint]));
    }
    for nonce in [0, 255] {
        let mut scene = scene_of(random, OUTPUTS, 3);
        scene.nonces.fill(nonce);
        requests.push(scene.joint(random));
    }
    for wrong in [
        Wrong::Mask(1),
        Wrong::Triple(1),
        Wrong::Triple(5),
        Wrong::Pair(3),
    ] {
        let mut scene = scene_of(random, OUTPUTS, 3);
        runs::spoil(random, &mut scene, wrong);
        requests.push(scene.joint(random));
    }

    let scene = scene_of(random, OUTPUTS, 3);
    requests.extend(nonce_lengths(random, &scene));
    requests.extend(in_order(random, &scene));
    let scene = scene_of(random, OUTPUTS, 2);
    requests.extend(unasked(random, &scene));
    for parties in [2, 5, 8] {
        let scene = scene_of(random, SQUARE, parties);
        requests.extend(rooms(random, &scene, &[Entry::Open, Send, Receive]));
    }
    for circuit in [PRODUCT, SQUARE] {
        let scene = scene_of(random, circuit, 2);
        requests.extend(spoken(random, &scene));
        requests.extend(reveals_spoken(random, &scene));
    }
    let scene = scene_of(random, PRODUCT, 3);
    requests.extend(marks_heard(random, &scene));

    // Every part of a check, at the first and the second.
    for (circuit, parties, party) in [(PRODUCT, 2, 0), (SQUARE, 3, 2)] {
        let scene = scene_of(random, circuit, parties);
        let mut rounds = rounds_of(&scene, Round::is_reveal);
        rounds.truncate(4 - parties as usize);
        for round in rounds {
            requests.extend(reveal(random, &scene, party, round));
        }
    }
    let scene = scene_of(random, OUTPUT, 8);
    let last = Reveal::new(random, &scene, 5, scene.rounds.len() - 1);
    for altered in 0..8 {
        let three = random.below(2);
        requests.extend(
            last.one_part(random, altered)
                .into_iter()
                .skip(three)
                .step_by(3),
        );
    }

    let scene = scene_of(random, OUTPUT, 2);
    requests.extend(meddled(random, &scene, 1));
    requests.extend(runs::tampered(random, Kinds::Base.rounds(), 2, product));
    let rounds = [Round::Square].into_iter();
    requests.extend(runs::tampered(random, rounds, 2, square));
    requests
}

/// Turns of the rotation in the large set.
const TURNS: usize = 2;

pub(super) fn large(random: &mut Random) -> Vec<Request> {
    let mut requests = Vec::new();
    for parties in 2..=8 {
        let lines = random.between(KINDS.rich_lines(), 24);
        let scene = Scene::rich_of(random, KINDS, parties, lines);
        requests.extend(rooms(random, &scene, &Entry::ALL));
        let rounds = rounds_of(&scene, Round::is_reveal);
        let (round, party) = (random.pick(&rounds), scene.any_party(random));
        requests.extend(reveal(random, &scene, party, round));
        if [2, 5, 8].contains(&parties) {
            requests.extend(nonce_lengths(random, &scene));
            requests.extend(in_order(random, &scene));
            requests.extend(unasked(random, &scene));
            let party = scene.any_party(random);
            requests.extend(reveal(random, &scene, party, rounds[0]));
        }
    }
    for parties in [2, 5] {
        let scene = scene_of(random, OUTPUTS, parties);
        requests.extend(spoken(random, &scene));
        requests.extend(marks_heard(random, &scene));
        requests.extend(reveals_spoken(random, &scene));
    }
    for parties in [2, 4] {
        let scene = scene_of(random, SQUARE, parties);
        requests.extend(meddled(random, &scene, parties - 1));
    }
    // Any word of any round heard otherwise, as one party goes through the run.
    for _ in 0..16 {
        let (parties, lines) = (random.between(2, 8) as u32, random.between(4, 16));
        let circuit = random::circuit(random, KINDS, parties, lines);
        let scene = scene_of(random, &circuit, parties);
        let round = random.below(scene.rounds.len());
        let tamper = Tamper {
            round,
            word: random.below(parties as usize * scene.rounds[round].1.words()),
            by: random.nonzero(),
        };
        let party = scene.any_party(random);
        requests.extend(scene.whole_and_after(random, Some(party), Some(tamper)));
    }
    let size = Size {
        kinds: KINDS,
        max_lines: 60,
        max_parties: 8,
    };
    for turn in 0..TURNS {
        requests.extend(rotation::requests(random, turn, size));
    }
    requests.extend(longest(random));
    requests
}

/// The longest lists of nonces and words, and both sides of the questions about them.
fn longest(random: &mut Random) -> Vec<Request> {
    let mut requests = Vec::new();
    for kinds in [filled(OUT), longest_run(MUL, OUT), longest_run(SQ, OUT)] {
        for parties in [2, 3, 8] {
            let circuit = random::from_kinds(random, parties, &kinds);
            let mut scene = scene_of(random, &circuit, parties);
            scene.zeros = true;
            requests.push(scene.joint(random));
            let last = scene.rounds.len() - 1;
            let party = scene.any_party(random);
            requests.extend(scene.halves(random, party, &[1, 2, last - 1, last]));
            let wrong = match kinds[1] {
                MUL => Wrong::Triple(3),
                SQ => Wrong::Pair(1),
                _ => Wrong::Mask(1),
            };
            runs::spoil(random, &mut scene, wrong);
            requests.push(scene.joint(random));
        }
    }
    let circuit = random::from_kinds(random, 8, &longest_run(MUL, OUT));
    let mut scene = scene_of(random, &circuit, 8);
    scene.zeros = true;
    let base = scene.joint(random);
    let len = scene.shape.nonces();
    let boundary = Boundary::new(25, &base, len, &[len - 1, len + 1], |request, len| {
        nonces(request).resize(len, 1);
    });
    requests.extend(boundary.requests());
    let lists: [(u32, ListOf); 2] = [(12, scratch), (18, words)];
    for (number, list) in lists {
        let len = list(&mut base.clone()).len();
        let boundary = Boundary::new(number, &base, len, &[len - 1], |request, len| {
            list(request).truncate(len);
        });
        requests.extend(boundary.requests());
    }
    requests.push(Scene::rich_of(random, KINDS, 8, MAX_GATES).joint(random));
    requests
}
