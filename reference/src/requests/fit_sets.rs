//! The named sets of requests to the tool of ranges: test vectors that are kept, and a larger set that is not.

use super::random_fit::{altered, random_fit, Width};
use super::{fit_boundaries, fit_edges, FitRequest};
use crate::circuit::MAX_GATES;
use crate::random::{self, Kinds, Random};

#[derive(Clone, Copy, Debug, PartialEq, Eq)]
pub enum FitSet {
    Kept,
    Large,
}

impl FitSet {
    pub const ALL: [FitSet; 2] = [FitSet::Kept, FitSet::Large];

    pub fn name(self) -> &'static str {
        match self {
            FitSet::Kept => "fit",
            FitSet::Large => "fits-large",
        }
    }

    pub fn about(self) -> &'static str {
        match self {
            FitSet::Kept => "ranges of inputs and what becomes of them; both sides of every question, intervals at the edges of the elements, moves at the cap, faults of the text",
            FitSet::Large => "ranges of inputs in circuits of up to 256 gates, grown so that they fit or that one gate leaves; every edge, every combination of what is refused",
        }
    }

    /// The same seed gives the same requests.
    pub fn make(self, seed: u64) -> Vec<FitRequest> {
        let mut random = Random::new(seed);
        match self {
            FitSet::Kept => kept(&mut random),
            FitSet::Large => large(&mut random),
        }
    }
}

/// How much of each list of cases there is.
#[derive(Clone, Copy, Debug, PartialEq, Eq)]
pub(super) enum Extent {
    /// The first of them, so that what is kept stays short.
    Kept,
    All,
}

impl Extent {
    pub(super) fn of<T>(self, cases: &[T], first: usize) -> &[T] {
        match self {
            Extent::Kept => &cases[..first],
            Extent::All => cases,
        }
    }
}

/// The questions in turn, and the edges of intervals and moves.
fn in_turn(extent: Extent) -> Vec<FitRequest> {
    let mut requests = fit_boundaries::circuits(extent);
    requests.extend(fit_boundaries::ranges(extent));
    requests.extend(fit_boundaries::changes_and_lists(extent));
    requests.extend(fit_edges::intervals(extent));
    requests.extend(fit_edges::leaving());
    requests.extend(fit_edges::moves(extent));
    requests
}

fn kept(random: &mut Random) -> Vec<FitRequest> {
    let mut requests = fit_edges::worked();
    requests.extend(in_turn(Extent::Kept));
    requests.extend(fit_boundaries::turns());
    for turn in 0..12 {
        let lines = random.between(4, 12);
        let parties = random.between(2, 8) as u32;
        let width = Width::ALL[turn % 4];
        requests.push(random_fit(random, parties, width, lines, turn / 10));
    }
    requests.extend(fit_boundaries::faults());
    requests
}

/// Requests of the large set on random circuits.
const RANDOM: usize = 4000;

fn large(random: &mut Random) -> Vec<FitRequest> {
    let mut requests = in_turn(Extent::All);
    requests.extend(fit_boundaries::all_turns());
    requests.extend(fit_edges::all_pairs());
    requests.extend(fit_boundaries::long_changes());
    for turn in 0..RANDOM {
        let lines = match random.below(40) {
            0 => MAX_GATES,
            1 | 2 => random.between(60, MAX_GATES),
            3..=14 => random.between(16, 60),
            _ => random.between(2, 16),
        };
        let parties = random.between(2, 8) as u32;
        // Wide ranges soon have nowhere to go, so long circuits have narrow ones.
        let width = match turn % 8 {
            0..=2 => Width::Bits,
            3..=5 => Width::Small,
            6 => Width::Roots,
            _ => Width::Any,
        };
        let leaving = match random.below(4) {
            0 => 1,
            1 if random.once_in(3) => 2,
            _ => 0,
        };
        let request = if random.once_in(12) {
            // Gates of any kind, which hardly ever fit.
            let circuit = random::circuit(random, Kinds::Overs, parties, lines);
            let inputs = circuit.chunks_exact(4).filter(|line| line[0] == 1).count();
            let ranges: Vec<u32> = (0..inputs)
                .flat_map(|_| [0, random.below(2) as u32])
                .collect();
            FitRequest::new(parties, &circuit, &ranges, Some((0, 1)))
        } else {
            random_fit(random, parties, width, lines, leaving)
        };
        if random.once_in(3) {
            let mut other = altered(random, &request);
            if random.once_in(3) {
                other = altered(random, &other);
            }
            requests.push(other);
        }
        requests.push(request);
    }
    requests
}
