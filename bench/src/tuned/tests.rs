//! The parts against the remainder operator and the readable implementation, and all entries on the largest sets of requests.

use reference::circuit::{self, MAX_GATES, OVER, TIMES};
use reference::commitment;
use reference::fit::Change;
use reference::random::{self, Kinds, Random};
use reference::requests::Set;
use reference::P;

use super::field::{self, all_elements, fold, inner_product, reduce, remainder};
use super::gates::Gates;
use super::inverses::{inverse, Inverses};
use super::sha256::{self, Schedule};
use crate::agreement::{self, rust_fit, tuned_fit};
use crate::answers::{self, FITS};
use crate::cases::Ranges;

const EDGES: [u32; 11] = [
    0,
    1,
    2,
    32768,
    46341,
    65536,
    1 << 30,
    P / 2,
    P / 2 + 1,
    P - 2,
    P - 1,
];

fn modulo(x: u64) -> u32 {
    (x % u64::from(P)) as u32
}

#[test]
fn arithmetic_is_that_of_the_remainder_operator() {
    let p = u64::from(P);
    for x in EDGES {
        for y in EDGES {
            let (wide_x, wide_y) = (u64::from(x), u64::from(y));
            assert_eq!(field::add(x, y), modulo(wide_x + wide_y));
            assert_eq!(field::sub(x, y), modulo(wide_x + p - wide_y));
            assert_eq!(field::times(x, 2 * y), modulo(wide_x * wide_y));
            assert!(fold(wide_x * wide_y + p - 1) < 1 << 32);
        }
    }
    for x in [
        0,
        p - 1,
        p,
        p + 1,
        2 * p,
        3 * (p - 1) * (p - 1) + p - 1,
        u64::MAX - 1,
        u64::MAX,
    ] {
        assert_eq!(reduce(x), modulo(x));
        assert_eq!(remainder(x >> 4), modulo(x >> 4));
    }
}

/// The largest sum that a product's MAC share is reduced from, where what is opened is folded but not reduced.
#[test]
fn three_products_and_an_element_do_not_overflow() {
    let most = u64::from(P - 1);
    let folded = EDGES.map(|x| EDGES.map(|y| fold(u64::from(x) * u64::from(y))));
    let folded = folded.as_flattened().iter().max().expect("a product");
    assert!((2 * most * most + most)
        .checked_add(most * *folded.max(&((1 << 32) - 5)))
        .is_some());
}

#[test]
fn inner_products_of_every_length() {
    for len in 0..40 {
        let list = vec![P - 1; len];
        assert_eq!(remainder(inner_product(&list, &list)), len as u32);
    }
    let list = [P - 1; 512];
    assert_eq!(remainder(inner_product(&list, &list)), 512);
}

#[test]
fn one_number_that_is_no_element_is_seen_in_every_place() {
    for len in 0..70 {
        let mut list = vec![P - 1; len];
        assert!(all_elements(&list));
        for place in 0..len {
            for other in [P, P + 1, u32::MAX] {
                list[place] = other;
                assert!(!all_elements(&list));
            }
            list[place] = P - 1;
        }
    }
}

#[test]
fn inverses_are_those_of_the_readable_implementation() {
    let random = &mut Random::new(6);
    let many = (0..20_000).map(|_| random.nonzero());
    let edges = EDGES.into_iter().filter(|&x| x > 0);
    for x in (1..1000).chain(edges).chain(P - 1000..P).chain(many) {
        assert_eq!(inverse(x), reference::field::inverse(x));
    }
}

/// Lists of over gates and others, of every length about the number that is found at once.
#[test]
fn inverses_are_found_in_order() {
    let random = &mut Random::new(7);
    for len in (1..140).chain([255, 256]) {
        for others in [1, 2, 5] {
            let lines: Vec<[u32; 4]> = (0..len)
                .map(|_| match random.once_in(others) {
                    true => [OVER, 0, 0, random.divisor()],
                    false => [TIMES, 0, 0, 0],
                })
                .collect();
            let mut inverses = Inverses::new();
            for (index, line) in lines.iter().enumerate() {
                if line[0] == OVER {
                    let found = inverses.next(lines[index..].iter());
                    assert_eq!(found, reference::field::inverse(line[3]));
                }
            }
        }
    }
}

/// Marks one after the other and side by side, of every number of parties.
#[test]
fn marks_are_those_of_the_readable_implementation() {
    let random = &mut Random::new(5);
    for parties in 2..=8 {
        for _ in 0..20 {
            let revealed: Vec<[u32; 9]> = (0..parties)
                .map(|_| std::array::from_fn(|_| random.number()))
                .collect();
            let mut marks = vec![[0; 8]; parties];
            sha256::marks(&mut Schedule::of(parties), &revealed, &mut marks);
            for (mark, revealed) in marks.iter().zip(&revealed) {
                assert_eq!(*mark, commitment::mark(revealed));
                assert_eq!(*mark, sha256::mark(revealed));
            }
        }
    }
}

#[test]
fn counts_are_those_of_the_readable_implementation() {
    let random = &mut Random::new(3);
    for len in 2..=MAX_GATES {
        let parties = random.between(2, 8) as u32;
        let circuit = random::circuit(random, Kinds::Overs, parties, len);
        let shape = circuit::shape(parties, &circuit).expect("an accepted circuit");
        let mut gates = Gates::new();
        gates.read(parties, &circuit).expect("an accepted circuit");
        let counts = gates.counts();
        assert_eq!(counts.inputs, shape.inputs);
        assert_eq!(counts.outputs, shape.outputs);
        assert_eq!(counts.gives, shape.gives);
        assert_eq!(counts.prep_len(), shape.prep_len());
        assert_eq!(counts.entries() + counts.outputs, shape.coefficients());
        assert_eq!(gates.checked_outputs(), shape.checked_outputs);
        for party in 0..parties {
            let index = random.below(len);
            let before = circuit::before(&circuit, party, index);
            let counts = gates.counts_before(index as u8);
            assert_eq!(gates.owned(party as u8), shape.owned[party as usize]);
            assert_eq!(gates.owned_before(party as u8, index), before.own_inputs);
            assert_eq!(counts.prep_len(), before.record);
            assert_eq!(gates.pending(index), before.pending);
        }
    }
}

/// One field of one gate altered, to every number that may matter.
#[test]
fn altered_circuits_are_refused_alike() {
    let random = &mut Random::new(4);
    for _ in 0..40 {
        let parties = random.between(2, 8) as u32;
        let len = random.pick(&[2, 3, 15, 16, 17, 31, 32, 33, 64, 255, 256]);
        let circuit = random::circuit(random, Kinds::Overs, parties, len);
        for _ in 0..200 {
            let mut altered = circuit.clone();
            let place = random.below(altered.len());
            let gate = (place / 4) as u32;
            let number = random.below(300) as u32;
            altered[place] = random.pick(&[
                0,
                1,
                2,
                3,
                4,
                5,
                6,
                7,
                8,
                9,
                10,
                11,
                16,
                255,
                256,
                257,
                gate,
                gate + 1,
                parties,
                number,
                P - 1,
                P,
                P + 1,
                u32::MAX,
                1 << 31,
                1 << 16,
            ]);
            let expected = circuit::shape(parties, &altered).map(|_| ());
            assert_eq!(
                Gates::new().read(parties, &altered),
                expected,
                "{altered:?}"
            );
        }
    }
}

#[test]
fn the_largest_sets_are_answered_alike() {
    let sets = [
        Set::Large,
        Set::Give,
        Set::GivesLarge,
        Set::Over,
        Set::OversLarge,
    ];
    for one in sets.into_iter().flat_map(|set| set.make(1)) {
        if let Some(answer) = agreement::tuned_answer(&one.request) {
            assert_eq!(answer, one.answer, "{:?}", one.request);
        }
    }
}

/// The largest sum that a move is capped from, and the least that a difference falls to.
#[test]
fn moves_do_not_overflow_and_what_falls_below_0_is_seen() {
    let most = u64::from(P - 1);
    assert!(2 * most * most < 1 << 63);
    assert!(0u64.wrapping_sub(most) > 1 << 63);
}

#[test]
fn ranges_are_answered_alike() {
    let compared = agreement::compare_fits(&[rust_fit, tuned_fit], &[1, 2]);
    assert!(compared > 10_000);
}

/// The answer of the entry written for speed, which must be that of the readable one, as must be the lists.
fn fits_alike(of: &Ranges, ranges: &[u32], change: Option<Change>) -> answers::Answer {
    // Room to spare, which stays as it was.
    let len = of.circuit.len();
    let (mut left, mut right) = ([vec![7; len], vec![9; len]], [vec![7; len], vec![9; len]]);
    let [intervals, moves] = &mut left;
    let answer = tuned_fit(of.parties, &of.circuit, ranges, change, intervals, moves);
    let [intervals, moves] = &mut right;
    let rust = rust_fit(of.parties, &of.circuit, ranges, change, intervals, moves);
    assert_eq!(answer, rust, "{:?} {ranges:?} {change:?}", of.circuit);
    assert_eq!(left, right, "{:?} {ranges:?} {change:?}", of.circuit);
    answer
}

/// What is timed, of every number of gates and so of every room on the stack: each input changed, by amounts up to and above the cap;
/// each end of a range altered, so that a gate leaves somewhere or that the ranges are refused.
#[test]
fn circuits_of_every_length_fit_alike() {
    let random = &mut Random::new(8);
    for gates in 5..=MAX_GATES {
        let parties = random.between(2, 8) as u32;
        let of = Ranges::new(parties, gates);
        assert_eq!(fits_alike(&of, &of.ranges, None)[0], FITS);
        for gate in 0..=gates as u32 {
            let amount = random.pick(&[0, 1, 5, 1000, P - 1, P, u32::MAX]);
            fits_alike(&of, &of.ranges, Some(Change { gate, amount }));
        }
        for place in 0..of.ranges.len() {
            let mut ranges = of.ranges.clone();
            ranges[place] = random.pick(&[0, 1, 50, 46341, P - 1, P, u32::MAX]);
            fits_alike(&of, &ranges, of.change);
        }
    }
}
