//! The tool of ranges: the worked examples, both sides of each question, the edges of intervals and moves, what is written and what is
//! not, whole-number values for all inputs of small circuits, and what the sets of requests about it cover.

use std::collections::{BTreeMap, BTreeSet};

use reference::circuit::{self, Gate, ADD, GIVE, IN, MUL, OUT, OVER, PLUS, SQ, SUB, TIMES};
use reference::docket;
use reference::fit::{fit, Change, Fit};
use reference::plain;
use reference::random::{self, Kinds, Random};
use reference::requests::{FitRequest, FitSet};
use reference::{text, Refusal, P};

/// The seed of the vectors that are kept, and of the larger set in the gate.
const SEED: u64 = 1;

const LARGEST: u32 = P - 1;

/// What the lists to be written hold before.
const BEFORE: u32 = 77;

/// A call on lists of some lengths. Whatever is not a fit has written nothing, a fit nothing beyond what is due.
fn call(
    parties: u32,
    circuit: &[u32],
    ranges: &[u32],
    change: Option<(u32, u32)>,
    lengths: (usize, usize),
) -> (Result<Fit, Refusal>, Vec<u32>, Vec<u32>) {
    let change = change.map(|(gate, amount)| Change { gate, amount });
    let (mut intervals, mut moves) = (vec![BEFORE; lengths.0], vec![BEFORE; lengths.1]);
    let result = fit(parties, circuit, ranges, change, &mut intervals, &mut moves);
    let (mut of_intervals, mut of_moves) = (0, 0);
    if result == Ok(Fit::Fits) {
        of_intervals = circuit.len() / 2;
        of_moves = change.map_or(0, |_| outputs(circuit).len());
    }
    let untouched = intervals[of_intervals..].iter().chain(&moves[of_moves..]);
    assert!(untouched.copied().all(|number| number == BEFORE));
    intervals.truncate(of_intervals);
    moves.truncate(of_moves);
    (result, intervals, moves)
}

/// A call on lists that are long enough.
fn asked(
    circuit: &[u32],
    ranges: &[u32],
    change: Option<(u32, u32)>,
) -> (Result<Fit, Refusal>, Vec<u32>, Vec<u32>) {
    let lengths = (circuit.len() / 2 + 3, circuit.len() / 4 + 2);
    call(2, circuit, ranges, change, lengths)
}

/// The gates that outputs name.
fn outputs(circuit: &[u32]) -> Vec<usize> {
    circuit::gates(circuit)
        .filter_map(|gate| match gate {
            Gate::Output { wire } | Gate::Give { wire, .. } => Some(wire),
            _ => None,
        })
        .collect()
}

fn assert_fits(
    circuit: &[u32],
    ranges: &[u32],
    change: Option<(u32, u32)>,
    intervals: &[u32],
    moves: &[u32],
) {
    let found = asked(circuit, ranges, change);
    assert_eq!(
        found,
        (Ok(Fit::Fits), intervals.to_vec(), moves.to_vec()),
        "{circuit:?} {ranges:?} {change:?}"
    );
}

fn assert_leaves(circuit: &[u32], ranges: &[u32], gate: usize) {
    for change in [None, Some((0, 1))] {
        let (result, ..) = asked(circuit, ranges, change);
        assert_eq!(result, Ok(Fit::Leaves { gate }), "{circuit:?} {ranges:?}");
    }
}

fn refusal(number: u32, index: usize) -> Result<Fit, Refusal> {
    Err(Refusal { number, index })
}

/// An input, and a gate of it that is given out.
fn of_one(kind: u32, constant: u32) -> [u32; 12] {
    [IN, 0, 0, 0, kind, 0, 0, constant, OUT, 1, 0, 0]
}

/// Two inputs, and a gate of them that is given out.
fn of_two(kind: u32) -> [u32; 16] {
    [IN, 0, 0, 0, IN, 1, 0, 0, kind, 0, 1, 0, OUT, 2, 0, 0]
}

#[rustfmt::skip]
const LONGER: [u32; 32] = [
    1, 0, 0, 0,
    1, 1, 0, 0,
    4, 0, 0, 7,
    3, 2, 1, 0,
    8, 3, 0, 0,
    5, 4, 0, 3,
    9, 4, 1, 0,
    7, 5, 0, 0,
];

#[test]
fn the_worked_examples() {
    let docket = &docket::CIRCUIT;
    let intervals = [0, 100, 0, 1000, 0, 100_000, 0, 0];
    assert_fits(
        docket,
        &[0, 100, 0, 1000],
        Some((0, 5)),
        &intervals,
        &[5000],
    );
    assert_fits(docket, &[0, 100, 0, 1000], None, &intervals, &[]);
    assert_leaves(docket, &[0, 46_341, 0, 46_341], 2);
    let edge = [0, 46_340, 0, 46_340, 0, 46_340 * 46_340, 0, 0];
    assert_fits(docket, &[0, 46_340, 0, 46_340], None, &edge, &[]);
    assert_fits(
        &LONGER,
        &[10, 20, 0, 5],
        Some((1, 2)),
        &[
            10, 20, 0, 5, 17, 27, 12, 27, 144, 729, 432, 2187, 0, 0, 0, 0,
        ],
        &[108, 324],
    );
}

#[test]
fn every_kind_at_its_edges() {
    const HALF: u32 = P / 2;
    // The kind, both ranges, and the interval; none where it leaves.
    for (kind, ranges, interval) in [
        (ADD, [1, HALF, 2, HALF], Some([3, LARGEST])),
        (ADD, [1, HALF, 2, HALF + 1], None),
        (SUB, [5, 9, 2, 5], Some([0, 7])),
        (SUB, [5, 9, 2, 6], None),
        (SUB, [LARGEST, LARGEST, 0, LARGEST], Some([0, LARGEST])),
        (MUL, [3, 46_340, 2, 46_341], Some([6, 2_147_441_940])),
        (MUL, [0, 46_341, 0, 46_341], None),
        (MUL, [1, 1, 0, LARGEST], Some([0, LARGEST])),
        (MUL, [0, 2, 0, LARGEST], None),
        (MUL, [0, 2, 0, HALF], Some([0, LARGEST])),
        (MUL, [0, 2, 0, HALF + 1], None),
        (MUL, [0, 0, 0, LARGEST], Some([0, 0])),
    ] {
        match interval {
            Some(found) => {
                let intervals = [&ranges[..], &found, &[0, 0]].concat();
                assert_fits(&of_two(kind), &ranges, None, &intervals, &[]);
            }
            None => assert_leaves(&of_two(kind), &ranges, 2),
        }
    }
    for (kind, constant, range, interval) in [
        (PLUS, LARGEST, [0, 0], Some([LARGEST, LARGEST])),
        (PLUS, LARGEST, [0, 1], None),
        (PLUS, 1, [3, LARGEST - 1], Some([4, LARGEST])),
        (PLUS, 1, [3, LARGEST], None),
        (TIMES, 0, [5, LARGEST], Some([0, 0])),
        (TIMES, LARGEST, [0, 1], Some([0, LARGEST])),
        (TIMES, LARGEST, [0, 2], None),
        (TIMES, 2, [7, HALF], Some([14, LARGEST])),
        (TIMES, 2, [7, HALF + 1], None),
        (SQ, 0, [3, 46_340], Some([9, 2_147_395_600])),
        (SQ, 0, [3, 46_341], None),
        // A gate with itself.
        (SUB, 0, [7, 7], Some([0, 0])),
        (SUB, 0, [7, 8], None),
        (ADD, 0, [7, HALF], Some([14, LARGEST])),
        (MUL, 0, [3, 46_340], Some([9, 2_147_395_600])),
        (MUL, 0, [3, 46_341], None),
        (OVER, 1, [0, 0], None),
        (OVER, LARGEST, [2, 4], None),
    ] {
        match interval {
            Some(found) => {
                let intervals = [&range[..], &found, &[0, 0]].concat();
                assert_fits(&of_one(kind, constant), &range, None, &intervals, &[]);
            }
            None => assert_leaves(&of_one(kind, constant), &range, 1),
        }
    }
}

/// The first in line order, whichever it is, and whether or not an output needs it.
#[test]
fn the_first_gate_is_named() {
    let (over, leaves, fits) = ([OVER, 0, 0, 1], [PLUS, 0, 0, LARGEST], [PLUS, 0, 0, 1]);
    for (first, second, named) in [
        (over, fits, 1),
        (fits, over, 2),
        (over, leaves, 1),
        (leaves, over, 1),
        (fits, leaves, 2),
        (leaves, leaves, 1),
    ] {
        for output in [OUT, GIVE] {
            let circuit = [[IN, 0, 0, 0], first, second, [output, 0, 0, 0]].concat();
            assert_leaves(&circuit, &[1, 2], named);
        }
    }
    // After an output too.
    let circuit = [[IN, 0, 0, 0], [OUT, 0, 0, 0], over, [OUT, 0, 0, 0]].concat();
    assert_leaves(&circuit, &[1, 2], 2);
}

#[test]
fn moves_at_the_cap() {
    let alone = [IN, 0, 0, 0, OUT, 0, 0, 0];
    // Not cut to the range's width, and capped at p - 1.
    for (amount, moved) in [
        (0, 0),
        (5, 5),
        (LARGEST, LARGEST),
        (P, LARGEST),
        (u32::MAX, LARGEST),
    ] {
        assert_fits(&alone, &[3, 3], Some((0, amount)), &[3, 3, 0, 0], &[moved]);
    }
    const HALF: u32 = P / 2;
    for (kind, constant, range, amount, moved) in [
        (TIMES, 2, [0, 1], HALF, LARGEST),
        (TIMES, 2, [0, 1], HALF + 1, LARGEST),
        (TIMES, 2, [0, 1], HALF - 1, LARGEST - 2),
        (TIMES, 0, [0, 1], u32::MAX, 0),
        (TIMES, LARGEST, [0, 1], u32::MAX, LARGEST),
        (PLUS, 9, [0, 1], 4, 4),
        (ADD, 0, [0, 1], 4, 8),
        (SUB, 0, [6, 6], 4, 8),
        (SQ, 0, [0, 5], 4, 40),
        (MUL, 0, [0, 5], 4, 40),
        (SQ, 0, [0, 46_340], 23_171, 2_147_488_280u32.min(LARGEST)),
        (SQ, 0, [0, 46_340], 23_170, 2_147_395_600),
        (SQ, 0, [0, 0], u32::MAX, 0),
    ] {
        let (result, _, moves) = asked(&of_one(kind, constant), &range, Some((0, amount)));
        assert_eq!(
            (result, moves),
            (Ok(Fit::Fits), vec![moved]),
            "{kind} {amount}"
        );
    }
    // The cap, and then times 0.
    let circuit = [
        IN, 0, 0, 0, TIMES, 0, 0, 2, TIMES, 1, 0, 0, OUT, 2, 0, 0, GIVE, 1, 1, 0,
    ];
    let (_, _, moves) = asked(&circuit, &[0, 1], Some((0, u32::MAX)));
    assert_eq!(moves, [0, LARGEST]);
    // Each input's own change, and an output that does not need it.
    let circuit = [
        IN, 0, 0, 0, IN, 1, 0, 0, MUL, 0, 1, 0, OUT, 2, 0, 0, GIVE, 0, 1, 0,
    ];
    for (gate, moves) in [(0, [7 * 2, 2]), (1, [5 * 2, 0])] {
        let (_, _, found) = asked(&circuit, &[0, 5, 0, 7], Some((gate, 2)));
        assert_eq!(found, moves);
    }
}

/// Both sides of every question that is the tool's own.
#[test]
fn the_questions_about_ranges_change_and_lists() {
    let docket = &docket::CIRCUIT;
    let answer = |ranges: &[u32], change, lengths| call(2, docket, ranges, change, lengths).0;
    let of = |ranges: &[u32]| answer(ranges, Some((0, 1)), (8, 1));
    for ranges in [
        [0, 3, 1, 2],
        [3, 3, 2, 2],
        [0, LARGEST, 1, 1],
        [0, 1, LARGEST, LARGEST],
    ] {
        assert_eq!(of(&ranges), Ok(Fit::Fits), "{ranges:?}");
    }
    for ranges in [
        &[][..],
        &[0],
        &[0, 3],
        &[0, 3, 1],
        &[0, 3, 1, 2, 4],
        &[0, 3, 1, 2, 0, 3, 1, 2],
        &[4, 3, 1, 2],
        &[0, 3, 2, 1],
        &[0, P, 1, 1],
        &[P, P, 1, 1],
        &[0, 3, 1, P],
        &[0, 3, u32::MAX, u32::MAX],
        &[0, 3, u32::MAX, 0],
    ] {
        assert_eq!(of(ranges), refusal(26, 0), "{ranges:?}");
    }

    let ranges = [0, 3, 1, 2];
    for gate in [0, 1] {
        assert_eq!(answer(&ranges, Some((gate, 1)), (8, 1)), Ok(Fit::Fits));
    }
    for gate in [2, 3, 4, 5, u32::MAX] {
        let found = answer(&ranges, Some((gate, 1)), (8, 1));
        assert_eq!(found, refusal(27, 0), "{gate}");
    }
    // An in gate that is not the first, after an output.
    let late = [IN, 1, 0, 0, GIVE, 0, 0, 0, IN, 0, 0, 0, OUT, 2, 0, 0];
    for (gate, found) in [
        (0, Ok(Fit::Fits)),
        (1, refusal(27, 0)),
        (2, Ok(Fit::Fits)),
        (3, refusal(27, 0)),
    ] {
        let change = Some((gate, 1));
        assert_eq!(call(2, &late, &ranges, change, (8, 2)).0, found, "{gate}");
    }

    for (change, lengths, found) in [
        (None, (8, 0), Ok(Fit::Fits)),
        (None, (8, 9), Ok(Fit::Fits)),
        (None, (7, 9), refusal(18, 0)),
        (None, (0, 0), refusal(18, 0)),
        (Some((0, 1)), (8, 1), Ok(Fit::Fits)),
        (Some((0, 1)), (9, 2), Ok(Fit::Fits)),
        (Some((0, 1)), (7, 1), refusal(18, 0)),
        (Some((0, 1)), (8, 0), refusal(18, 0)),
    ] {
        assert_eq!(answer(&ranges, change, lengths), found, "{lengths:?}");
        // The same where a gate leaves: the lists are asked first.
        let leaving = answer(&[0, LARGEST, 1, 2], change, lengths);
        let wanted = found.map(|_| Fit::Leaves { gate: 2 });
        assert_eq!(leaving, wanted, "{lengths:?}");
    }
}

/// Questions 1 and 3 to 7 come first and are the circuit's own.
#[test]
fn the_questions_about_the_circuit_come_first() {
    for (parties, circuit, found) in [
        (1, &docket::CIRCUIT[..], refusal(1, 0)),
        (9, &docket::CIRCUIT, refusal(1, 0)),
        (2, &docket::CIRCUIT[..15], refusal(3, 0)),
        (2, &[IN, 0, 0, 0], refusal(3, 0)),
        (2, &[OUT, 0, 0, 0].repeat(257), refusal(3, 0)),
        (2, &[IN, 0, 0, 0, 11, 0, 0, 0], refusal(4, 1)),
        (2, &[IN, 2, 0, 0, OUT, 0, 0, 0], refusal(5, 0)),
        (2, &[IN, 0, 0, 0, OUT, 1, 0, 0], refusal(5, 1)),
        (2, &[IN, 0, 0, 0, OVER, 0, 0, 0], refusal(6, 1)),
        (2, &[IN, 0, 0, 0, PLUS, 0, 0, P], refusal(6, 1)),
        (2, &[IN, 0, 0, 0, PLUS, 0, 0, 1], refusal(7, 0)),
    ] {
        // Beside ranges, a change and lists that would be refused too.
        for (ranges, change, lengths) in [
            (&[0, 3, 1, 2][..], None, (600, 600)),
            (&[3, 0, 0, P], Some((99, 1)), (0, 0)),
        ] {
            let result = call(parties, circuit, ranges, change, lengths).0;
            assert_eq!(result, found, "{circuit:?}");
        }
    }
    // 26, 27 and 18 in turn, and then the gate that leaves.
    let circuit = [IN, 0, 0, 0, PLUS, 0, 0, LARGEST, OUT, 1, 0, 0];
    for (ranges, gate, len, found) in [
        ([5, 1], 1, 0, refusal(26, 0)),
        ([1, 5], 1, 0, refusal(27, 0)),
        ([1, 5], 0, 0, refusal(18, 0)),
        ([1, 5], 0, 6, Ok(Fit::Leaves { gate: 1 })),
    ] {
        let result = call(2, &circuit, &ranges, Some((gate, 1)), (len, 1)).0;
        assert_eq!(result, found);
    }
}

/// The value of each gate in whole numbers, of inputs in the order of the in gates; 0 where there is none.
fn whole(circuit: &[u32], inputs: &[u32]) -> Vec<i128> {
    let mut inputs = inputs.iter();
    let mut values: Vec<i128> = Vec::new();
    for line in circuit.chunks_exact(4) {
        let value = |name: u32| values[name as usize];
        let constant = i128::from(line[3]);
        values.push(match line[0] {
            IN => i128::from(*inputs.next().unwrap()),
            ADD => value(line[1]) + value(line[2]),
            SUB => value(line[1]) - value(line[2]),
            PLUS => value(line[1]) + constant,
            TIMES => value(line[1]) * constant,
            MUL => value(line[1]) * value(line[2]),
            SQ => value(line[1]) * value(line[1]),
            _ => 0,
        });
    }
    values
}

/// Every choice of one number from each range.
fn all_inputs(ranges: &[u32]) -> Vec<Vec<u32>> {
    let mut all = vec![Vec::new()];
    for range in ranges.chunks_exact(2) {
        let longer = |one: &Vec<u32>, last: u32| [&one[..], &[last]].concat();
        all = all
            .iter()
            .flat_map(|one| (range[0]..=range[1]).map(move |last| longer(one, last)))
            .collect();
    }
    all
}

/// The same inputs joined in party order.
fn by_party(circuit: &[u32], inputs: &[u32]) -> Vec<u32> {
    let owners = circuit.chunks_exact(4).filter(|line| line[0] == IN);
    let mut owned: Vec<(u32, u32)> = owners
        .map(|line| line[1])
        .zip(inputs.iter().copied())
        .collect();
    owned.sort_by_key(|&(owner, _)| owner);
    owned.into_iter().map(|(_, input)| input).collect()
}

/// What the tool promises, of all inputs in range: values within the intervals, equal to those modulo p, and scores that move by at
/// most the moves. True if the circuit fits.
fn keeps_its_promise(circuit: &[u32], ranges: &[u32], gate: u32, amount: u32) -> bool {
    let (result, intervals, moves) = asked(circuit, ranges, Some((gate, amount)));
    let all = all_inputs(ranges);
    let values: Vec<Vec<i128>> = all.iter().map(|one| whole(circuit, one)).collect();
    match result.unwrap() {
        Fit::Leaves { gate } => {
            // All before it fits: the same circuit with an out gate of gate 0 in its place.
            let cut = [&circuit[..4 * gate], &[OUT, 0, 0, 0]].concat();
            let inputs = cut.chunks_exact(4).filter(|line| line[0] == IN).count();
            let (result, ..) = asked(&cut, &ranges[..2 * inputs], None);
            assert_eq!(result, Ok(Fit::Fits));
            return false;
        }
        Fit::Fits => {}
    }
    let place = circuit[..4 * gate as usize].chunks_exact(4);
    let place = place.filter(|line| line[0] == IN).count();
    for (inputs, values) in all.iter().zip(&values) {
        let modular = plain::values(2, circuit, &by_party(circuit, inputs)).unwrap();
        for (index, &value) in values.iter().enumerate() {
            let (low, high) = (intervals[2 * index], intervals[2 * index + 1]);
            assert!(i128::from(low) <= value && value <= i128::from(high));
            match modular[index] {
                Some(modular) => assert_eq!(i128::from(modular), value),
                None => assert_eq!((low, high), (0, 0)),
            }
        }
    }
    for (one, of_one) in all.iter().zip(&values) {
        for (other, of_other) in all.iter().zip(&values) {
            let mut places = (0..one.len()).filter(|&index| one[index] != other[index]);
            let alone = places.all(|index| index == place);
            if !alone || one[place].abs_diff(other[place]) > amount {
                continue;
            }
            for (&wire, &moved) in outputs(circuit).iter().zip(&moves) {
                let distance = of_one[wire].abs_diff(of_other[wire]);
                assert!(distance <= u128::from(moved), "{circuit:?} {ranges:?}");
            }
        }
    }
    true
}

/// Random circuits of few inputs and narrow ranges, all inputs of which are worked out.
#[test]
fn whole_numbers_for_all_inputs() {
    let mut random = Random::new(7);
    let (mut fits, mut leaves) = (0, 0);
    let mut kinds = BTreeSet::new();
    for turn in 0..6000 {
        let inputs = random.between(1, 3);
        let lines = inputs + random.between(1, 7);
        let mut of: Vec<u32> = vec![IN; inputs];
        // Sums and products that grow slowly, and now and then any kind.
        let any = [ADD, SUB, SUB, PLUS, TIMES, MUL, MUL, SQ, OUT, GIVE];
        of.extend((inputs + 1..lines).map(|_| random.pick(&any)));
        of.push(random.pick(&[OUT, GIVE]));
        let mut circuit = random::from_kinds(&mut random, 2, &of);
        for line in circuit.chunks_exact_mut(4) {
            if [PLUS, TIMES].contains(&line[0]) && !random.once_in(8) {
                line[3] %= 20;
            }
        }
        if turn % 50 == 0 {
            circuit = random::circuit(&mut random, Kinds::Overs, 2, 4);
        }
        let inputs = circuit.chunks_exact(4).filter(|line| line[0] == IN).count();
        let ranges: Vec<u32> = (0..inputs)
            .flat_map(|_| {
                let low = match random.below(6) {
                    0 => LARGEST - 3,
                    1 => 46_339,
                    2 => random.element() % 1000,
                    _ => random.below(6) as u32,
                };
                [low, low + random.below(4) as u32]
            })
            .collect();
        let gates: Vec<u32> = (0..circuit.len() as u32 / 4)
            .filter(|&gate| circuit[4 * gate as usize] == IN)
            .collect();
        let gate = random.pick(&gates);
        let amount = random.below(5) as u32;
        if keeps_its_promise(&circuit, &ranges, gate, amount) {
            fits += 1;
            kinds.extend(circuit.chunks_exact(4).map(|line| line[0]));
        } else {
            leaves += 1;
        }
    }
    assert!(fits > 1500 && leaves > 1500, "{fits} {leaves}");
    assert_eq!(kinds, (1..=9).collect());
}

/// An interval and a move are reached where each input is used once: the rules give away nothing there.
#[test]
fn the_ends_are_reached() {
    for (circuit, ranges) in [
        (of_two(ADD).to_vec(), [1, 4, 2, 5]),
        (of_two(SUB).to_vec(), [7, 10, 2, 5]),
        (of_two(MUL).to_vec(), [1, 4, 2, 5]),
    ] {
        let (_, intervals, moves) = asked(&circuit, &ranges, Some((0, 3)));
        let values: Vec<i128> = all_inputs(&ranges)
            .iter()
            .map(|inputs| whole(&circuit, inputs)[2])
            .collect();
        let ends = [*values.iter().min().unwrap(), *values.iter().max().unwrap()];
        assert_eq!(ends.map(|end| end as u32), intervals[4..6]);
        let reached = [0, 1].map(|end| {
            let inputs = [ranges[0] + 3 * end, ranges[3]];
            whole(&circuit, &inputs)[2]
        });
        assert_eq!(reached[0].abs_diff(reached[1]), u128::from(moves[0]));
    }
}

/// Lists of any numbers are refused or answered, and never panic.
#[test]
fn garbage_never_panics() {
    let mut random = Random::new(12);
    let any = |random: &mut Random| match random.below(4) {
        0 => random.below(12) as u32,
        1 => random.pick(&[P - 1, P, u32::MAX]),
        _ => random.number(),
    };
    for turn in 0..30_000 {
        let parties = any(&mut random);
        let list = |random: &mut Random, most| -> Vec<u32> {
            (0..random.below(most)).map(|_| any(random)).collect()
        };
        let (circuit, parties) = if turn % 3 == 0 {
            (list(&mut random, 30), parties)
        } else {
            let lines = random.between(2, 12);
            (random::circuit(&mut random, Kinds::Overs, 2, lines), 2)
        };
        let ranges = if turn % 3 == 1 {
            list(&mut random, 8)
        } else {
            let inputs = circuit.chunks(4).filter(|line| line[0] == IN).count();
            [0, random.element()].repeat(inputs)
        };
        let change = (!random.once_in(3)).then(|| (random.below(6) as u32, any(&mut random)));
        let lengths = (random.below(30), random.below(4));
        let _ = call(parties, &circuit, &ranges, change, lengths);
    }
}

/// How often each first line is answered: its first word, with the number of a refusal or the message of a fault.
fn counted(requests: &[FitRequest]) -> BTreeMap<String, usize> {
    let mut counts = BTreeMap::new();
    for request in requests {
        let answer = request.answer(0);
        let first = answer.lines().next().unwrap();
        let mut words = first.split(' ');
        let answer = match (words.next(), words.next()) {
            (Some("refusal"), Some(number)) => format!("refusal {number}"),
            (Some("line"), _) => first.split_once(": ").unwrap().1.to_string(),
            (word, _) => word.unwrap().to_string(),
        };
        *counts.entry(answer).or_default() += 1;
    }
    counts
}

const REFUSALS: [u32; 9] = [1, 3, 4, 5, 6, 7, 18, 26, 27];

/// What both sets must have, whatever else they have.
fn assert_covered(requests: &[FitRequest]) {
    let mut fitting = BTreeSet::new();
    let mut left = BTreeSet::new();
    let mut moves: BTreeSet<u32> = BTreeSet::new();
    let mut lists = BTreeSet::new();
    let mut given = BTreeSet::new();
    for request in requests {
        let FitRequest::Fit {
            parties,
            circuit,
            change,
            intervals,
            moves: second,
            ..
        } = request
        else {
            continue;
        };
        let answered = request.answered().unwrap();
        let Ok(shape) = circuit::shape(*parties, circuit) else {
            continue;
        };
        match answered.result {
            Ok(Fit::Fits) => {
                fitting.extend(circuit.chunks_exact(4).map(|line| line[0]));
                let room = intervals.len().min(2 * shape.gates + 1) - 2 * shape.gates;
                let other = match change {
                    Some(_) => second.len().min(shape.outputs + 1) - shape.outputs,
                    None => second.len().min(1),
                };
                lists.insert((change.is_some(), room, other));
                if let Some(change) = change {
                    moves.extend(&answered.moves[..shape.outputs]);
                    given.insert(change.gate);
                }
            }
            Ok(Fit::Leaves { gate }) => {
                left.insert(circuit[4 * gate]);
            }
            Err(Refusal { number: 18, .. }) => {
                // It would fit, or a gate would leave; which list is short.
                let long = request.clone().with_lists(2 * shape.gates, shape.outputs);
                let fits = long.answered().unwrap().result == Ok(Fit::Fits);
                let short = intervals.len() < 2 * shape.gates;
                lists.insert((change.is_some(), 10 + usize::from(short), usize::from(fits)));
            }
            Err(_) => {}
        }
    }
    assert_eq!(fitting, (1..=9).collect());
    assert_eq!(left, [ADD, SUB, PLUS, TIMES, MUL, SQ, OVER].into());
    for moved in [0, 1, LARGEST] {
        assert!(moves.contains(&moved), "{moved}");
    }
    assert!(moves.len() > 20, "{moves:?}");
    assert!(given.len() > 3, "{given:?}");
    // Fits with lists just long enough and longer; 18 by the one list and by the other, where it would fit and where not.
    for wanted in [
        (false, 0, 0),
        (false, 0, 1),
        (true, 0, 0),
        (true, 1, 1),
        (true, 10, 0),
        (true, 10, 1),
        (true, 11, 0),
        (true, 11, 1),
        (false, 11, 0),
        (false, 11, 1),
    ] {
        assert!(lists.contains(&wanted), "{wanted:?}");
    }
}

#[test]
fn the_kept_set_has_every_answer_and_stays_short() {
    let kept = FitSet::Kept.make(SEED);
    let counts = counted(&kept);
    let mut wanted: BTreeSet<String> = REFUSALS.map(|number| format!("refusal {number}")).into();
    let faults = [
        "a gate and an amount are wanted, or nothing",
        "not a number",
        "a number above 4294967295",
        "one number is wanted",
        "nothing may follow the name of an entry",
        "the name of an entry is wanted",
        "parties is wanted",
        "circuit is wanted",
        "ranges is wanted",
        "change is wanted",
        "intervals is wanted",
        "moves is wanted",
        "text is wanted",
    ];
    wanted.extend(faults.map(String::from));
    wanted.extend(["fits", "leaves"].map(String::from));
    // Exactly these: the tool refuses with no number that it does not ask.
    let found: BTreeSet<String> = counts.keys().cloned().collect();
    assert_eq!(found, wanted);
    assert!(counts["fits"] > 100 && counts["leaves"] > 25, "{counts:?}");
    assert_covered(&kept);
    let (requests, answers) = text::fits(FitSet::Kept, SEED);
    assert!(requests.len() + answers.len() < 40_000);
}

/// Calls that differ in nothing but what the question is about, one let pass and one refused by the number.
#[test]
fn the_kept_set_has_both_sides_of_every_question() {
    let kept = FitSet::Kept.make(SEED);
    let numbered = |request: &FitRequest| {
        let answered = request.answered()?;
        Some(answered.result.err().map_or(0, |refusal| refusal.number))
    };
    let words = |request: &FitRequest| -> Vec<Vec<String>> {
        let text = request.request();
        let lines = text
            .lines()
            .map(|line| line.split(' ').map(String::from).collect());
        lines.collect()
    };
    let mut found = BTreeSet::new();
    for (one, after) in kept.iter().zip(1..) {
        for other in kept.iter().skip(after).take(12) {
            let (Some(passed), Some(refused)) = (numbered(one), numbered(other)) else {
                continue;
            };
            let (left, right) = (words(one), words(other));
            let lines = (1..left.len()).filter(|&line| left[line] != right[line]);
            // What is refused early may have short lists.
            let lines: Vec<usize> = match refused.max(passed) {
                1..=7 => lines.filter(|&line| line < 5).collect(),
                _ => lines.collect(),
            };
            if lines.len() == 1 && (passed == 0) != (refused == 0) {
                found.insert(passed.max(refused));
            }
        }
    }
    assert_eq!(found, REFUSALS.into());
}

#[test]
fn the_large_set_has_deep_products_large_moves_and_every_turn() {
    let large = FitSet::Large.make(SEED);
    assert!(large.len() > 5000);
    let counts = counted(&large);
    for number in REFUSALS {
        assert!(counts[&format!("refusal {number}")] > 20, "{counts:?}");
    }
    assert_covered(&large);

    let (mut changed, mut capped, mut deep, mut largest) = (0, 0, 0, BTreeMap::new());
    let mut moves: BTreeSet<u32> = BTreeSet::new();
    let mut changes = BTreeSet::new();
    for request in &large {
        let (
            FitRequest::Fit {
                circuit,
                change,
                parties,
                ..
            },
            Some(answered),
        ) = (request, request.answered())
        else {
            continue;
        };
        let Ok(result) = answered.result else {
            continue;
        };
        let gates = circuit.len() / 4;
        if gates == 256 {
            *largest.entry(result == Fit::Fits).or_insert(0) += 1;
        }
        if result != Fit::Fits {
            continue;
        }
        // How many products one on the other lead to an output that is not always 0.
        let mut depths: Vec<usize> = Vec::new();
        for (index, line) in circuit.chunks_exact(4).enumerate() {
            let of = |name: u32| depths[name as usize];
            let nonzero = usize::from(answered.intervals[2 * index + 1] > 0);
            depths.push(match line[0] {
                IN => 0,
                MUL => nonzero * (1 + of(line[1]).max(of(line[2]))),
                SQ => nonzero * (1 + of(line[1])),
                ADD | SUB => of(line[1]).max(of(line[2])),
                _ => of(line[1]),
            });
        }
        let outputs = outputs(circuit);
        deep += usize::from(outputs.iter().any(|&wire| depths[wire] >= 5));
        if let Some(change) = change {
            changed += 1;
            let found = &answered.moves[..outputs.len()];
            capped += usize::from(found.contains(&LARGEST));
            moves.extend(found.iter().filter(|&&moved| moved > 1000));
            changes.insert((*parties, change.gate));
        }
    }
    assert!(changed > 2500, "{changed}");
    assert!(capped > 200, "{capped}");
    assert!(deep > 300, "{deep}");
    assert!(moves.len() > 500, "{}", moves.len());
    assert!(changes.len() > 200, "{}", changes.len());
    assert!(largest[&true] > 20 && largest[&false] > 20, "{largest:?}");
}

#[test]
fn the_same_seed_gives_the_same_requests() {
    for set in FitSet::ALL {
        let made = set.make(SEED);
        assert_eq!(made, set.make(SEED));
        assert_ne!(made, set.make(SEED + 1));
    }
}

#[test]
fn the_text_keeps_within_the_limits_of_the_format() {
    for set in FitSet::ALL {
        for one in set.make(SEED) {
            for line in one.request().lines() {
                assert!(line.len() <= 1_048_576);
            }
        }
    }
}

/// The counts that vectors/README.md tells.
#[test]
fn the_counts_are_the_printed_ones() {
    let readme = include_str!("../../vectors/README.md");
    for set in FitSet::ALL {
        let requests = format!("| {} requests", set.make(SEED).len());
        assert!(readme.contains(&requests), "{}: {requests}", set.name());
    }
}
