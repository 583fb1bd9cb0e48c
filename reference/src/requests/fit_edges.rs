//! Intervals and moves at the edges of what fits, gate by gate.

use super::fit_sets::Extent;
use super::FitRequest;
use crate::circuit::{ADD, GIVE, IN, MUL, OUT, OVER, PLUS, SQ, SUB, TIMES};
use crate::docket;
use crate::field::P;

const MAX: u32 = u32::MAX;

/// The greatest number whose square fits.
const ROOT: u32 = 46_340;

/// Half of p - 1.
const HALF: u32 = P / 2;

/// The docket and the longer circuit that were worked by hand.
pub(super) fn worked() -> Vec<FitRequest> {
    let docket = |high| {
        let ranges = [0, high, 0, high];
        FitRequest::new(docket::PARTIES, &docket::CIRCUIT, &ranges, None)
    };
    vec![
        FitRequest::new(
            docket::PARTIES,
            &docket::CIRCUIT,
            &[0, 100, 0, 1000],
            Some((0, 5)),
        ),
        docket(ROOT),
        docket(ROOT + 1),
        FitRequest::new(2, &LONGER, &[10, 20, 0, 5], Some((1, 2))),
    ]
}

/// The longer worked circuit: every kind but add, mul and over.
#[rustfmt::skip]
pub const LONGER: [u32; 32] = [
    1, 0, 0, 0,
    1, 1, 0, 0,
    4, 0, 0, 7,
    3, 2, 1, 0,
    8, 3, 0, 0,
    5, 4, 0, 3,
    9, 4, 1, 0,
    7, 5, 0, 0,
];

/// An input, and a gate of it that is given out.
fn of_one(kind: u32, constant: u32, range: [u32; 2], amount: Option<u32>) -> FitRequest {
    let circuit = [1, 0, 0, 0, kind, 0, 0, constant, 7, 1, 0, 0];
    let change = amount.map(|amount| (0, amount));
    FitRequest::new(2, &circuit, &range, change)
}

/// Two inputs, and a gate of them that is given out.
fn of_two(kind: u32, ranges: [u32; 4], change: Option<(u32, u32)>) -> FitRequest {
    let circuit = [1, 0, 0, 0, 1, 1, 0, 0, kind, 0, 1, 0, 7, 2, 0, 0];
    FitRequest::new(2, &circuit, &ranges, change)
}

/// The highest and the lowest number on both sides of what fits.
pub(super) fn intervals(extent: Extent) -> Vec<FitRequest> {
    let mut requests = Vec::new();
    let products = [
        (ROOT, ROOT + 1),
        (ROOT + 1, ROOT),
        (ROOT + 1, ROOT + 1),
        // A product of 2^32, which is 0 in 32 bits.
        (65_536, 65_536),
        (1, P - 1),
        (2, P - 1),
        (2, HALF),
        (2, HALF + 1),
        (0, P - 1),
        (P - 1, 1),
        (HALF, 2),
        (65_536, 32_768),
        (65_536, 32_767),
        (P - 1, P - 1),
    ];
    for &(left, right) in extent.of(&products, 9) {
        requests.push(of_two(MUL, [0, left, 0, right], None));
    }
    for (ranges, change) in [([3, 4, 5, 6], (0, 1)), ([ROOT, ROOT, ROOT, ROOT], (1, 1))] {
        requests.push(of_two(MUL, ranges, Some(change)));
    }
    for &high in extent.of(&[ROOT, ROOT + 1, 65_536, 0, 1, P - 1], 3) {
        requests.push(of_one(SQ, 0, [0, high], None));
        requests.push(of_one(MUL, 0, [high, high], Some(1)));
    }
    let factors = [
        (65_536, 65_536),
        (0, P - 1),
        (2, HALF),
        (2, HALF + 1),
        (P - 1, 1),
        (P - 1, 2),
        (1, P - 1),
        (P - 1, 0),
        (P - 1, P - 1),
        (HALF, 2),
        (HALF + 1, 2),
    ];
    for &(constant, high) in extent.of(&factors, 7) {
        requests.push(of_one(TIMES, constant, [0, high], None));
    }
    let summands = [
        (0, [P - 1, P - 1]),
        (1, [P - 2, P - 2]),
        (1, [0, P - 1]),
        (P - 1, [0, 0]),
        (P - 1, [0, 1]),
        (HALF, [7, HALF]),
        (HALF + 1, [7, HALF]),
    ];
    for &(constant, range) in extent.of(&summands, 5) {
        requests.push(of_one(PLUS, constant, range, None));
    }
    let sums = [
        [0, HALF, 0, HALF],
        [0, HALF, 0, HALF + 1],
        [1, P - 1, 0, 0],
        [0, P - 1, 0, 1],
        [P - 1, P - 1, P - 1, P - 1],
        [HALF, HALF, HALF, HALF],
    ];
    for &ranges in extent.of(&sums, 4) {
        requests.push(of_two(ADD, ranges, None));
    }
    let differences = [
        [5, 9, 2, 5],
        [5, 9, 2, 6],
        [4, 9, 0, 5],
        [0, 9, 0, 0],
        [0, 0, 0, 0],
        [P - 1, P - 1, 0, P - 1],
        [P - 2, P - 1, 0, P - 1],
        [0, 0, 0, 1],
    ];
    for &ranges in extent.of(&differences, 5) {
        requests.push(of_two(SUB, ranges, None));
    }
    // A gate less itself, and plus itself.
    let own = [
        [7, 7],
        [7, 8],
        [0, P - 1],
        [0, 0],
        [P - 1, P - 1],
        [0, HALF],
    ];
    for &range in extent.of(&own, 3) {
        requests.push(of_one(SUB, 0, range, Some(2)));
        requests.push(of_one(ADD, 0, range, Some(2)));
    }
    requests
}

/// Overs and gates that leave, where no output needs them, and in either order.
pub(super) fn leaving() -> Vec<FitRequest> {
    let over = [OVER, 0, 0, 1];
    let leaves = [PLUS, 0, 0, P - 1];
    let below = [SUB, 0, 1, 0];
    let fits = [PLUS, 0, 0, 1];
    let mut requests = Vec::new();
    for [first, second] in [
        [fits, fits],
        [fits, over],
        [over, fits],
        [over, leaves],
        [leaves, over],
        [fits, leaves],
        [leaves, leaves],
        [fits, below],
    ] {
        let circuit = [[IN, 0, 0, 0], first, second, [OUT, 0, 0, 0]].concat();
        requests.push(FitRequest::new(2, &circuit, &[1, 2], Some((0, 1))));
    }
    // What is undone does not fit either: an over after the times that it undoes, and a sum that leaves and comes back.
    for kinds in [[TIMES, OVER], [OVER, TIMES]] {
        let circuit = [
            1, 0, 0, 0, kinds[0], 0, 0, 3, kinds[1], 1, 0, 3, OUT, 2, 0, 0,
        ];
        requests.push(FitRequest::new(2, &circuit, &[3, 6], None));
    }
    let circuit = [
        1, 0, 0, 0, 1, 1, 0, 0, SUB, 0, 1, 0, ADD, 2, 1, 0, OUT, 3, 0, 0,
    ];
    for ranges in [[1, 2, 0, 1], [0, 2, 0, 1]] {
        requests.push(FitRequest::new(2, &circuit, &ranges, None));
    }
    // After an output, and at the last gate that can leave.
    for last in [fits, over, leaves] {
        let circuit = [[IN, 0, 0, 0], [GIVE, 0, 1, 0], last, [OUT, 0, 0, 0]].concat();
        requests.push(FitRequest::new(2, &circuit, &[1, 2], Some((0, 1))));
    }
    requests
}

/// Moves: the amount itself, on both sides of the cap, before it and after it.
pub(super) fn moves(extent: Extent) -> Vec<FitRequest> {
    let mut requests = Vec::new();
    for &amount in extent.of(&[5, P - 1, P, MAX, 0, 1, P - 2, P + 1], 4) {
        requests.push(FitRequest::new(
            2,
            &[1, 0, 0, 0, 7, 0, 0, 0],
            &[3, 3],
            Some((0, amount)),
        ));
        requests.push(of_one(PLUS, 4, [0, 3], Some(amount)));
    }
    let factors = [
        (65_536, 65_536),
        (2, HALF),
        (2, HALF + 1),
        (0, MAX),
        (P - 1, 1),
        (P - 1, 2),
        (3, HALF),
        (1, P),
        (P - 1, MAX),
    ];
    for &(constant, amount) in extent.of(&factors, 6) {
        requests.push(of_one(TIMES, constant, [0, 1], Some(amount)));
    }
    let squared = [
        (1, HALF),
        (1, HALF + 1),
        (ROOT, 23_171),
        (ROOT, 23_172),
        (2, 536_870_911),
        (2, 536_870_912),
        (ROOT, 23_170),
        (0, MAX),
        (1, MAX),
    ];
    for &(high, amount) in extent.of(&squared, 4) {
        requests.push(of_one(SQ, 0, [0, high], Some(amount)));
        requests.push(of_one(MUL, 0, [0, high], Some(amount)));
    }
    let pairs = [
        (MUL, [0, 5, 0, 7], (0, 2)),
        (MUL, [0, 5, 0, 7], (1, 2)),
        (MUL, [0, 5, 0, 0], (0, 2)),
        (MUL, [0, 0, 0, P - 1], (0, 2)),
        (MUL, [0, 0, 0, P - 1], (1, MAX)),
        (MUL, [0, 2, 0, HALF], (0, 2)),
        (MUL, [0, 2, 0, HALF], (0, 3)),
        (MUL, [0, 2, 0, HALF], (1, HALF)),
        (MUL, [0, 2, 0, HALF], (1, HALF + 1)),
        (ADD, [0, 5, 0, 7], (1, 4)),
        (SUB, [9, 9, 0, 7], (1, 4)),
        (SUB, [9, 12, 0, 7], (0, MAX)),
    ];
    for &(kind, ranges, change) in extent.of(&pairs, 12) {
        requests.push(of_two(kind, ranges, Some(change)));
    }
    // What comes after the cap: times 0, a product with what is 0, a sum of two, a difference from itself.
    let ends = [
        [TIMES, 1, 0, 0],
        [TIMES, 1, 0, 2],
        [MUL, 1, 1, 0],
        [ADD, 1, 1, 0],
        [SUB, 1, 1, 0],
        [SUB, 1, 0, 0],
        [PLUS, 1, 0, 9],
        [SQ, 1, 0, 0],
    ];
    for end in ends {
        for &range in extent.of(&[[0, 0], [1, 1]], 1) {
            let circuit = [
                [IN, 0, 0, 0],
                [TIMES, 0, 0, 2],
                end,
                [OUT, 2, 0, 0],
                [GIVE, 1, 0, 0],
            ];
            requests.push(FitRequest::new(
                2,
                &circuit.concat(),
                &range,
                Some((0, HALF + 1)),
            ));
        }
    }
    requests.push(squares(31, [0, 1], 1));
    requests
}

/// An input that is squared again and again: its moves double and pass the cap, and its interval stays. Some of the squares are given out.
pub(super) fn squares(count: u32, range: [u32; 2], amount: u32) -> FitRequest {
    let mut circuit = vec![1, 0, 0, 0];
    circuit.extend((0..count).flat_map(|gate| [SQ, gate, 0, 0]));
    circuit.extend(
        [count - 2, count - 1, count]
            .map(|gate| [OUT, gate, 0, 0])
            .concat(),
    );
    FitRequest::new(2, &circuit, &range, Some((0, amount)))
}

/// Every pair of ends and amounts at the edges, under every kind that has two operands or one and a constant.
pub(super) fn all_pairs() -> Vec<FitRequest> {
    let ends = [
        0,
        1,
        2,
        3,
        32_767,
        65_536,
        ROOT,
        ROOT + 1,
        HALF,
        HALF + 1,
        P - 2,
        P - 1,
    ];
    let mut requests = Vec::new();
    for kind in [ADD, SUB, MUL] {
        for left in ends {
            for right in ends {
                for lows in [[0, 0], [left, right]] {
                    let ranges = [lows[0], left, lows[1], right];
                    requests.push(of_two(kind, ranges, Some((0, right.max(1)))));
                }
            }
        }
    }
    for kind in [PLUS, TIMES] {
        for constant in ends {
            for high in ends {
                requests.push(of_one(kind, constant, [high / 2, high], Some(high.max(3))));
            }
        }
    }
    for kind in [SQ, MUL, ADD, SUB] {
        for high in ends {
            for amount in [0, 1, 2, ROOT, P - 1, P, MAX] {
                requests.push(of_one(kind, 0, [high, high], Some(amount)));
            }
        }
    }
    for count in [2, 15, 29, 30, 31, 32, 100, 252] {
        for (range, amount) in [([0, 1], 1), ([1, 1], 3), ([0, 0], MAX), ([0, 2], 1)] {
            requests.push(squares(count, range, amount));
        }
    }
    requests
}
