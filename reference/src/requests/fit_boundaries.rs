//! Both sides of every question that the tool of ranges asks, questions in turn, and faults of the text.

use super::fit_sets::Extent;
use super::FitRequest;
use crate::circuit::{ADD, GIVE, IN, MAX_GATES, MUL, NO_KIND, OUT, OVER, PLUS, SQ, SUB, TIMES};
use crate::docket;
use crate::field::P;

const MAX: u32 = u32::MAX;

/// Ranges of the docket's two inputs.
const RANGES: [u32; 4] = [0, 3, 1, 2];

/// The docket, asked by default of the second input's change.
fn docket(ranges: &[u32]) -> FitRequest {
    FitRequest::new(docket::PARTIES, &docket::CIRCUIT, ranges, Some((1, 1)))
}

/// Questions 1 and 3 to 7.
pub(super) fn circuits(extent: Extent) -> Vec<FitRequest> {
    let mut requests = Vec::new();
    for &parties in extent.of(&[2, 1, 8, 9, 0, MAX], 4) {
        requests.push(FitRequest::new(parties, &docket::CIRCUIT, &RANGES, None));
    }

    let long = [1, 0, 0, 0, 7, 0, 0, 0, 7, 0, 0, 0];
    for &len in extent.of(&[8, 4, 7, 9, 0, 12], 4) {
        requests.push(FitRequest::new(2, &long[..len], &[1, 5], None));
    }
    for &gates in extent.of(&[MAX_GATES, MAX_GATES + 1], 0) {
        let mut circuit = [OUT, 0, 0, 0].repeat(gates);
        circuit[0] = IN;
        let request = FitRequest::new(2, &circuit, &[1, 5], None);
        requests.push(request.clone().with_lists(2 * gates - 1, 0));
        requests.push(request);
    }

    let kinds: Vec<u32> = (0..=NO_KIND).chain([MAX]).collect();
    for &kind in extent.of(&kinds, kinds.len() - 1) {
        let constant = u32::from(kind == OVER);
        let circuit = [1, 0, 0, 0, kind, 0, 0, constant, 7, 0, 0, 0];
        let ranges = if kind == IN {
            &[5, 5, 1, 2][..]
        } else {
            &[5, 5]
        };
        requests.push(FitRequest::new(2, &circuit, ranges, Some((0, 2))));
    }
    for &kind in extent.of(&[0, NO_KIND], 0) {
        requests.push(FitRequest::new(2, &[kind, 0, 0, 0, 7, 0, 0, 0], &[], None));
    }

    // Gate 1 has no value, nor has gate 2; gate 3 is the one itself.
    let named = |kind: u32, first: u32, second: u32| {
        let constant = u32::from(kind == OVER);
        let circuit = [
            1, 0, 0, 0, OUT, 0, 0, 0, GIVE, 0, 1, 0, kind, first, second, constant, OUT, 0, 0, 0,
        ];
        FitRequest::new(2, &circuit, &[4, 4], None)
    };
    for kind in [ADD, SUB, PLUS, TIMES, MUL, OUT, SQ, GIVE, OVER] {
        for &first in extent.of(&[3, 0, 1], 1) {
            requests.push(named(kind, first, 0));
        }
    }
    for &(kind, first) in extent.of(&[(MUL, 1), (SQ, 2), (PLUS, 4), (OVER, MAX)], 2) {
        requests.push(named(kind, first, 0));
    }
    for kind in [ADD, SUB, MUL, GIVE] {
        for &second in extent.of(&[2, 3], 1) {
            requests.push(named(kind, 0, second));
        }
    }
    for &owner in extent.of(&[1, 2, MAX], 2) {
        requests.push(FitRequest::new(
            2,
            &[1, owner, 0, 0, 7, 0, 0, 0],
            &[4, 4],
            None,
        ));
    }

    let fields = [
        (IN, 0, 1),
        (ADD, 0, 1),
        (PLUS, 0, P - 1),
        (PLUS, 0, P),
        (TIMES, 0, P - 1),
        (TIMES, 0, P),
        (OUT, 1, 0),
        (SQ, 1, 0),
        (GIVE, 1, 1),
        (OVER, 0, 0),
        (OVER, 0, P - 1),
        (OVER, 0, P),
        (IN, 1, 0),
        (SUB, 0, MAX),
        (PLUS, 1, 0),
        (TIMES, 1, 0),
        (MUL, 0, 1),
        (OUT, 0, 1),
        (SQ, 0, 1),
        (OVER, 1, 1),
    ];
    for &(kind, second, constant) in extent.of(&fields, 12) {
        let circuit = [1, 0, 0, 0, kind, 0, second, constant, 7, 0, 0, 0];
        requests.push(FitRequest::new(2, &circuit, &[0, 0], None));
    }

    for &kind in extent.of(&[OUT, GIVE, PLUS, SQ], 3) {
        requests.push(FitRequest::new(
            2,
            &[1, 0, 0, 0, kind, 0, 0, 0],
            &[3, 9],
            None,
        ));
    }
    requests
}

/// Question 26: the count, reversed ranges, and ends.
pub(super) fn ranges(extent: Extent) -> Vec<FitRequest> {
    let mut requests = Vec::new();
    for &len in extent.of(&[4, 3, 5, 0, 8, 2, 1], 5) {
        requests.push(docket(&[0, 3, 1, 2, 0, 1, 0, 1][..len]));
    }
    let wrong = [
        [3, 3, 2, 2],
        [4, 3, 1, 2],
        [0, 3, 2, 1],
        [0, P - 1, 1, 1],
        [0, P, 1, 1],
        [P - 1, P - 1, 1, 1],
        [P, P, 1, 1],
        [0, 1, 0, P - 1],
        [0, 1, 0, P],
        [P - 1, P, 1, 1],
        [0, 1, 0, MAX],
        [MAX, 0, 0, 0],
        [1, 0, 0, P],
    ];
    for ranges in extent.of(&wrong, 9) {
        requests.push(docket(ranges));
    }
    requests
}

/// In gates first, after an add, and after an output; two outputs.
const SCATTERED: [u32; 24] = [
    1, 1, 0, 0, ADD, 0, 0, 0, 1, 0, 0, 0, GIVE, 1, 1, 0, 1, 1, 0, 0, OUT, 4, 0, 0,
];

/// Question 27, and lists of every length around the wanted one for question 18.
pub(super) fn changes_and_lists(extent: Extent) -> Vec<FitRequest> {
    let mut requests = Vec::new();
    let ranges = [1, 2, 0, 5, 3, 4];
    for &gate in extent.of(&[0, 1, 2, 3, 4, 5, 6, MAX, 7], 8) {
        requests.push(FitRequest::new(2, &SCATTERED, &ranges, Some((gate, 3))));
    }
    for &gate in extent.of(&[0, 1, 2, 3, 4], 0) {
        let request = FitRequest::new(2, &docket::CIRCUIT, &RANGES, Some((gate, 2)));
        requests.push(request);
    }
    for change in [None, Some((4, 2))] {
        let lengths = [
            (12, 2),
            (11, 2),
            (12, 1),
            (13, 3),
            (12, 0),
            (0, 2),
            (12, 4),
            (6, 2),
            (11, 1),
            (0, 0),
        ];
        for &(of_intervals, of_moves) in extent.of(&lengths, 5) {
            let request = FitRequest::new(2, &SCATTERED, &ranges, change);
            requests.push(request.with_lists(of_intervals, of_moves));
        }
    }
    // A gate leaves, an over stands there: the lists are asked first.
    for kind in [PLUS, OVER] {
        let circuit = [1, 0, 0, 0, kind, 0, 0, P - 1, 7, 0, 0, 0];
        for change in [None, Some((0, 1))] {
            for &(of_intervals, of_moves) in extent.of(&[(5, 1), (6, 0), (6, 1)], 2) {
                let request = FitRequest::new(2, &circuit, &[0, 1], change);
                requests.push(request.with_lists(of_intervals, of_moves));
            }
        }
    }
    requests
}

/// What can be wrong with one request, in the order in which it is asked: the questions' numbers, 18 of the second list, and a gate
/// that leaves.
const WRONG: [u32; 10] = [1, 3, 4, 5, 6, 7, 26, 27, 18, 0];

/// A request with some of these wrong.
fn wrong(which: &[u32]) -> FitRequest {
    let has = |one: u32| which.contains(&one);
    let mut circuit = vec![1, 0, 0, 0, PLUS, 0, 0, 3, MUL, 0, 1, 0, OUT, 2, 0, 0];
    for (one, place, number) in [
        (0, 7, P - 1),
        (4, 4, NO_KIND),
        (5, 5, 1),
        (6, 7, P),
        (7, 12, PLUS),
    ] {
        if has(one) {
            circuit[place] = number;
        }
    }
    if has(3) {
        circuit.push(0);
    }
    let parties = if has(1) { 9 } else { 2 };
    let ranges = if has(26) { [5, 1] } else { [1, 5] };
    let change = if has(27) { (1, 2) } else { (0, 2) };
    let of_intervals = if has(18) { 7 } else { 8 };
    FitRequest::new(parties, &circuit, &ranges, Some(change)).with_lists(of_intervals, 1)
}

/// Each of these wrong together with the next, none, and all at once.
pub(super) fn turns() -> Vec<FitRequest> {
    let mut requests = vec![wrong(&[]), wrong(&WRONG)];
    requests.extend(WRONG.windows(2).map(wrong));
    requests
}

/// Any of these wrong; and gates in turn, of which the first decides.
pub(super) fn all_turns() -> Vec<FitRequest> {
    let mut requests: Vec<FitRequest> = (0..1 << WRONG.len())
        .map(|set: usize| {
            let which = (0..WRONG.len()).filter(|bit| set >> bit & 1 == 1);
            wrong(&which.map(|bit| WRONG[bit]).collect::<Vec<u32>>())
        })
        .collect();
    let gates = [
        [PLUS, 0, 0, 1],
        [NO_KIND, 0, 0, 0],
        [ADD, 9, 0, 0],
        [TIMES, 0, 0, P],
        [OVER, 0, 0, 1],
    ];
    for first in gates {
        for second in gates {
            for last in [OUT, PLUS] {
                let circuit = [[1, 0, 0, 0], first, second, [last, 0, 0, 0]].concat();
                for ranges in [&[1, 5][..], &[5, 1]] {
                    requests.push(FitRequest::new(2, &circuit, ranges, Some((0, 1))));
                }
            }
        }
    }
    requests
}

/// The lines of a request before that of the change.
const HEAD: &str = "fit\nparties 2\ncircuit\nranges\n";

fn faulty(lines: String, line: usize, message: &'static str) -> FitRequest {
    FitRequest::Faulty {
        lines,
        line,
        message,
    }
}

fn in_change(words: &str, message: &'static str) -> FitRequest {
    faulty(
        format!("{HEAD}change{words}\nintervals\nmoves\n"),
        HEAD.lines().count(),
        message,
    )
}

/// Faults of a line, beside lines that have none.
pub(super) fn faults() -> Vec<FitRequest> {
    const PAIR: &str = "a gate and an amount are wanted, or nothing";
    const HIGH: &str = "a number above 4294967295";
    let after = |lines: &str, message: &'static str| {
        faulty(lines.to_string(), lines.lines().count(), message)
    };
    let good = || docket(&RANGES);
    vec![
        in_change(" 0", PAIR),
        in_change(" 0 1 2", PAIR),
        in_change(" 4294967295", PAIR),
        in_change(" 0 1 0 1", PAIR),
        // Any other fault of the line is told and not the count.
        in_change(" x", "not a number"),
        in_change(" 0 -1", "not a number"),
        in_change(" 0 1 x", "not a number"),
        in_change(" 4294967296", HIGH),
        in_change(" 0 4294967296", HIGH),
        in_change(" 0 1 2 4294967296", HIGH),
        good(),
        faulty(
            "fit 2\n".to_string(),
            0,
            "nothing may follow the name of an entry",
        ),
        good(),
        faulty("fits\n".to_string(), 0, "the name of an entry is wanted"),
        faulty("fit\nparties\n".to_string(), 1, "one number is wanted"),
        // The next request has the line that is told.
        after("fit\n", "parties is wanted"),
        good(),
        after("fit\nparties 2\n", "circuit is wanted"),
        good(),
        after("fit\nparties 2\ncircuit\n", "ranges is wanted"),
        good(),
        after(HEAD, "change is wanted"),
        good(),
        after(&format!("{HEAD}change\n"), "intervals is wanted"),
        good(),
        after(&format!("{HEAD}change\nintervals\n"), "moves is wanted"),
        good(),
        faulty(format!("{HEAD}intervals\nmoves\n"), 4, "change is wanted"),
        faulty(
            format!("{HEAD}change\nmoves\nintervals\n"),
            5,
            "intervals is wanted",
        ),
        after("read\nparties 2\n", "text is wanted"),
        good(),
    ]
}

/// A change of as many numbers as a line may have, and of one more.
pub(super) fn long_changes() -> Vec<FitRequest> {
    let zeros = |count: usize| " 0".repeat(count);
    vec![
        in_change(
            &zeros(65_536),
            "a gate and an amount are wanted, or nothing",
        ),
        in_change(&zeros(65_537), "more than 65536 numbers"),
    ]
}
