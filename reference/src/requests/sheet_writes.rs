//! Circuits for the writer: both sides of its questions, numbers of every length, and the longest sheets.

use super::sheet_sets::{read, sheet_of, write, write_into};
use super::SheetRequest;
use crate::circuit::{MAX_GATES, NO_KIND};
use crate::field::P;
use crate::random::{self, Kinds, Random};

/// Both sides of the questions of the writer.
pub(super) fn write_boundaries() -> Vec<SheetRequest> {
    let two = [1, 0, 0, 0, 7, 0, 0, 0];
    let mut requests: Vec<SheetRequest> = [0, 1, 2, 8, 9, u32::MAX]
        .into_iter()
        .map(|parties| write(parties, &two))
        .collect();
    requests.extend([0, 1, 20, 21, 22, 23, 25].map(|room| write_into(2, &two, room)));
    for len in [0, 1, 4, 7, 8] {
        requests.push(write(2, &two[..len]));
    }
    requests.push(write(2, &[1, 0, 0, 0, 7, 0, 0, 0, 7]));
    for kind in [0, 1, 2, 3, 4, 5, 6, 7, NO_KIND, u32::MAX] {
        requests.push(write(2, &[1, 0, 0, 0, kind, 0, 0, 0, 7, 0, 0, 0]));
        requests.push(write(2, &[1, 0, 0, 0, 7, 0, 0, 0, kind, 0, 0, 0]));
    }
    for (parties, seat) in [(2, 1), (2, 2), (8, 7), (8, 8), (8, u32::MAX)] {
        requests.push(write(parties, &[1, seat, 0, 0, 7, 0, 0, 0]));
    }
    for kind in [2, 3, 6] {
        // Gate 1 has no value, gate 3 is the one itself.
        for (first, second) in [
            (0, 0),
            (0, 2),
            (2, 0),
            (1, 0),
            (0, 1),
            (3, 0),
            (0, 3),
            (4, 0),
            (0, u32::MAX),
        ] {
            let circuit = [
                1, 0, 0, 0, 7, 0, 0, 0, 1, 1, 0, 0, kind, first, second, 0, 7, 3, 0, 0,
            ];
            requests.push(write(2, &circuit));
        }
        requests.push(write(2, &[1, 0, 0, 0, kind, 0, 0, 1, 7, 1, 0, 0]));
    }
    for kind in [4, 5] {
        for (first, second, constant) in [
            (0, 0, 0),
            (0, 0, P - 1),
            (0, 0, P),
            (0, 0, u32::MAX),
            (0, 1, 5),
            (1, 0, 5),
            (2, 0, P),
        ] {
            let circuit = [
                1, 0, 0, 0, 7, 0, 0, 0, kind, first, second, constant, 7, 2, 0, 0,
            ];
            requests.push(write(2, &circuit));
        }
    }
    for circuit in [
        [1, 0, 1, 0, 7, 0, 0, 0],
        [1, 0, 0, 1, 7, 0, 0, 0],
        [1, 0, 0, 0, 7, 0, 1, 0],
        [1, 0, 0, 0, 7, 0, 0, 1],
        [1, 0, 0, 0, 7, 1, 0, 0],
        [1, 0, 0, 0, 1, 1, 0, 0],
        [1, 0, 0, 0, 4, 0, 0, 1],
        // Several questions say no.
        [1, 9, 9, 9, NO_KIND, 0, 0, 0],
        [NO_KIND, 9, 9, 9, 7, 9, 9, 9],
        [1, 0, 9, 0, NO_KIND, 0, 0, 0],
        [1, 0, 0, 0, 2, 1, 1, 1],
    ] {
        requests.push(write(2, &circuit));
        requests.push(write_into(2, &circuit, 0));
        requests.push(write_into(9, &circuit, 0));
    }
    requests
}

/// Numbers of every count of digits, random circuits, and one of 256 gates.
pub(super) fn written(random: &mut Random) -> Vec<SheetRequest> {
    let mut requests = Vec::new();
    let mut constants: Vec<u32> = (0..10)
        .flat_map(|digits| {
            let power = 10u32.pow(digits);
            [power - 1, power, power + 1]
        })
        .collect();
    constants.extend([P - 1, 2_000_000_000, 1_999_999_999]);
    let mut circuit = vec![1, 0, 0, 0];
    for (gate, constant) in constants.into_iter().enumerate() {
        circuit.extend([4 + gate as u32 % 2, gate as u32, 0, constant]);
    }
    circuit.extend([7, circuit.len() as u32 / 4 - 1, 0, 0]);
    requests.push(write(2, &circuit));
    for lines in [2, 3, 5, 9, 10, 11, 12, 20, 30, 102] {
        let parties = random.between(2, 8) as u32;
        let kinds = Kinds::Base;
        let circuit = if lines < kinds.rich_lines() {
            random::circuit(random, kinds, parties, lines)
        } else {
            random::rich_circuit(random, kinds, parties, lines)
        };
        let text = sheet_of(parties, &circuit);
        requests.push(write(parties, &circuit));
        if lines <= 12 {
            requests.extend([1, 0].map(|less| write_into(parties, &circuit, text.len() - less)));
        }
        requests.push(read(parties, &text));
    }
    let mut most = [1, 1, 0, 0].repeat(MAX_GATES - 1);
    most.extend([7, 254, 0, 0]);
    let len = sheet_of(2, &most).len();
    requests.extend([0, 1].map(|less| write_into(2, &most, len - less)));
    most.splice(0..0, [1, 0, 0, 0]);
    requests.push(write_into(2, &most, 0));
    requests
}

/// The circuit with the longest sheet.
pub(super) fn longest() -> Vec<u32> {
    let mut longest = vec![1, 1, 0, 0];
    longest.extend((1..255).flat_map(|gate| [5, gate - 1, 0, P - 1]));
    longest.extend([7, 254, 0, 0]);
    longest
}
