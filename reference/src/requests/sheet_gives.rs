//! Sheets with gives: read, written and scored.

use super::scene::Scene;
use super::sheet_calls::score;
use super::sheet_reads::{changed, each_prefix, nested};
use super::sheet_sets::{circuit_of, read, read_into, sheet_of, write, write_into};
use super::SheetRequest;
use crate::circuit::{GIVE, MAX_GATES, NO_KIND};
use crate::field::{self, P};
use crate::give;
use crate::random::{self, Kinds, Random};
use crate::sheet::examples::{self, GIVE_EXAMPLES};
use crate::sheet::MAX_DEPTH;

pub(super) fn kept(random: &mut Random) -> Vec<SheetRequest> {
    let mut requests: Vec<SheetRequest> = GIVE_EXAMPLES
        .iter()
        .map(|&(parties, parts, _)| read(parties, &examples::text(parts)))
        .collect();
    requests.extend(each_prefix(
        b"(in 1)\n(give (mul (in 0) (line 0)) 1)\n(give (line 0) 0)\n",
    ));
    requests.extend(changed(b"(in 1)\n(give (line 0) 1)\n", b"\n ()0giove\xff"));
    requests.extend(receivers());
    requests.extend(limits());
    requests.extend(names());
    requests.extend(write_boundaries());
    for lines in [2, 5, 13, 16, 102] {
        let parties = random.between(2, 8) as u32;
        let circuit = if lines < Kinds::Gives.rich_lines() {
            random::from_kinds(
                random,
                parties,
                &[&[1], &vec![GIVE; lines - 1][..]].concat(),
            )
        } else {
            random::rich_circuit(random, Kinds::Gives, parties, lines)
        };
        let text = sheet_of(parties, &circuit);
        requests.push(write(parties, &circuit));
        requests.extend([1, 0].map(|less| write_into(parties, &circuit, text.len() - less)));
        requests.extend([1, 0].map(|less| read_into(parties, &text, circuit.len() - less)));
    }
    requests.extend(scores(random));
    requests
}

/// Numbers of a receiver: below the number of parties, that number, and any that is still one of 32 bits.
fn receivers() -> Vec<SheetRequest> {
    let mut requests = Vec::new();
    for (parties, receiver) in [
        (2, "0"),
        (2, "1"),
        (2, "2"),
        (2, "10"),
        (8, "7"),
        (8, "8"),
        (8, "4294967295"),
        (8, "4294967296"),
        (8, "4294967300"),
        (8, "10000000000"),
        (8, "00"),
        (8, "07"),
        (8, "-1"),
        (8, ""),
    ] {
        let text = format!("(in 0)\n(give (line 0) {receiver})\n");
        requests.push(read(parties, text.as_bytes()));
        let text = format!("(give (in 1) {receiver})\n(out (in 0))\n");
        requests.push(read(parties, text.as_bytes()));
    }
    requests
}

/// Depth 16 and 17, and 256 gates and 257; a give within another form.
fn limits() -> Vec<SheetRequest> {
    let mut requests = Vec::new();
    let mut ask = |text: &str| requests.push(read(2, text.as_bytes()));
    for depth in [MAX_DEPTH - 1, MAX_DEPTH, MAX_DEPTH + 1] {
        for word in ["plus", "sq", "mul"] {
            let form = nested(depth - 1, word, "(in 0)");
            ask(&format!("(give {form} 1)\n"));
        }
        let form = nested(depth - 1, "times", "(line 0)");
        ask(&format!("(in 0)\n(give {form} 1)\n"));
        for innermost in ["(", "(g", "(give (in 0) 1)", "x", ")"] {
            ask(&format!("(give {}", nested(depth - 1, "plus", innermost)));
        }
    }
    for text in [
        "(add (in 0) (give (in 0) 1))\n",
        "(in 0)\n(out (give (line 0) 1))\n",
        "(in 0)\n(give (give (line 0) 1) 1)\n",
        "(sq (g",
    ] {
        ask(text);
    }
    for rows in [MAX_GATES - 3, MAX_GATES - 2, MAX_GATES - 1] {
        let rows = "(in 0)\n".repeat(rows);
        ask(&format!("{rows}(give (line 9) 1)\n(give (line 9) 0)\n"));
        ask(&format!("{rows}(give (sq (line 9)) 1)\n"));
    }
    requests
}

/// Rows without a value that are gives, among names of one and two digits.
fn names() -> Vec<SheetRequest> {
    let mut requests = Vec::new();
    for (rows, without) in [(4, &[1][..]), (13, &[2, 11]), (13, &[1, 10, 12])] {
        let row = |row: usize| match without.contains(&row) {
            true => "(give (in 0) 1)\n",
            false => "(in 1)\n",
        };
        let rows: String = (0..rows).map(row).collect();
        for name in ["0", "1", "2", "3", "4", "9", "10", "11", "12", "13"] {
            requests.push(read(
                2,
                format!("{rows}(give (line {name}) 0)\n").as_bytes(),
            ));
        }
    }
    requests
}

/// Both sides of the questions that the writer asks of a give.
fn write_boundaries() -> Vec<SheetRequest> {
    let mut requests = Vec::new();
    for kind in [GIVE, NO_KIND] {
        requests.push(write(2, &[1, 0, 0, 0, kind, 0, 0, 0, 7, 0, 0, 0]));
        requests.push(write(2, &[1, 0, 0, 0, 7, 0, 0, 0, kind, 0, 0, 0]));
        requests.push(write(2, &[kind, 0, 0, 0, 7, 0, 0, 0]));
    }
    // Gate 1 has no value, gate 3 is the one itself.
    for first in [0, 2, 1, 3, 4, 5, u32::MAX] {
        let circuit = [
            1, 0, 0, 0, 9, 0, 1, 0, 1, 1, 0, 0, 9, first, 0, 0, 7, 0, 0, 0,
        ];
        requests.push(write(2, &circuit));
    }
    for (parties, receiver) in [(2, 1), (2, 2), (8, 7), (8, 8), (8, u32::MAX)] {
        requests.push(write(parties, &[1, 0, 0, 0, 9, 0, receiver, 0]));
    }
    // The unused field, and names before it.
    for (first, second, constant) in [
        (0, 0, 0),
        (0, 1, 1),
        (0, 1, P),
        (0, 1, u32::MAX),
        (0, 2, 1),
        (1, 1, 1),
    ] {
        let circuit = [1, 0, 0, 0, GIVE, first, second, constant];
        requests.push(write(2, &circuit));
        requests.push(write_into(2, &circuit, 0));
        requests.push(write_into(9, &circuit, 0));
    }
    // A give names another, and the end of a circuit that has one.
    for circuit in [
        [1, 0, 0, 0, 9, 0, 1, 0, 9, 1, 1, 0],
        [1, 0, 0, 0, 9, 0, 1, 0, 8, 1, 0, 0],
        [1, 0, 0, 0, 9, 0, 1, 0, 8, 0, 0, 0],
        [1, 0, 0, 0, 8, 0, 0, 0, 9, 1, 1, 0],
    ] {
        requests.push(write(2, &circuit));
    }
    requests
}

/// The worked run and others on the circuit of a sheet, finished, aborted and refused.
fn scores(random: &mut Random) -> Vec<SheetRequest> {
    let worked = give::request().expect("an accepted circuit");
    let mut requests = vec![
        score("(give (in 0) 1)\n", &worked),
        score("(in 0)\n(give (line 0) 1)\n", &worked),
        // To the other party, whose whole mask is 0.
        score("(give (in 0) 0)\n", &worked),
        // Refused by the reader, and by the run: an output wants other preprocessing.
        score("(give (in 0) 1)", &worked),
        score("(give (in 0) 2)\n", &worked),
        score("(give (in 0) 1)\n(in 0)\n", &worked),
        score(
            &format!("(give {} 1)\n", nested(MAX_DEPTH, "plus", "(in 0)")),
            &worked,
        ),
        score("(out (in 0))\n", &worked),
    ];
    let text = "(mul (in 1) (in 0))\n(give (line 0) 0)\n(out (sq (line 0)))\n(give (line 0) 1)\n";
    for wrong in [None, Some(1), Some(2)] {
        let circuit = circuit_of(2, text.as_bytes()).expect("an accepted sheet");
        let key = random.nonzero();
        let mut scene = Scene::new(random, 2, circuit, key);
        if let Some(number) = wrong {
            // A number of the first give's record: its MAC share, the receiver's whole mask.
            let place = 1 + 3 + 3 + 6 + number;
            scene.preps[place] = field::add(scene.preps[place], 1);
        }
        let joint = scene.joint(random);
        requests.push(score(text, &joint));
    }
    requests
}
