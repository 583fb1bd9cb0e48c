//! Sheets with squares: read, written and scored.

use super::scene::Scene;
use super::sheet_calls::score;
use super::sheet_reads::{changed, each_prefix, nested};
use super::sheet_sets::{circuit_of, read, read_into, sheet_of, write, write_into};
use super::SheetRequest;
use crate::circuit::{MAX_GATES, NO_KIND, SQ};
use crate::field::{self, P};
use crate::random::{self, Kinds, Random};
use crate::sheet::examples::{self, SQUARE_EXAMPLES};
use crate::sheet::MAX_DEPTH;
use crate::square;

pub(super) fn kept(random: &mut Random) -> Vec<SheetRequest> {
    let mut requests: Vec<SheetRequest> = SQUARE_EXAMPLES
        .iter()
        .map(|&(parties, parts, _)| read(parties, &examples::text(parts)))
        .collect();
    requests.extend(each_prefix(
        b"(in 1)\n(sq (line 0))\n(out (sub (sq (in 0)) (line 1)))\n",
    ));
    requests.extend(changed(b"(in 1)\n(out (sq (line 0)))\n", b"\n ()0bqsu\xff"));
    requests.extend(limits());
    requests.extend(write_boundaries());
    for lines in [3, 6, 12, 14, 102] {
        let parties = random.between(2, 8) as u32;
        let circuit = if lines < Kinds::Squares.rich_lines() {
            random::from_kinds(
                random,
                parties,
                &[&[1], &vec![SQ; lines - 2][..], &[7]].concat(),
            )
        } else {
            random::rich_circuit(random, Kinds::Squares, parties, lines)
        };
        let text = sheet_of(parties, &circuit);
        requests.push(write(parties, &circuit));
        requests.extend([1, 0].map(|less| write_into(parties, &circuit, text.len() - less)));
        requests.extend([1, 0].map(|less| read_into(parties, &text, circuit.len() - less)));
    }
    requests.extend(scores(random));
    requests
}

/// Depth 16 and 17, and 256 gates and 257.
fn limits() -> Vec<SheetRequest> {
    let mut requests = Vec::new();
    let mut ask = |text: &str| requests.push(read(2, text.as_bytes()));
    for depth in [MAX_DEPTH - 1, MAX_DEPTH, MAX_DEPTH + 1] {
        ask(&format!(
            "{}\n(out (line 0))\n",
            nested(depth, "sq", "(in 0)")
        ));
        let form = nested(depth, "sq", "(line 0)");
        ask(&format!("(in 0)\n{form}\n(out (line 1))\n"));
        ask(&format!(
            "(in 0)\n(out {})\n",
            nested(depth - 1, "sq", "(line 0)")
        ));
        for innermost in ["(", "(s", "(sq", "(sq ", "(sx", "x", ")"] {
            ask(&nested(depth, "sq", innermost));
        }
    }
    for rows in [MAX_GATES - 3, MAX_GATES - 2, MAX_GATES - 1] {
        let rows = "(in 0)\n".repeat(rows);
        ask(&format!("{rows}(sq (line 9))\n(out (line 9))\n"));
        ask(&format!("{rows}(out (sq (line 9)))\n"));
    }
    requests
}

/// Both sides of the questions that the writer asks of a square.
fn write_boundaries() -> Vec<SheetRequest> {
    let mut requests = Vec::new();
    for kind in [SQ, NO_KIND] {
        requests.push(write(2, &[1, 0, 0, 0, kind, 0, 0, 0, 7, 0, 0, 0]));
        requests.push(write(2, &[1, 0, 0, 0, 7, 0, 0, 0, kind, 0, 0, 0]));
        requests.push(write(2, &[kind, 0, 0, 0, 7, 0, 0, 0]));
    }
    // Gate 1 has no value, gate 3 is the one itself.
    for first in [0, 2, 1, 3, 4, 5, u32::MAX] {
        let circuit = [
            1, 0, 0, 0, 7, 0, 0, 0, 1, 1, 0, 0, SQ, first, 0, 0, 7, 3, 0, 0,
        ];
        requests.push(write(2, &circuit));
    }
    // Unused fields, and a name before them.
    for (first, second, constant) in [
        (0, 0, 0),
        (0, 1, 0),
        (0, 0, 1),
        (0, u32::MAX, 0),
        (0, 0, P),
        (1, 1, 1),
    ] {
        let circuit = [1, 0, 0, 0, SQ, first, second, constant, 7, 1, 0, 0];
        requests.push(write(2, &circuit));
        requests.push(write_into(2, &circuit, 0));
        requests.push(write_into(9, &circuit, 0));
    }
    requests
}

/// The worked run and others on the circuit of a sheet, finished, aborted and refused.
fn scores(random: &mut Random) -> Vec<SheetRequest> {
    let worked = square::request().expect("an accepted circuit");
    let mut requests = vec![
        score("(out (sq (in 0)))\n", &worked),
        score("(in 0)\n(sq (line 0))\n(out (line 1))\n", &worked),
        score("(in 0)\n(out (sq (line 0)))\n", &worked),
        // Refused by the reader, and by the run: a product wants other material.
        score("(out (sq (in 0)))", &worked),
        score("(out (sq (in 2)))\n", &worked),
        score("(sq (in 0))\n", &worked),
        score(&nested(MAX_DEPTH + 1, "sq", "(in 0)"), &worked),
        score("(in 0)\n(out (mul (line 0) (line 0)))\n", &worked),
    ];
    for (depth, wrong) in [(2, false), (4, false), (8, false), (4, true)] {
        let text =
            nested(depth, "sq", "(in 1)") + "\n(out (mul (line 0) (line 0)))\n(out (line 0))\n";
        let circuit = circuit_of(2, text.as_bytes()).expect("an accepted sheet");
        let key = random.nonzero();
        let mut scene = Scene::new(random, 2, circuit, key);
        if wrong {
            // The MAC share of the first pair's a.
            scene.preps[5] = field::add(scene.preps[5], 1);
        }
        let joint = scene.joint(random);
        requests.push(score(&text, &joint));
    }
    requests
}
