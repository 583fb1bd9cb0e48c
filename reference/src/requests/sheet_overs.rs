//! Sheets with overs: read, written and scored.

use super::scene::Scene;
use super::sheet_calls::score;
use super::sheet_reads::{changed, each_prefix, nested};
use super::sheet_sets::{circuit_of, read, read_into, sheet_of, write, write_into};
use super::SheetRequest;
use crate::circuit::{MAX_GATES, NO_KIND, OUT, OVER};
use crate::field::{self, P};
use crate::over;
use crate::random::{self, Kinds, Random};
use crate::sheet::examples::{self, OVER_EXAMPLES};
use crate::sheet::MAX_DEPTH;

pub(super) fn kept(random: &mut Random) -> Vec<SheetRequest> {
    let mut requests: Vec<SheetRequest> = OVER_EXAMPLES
        .iter()
        .map(|&(parties, parts, _)| read(parties, &examples::text(parts)))
        .collect();
    requests.extend(each_prefix(
        b"(in 1)\n(over (line 0) 7)\n(out (over (add (over (in 0) 10) (line 1)) 3))\n",
    ));
    requests.extend(changed(b"(out (over (in 1) 20))\n", b"\n ()0eruv\xff"));
    requests.extend(begun_words());
    requests.extend(constants());
    requests.extend(limits());
    requests.extend(write_boundaries());
    for lines in [3, 6, 14, 17, 40] {
        let parties = random.between(2, 8) as u32;
        let circuit = if lines < Kinds::Overs.rich_lines() {
            let overs = vec![OVER; lines - 2];
            random::from_kinds(random, parties, &[&[1], &overs[..], &[OUT]].concat())
        } else {
            random::rich_circuit(random, Kinds::Overs, parties, lines)
        };
        let text = sheet_of(parties, &circuit);
        requests.push(write(parties, &circuit));
        requests.extend([1, 0].map(|less| write_into(parties, &circuit, text.len() - less)));
        requests.extend([1, 0].map(|less| read_into(parties, &text, circuit.len() - less)));
    }
    requests.extend(scores(random));
    requests
}

/// Every beginning of the two words, with what may and may not follow, outermost and inside other forms.
fn begun_words() -> Vec<SheetRequest> {
    let mut requests = Vec::new();
    for before in [
        "(",
        "(in 0)\n(",
        "(in 0)\n(over (",
        "(sub (in 0) (",
        "(out (",
    ] {
        for begun in [
            "o", "ou", "out", "out ", "ov", "ove", "over", "over ", "ovr", "oe", "our",
        ] {
            requests.push(read(2, format!("{before}{begun}").as_bytes()));
        }
        for begun in ["out (in 0))", "over (in 0) 2)"] {
            requests.push(read(2, format!("{before}{begun}\n").as_bytes()));
        }
    }
    requests
}

/// Constants below 1, from 1 to p - 1, above, and any that is still a number of 32 bits; outermost and inside.
fn constants() -> Vec<SheetRequest> {
    let mut requests = Vec::new();
    for constant in [
        "0",
        "1",
        "2",
        "10",
        "2147483645",
        "2147483646",
        "2147483647",
        "2147483648",
        "4294967295",
        "4294967296",
        "4294967300",
        "10000000000",
        "00",
        "01",
        "-1",
        "",
    ] {
        for text in [
            format!("(over (in 0) {constant})\n(out (line 0))\n"),
            format!("(in 1)\n(out (plus (over (line 0) {constant}) 1))\n"),
        ] {
            requests.push(read(2, text.as_bytes()));
        }
    }
    for text in [
        // The first gate decides, and its first question; then the room.
        "(over (in 0) 0)\n(over (in 0) 2147483647)\n",
        "(over (in 2) 0)\n(out (line 0))\n",
        "(times (in 0) 0)\n(over (line 0) 0)\n",
        "(over (times (in 0) 2147483647) 0)\n(out (line 0))\n",
        "(over (in 0) 5)\n(times (line 0) 5)\n",
        "(over (in 0) 0",
    ] {
        requests.push(read(2, text.as_bytes()));
        requests.push(read_into(2, text.as_bytes(), 0));
        requests.push(read_into(9, text.as_bytes(), 0));
    }
    requests
}

/// Depth 16 and 17, and 256 gates and 257.
fn limits() -> Vec<SheetRequest> {
    let mut requests = Vec::new();
    let mut ask = |text: &str| requests.push(read(2, text.as_bytes()));
    for depth in [MAX_DEPTH - 1, MAX_DEPTH, MAX_DEPTH + 1] {
        ask(&format!(
            "{}\n(out (line 0))\n",
            nested(depth, "over", "(in 0)")
        ));
        let form = nested(depth, "over", "(line 0)");
        ask(&format!("(in 0)\n{form}\n(give (line 1) 0)\n"));
        ask(&format!(
            "(in 0)\n(out {})\n",
            nested(depth - 1, "over", "(line 0)")
        ));
        for innermost in [
            "(", "(o", "(ou", "(ov", "(over", "(over ", "o", "(over (", ")",
        ] {
            ask(&nested(depth, "over", innermost));
        }
    }
    for rows in [MAX_GATES - 3, MAX_GATES - 2, MAX_GATES - 1] {
        let rows = "(in 0)\n".repeat(rows);
        ask(&format!("{rows}(over (line 9) 3)\n(out (line 9))\n"));
    }
    requests
}

/// Both sides of the questions that the writer asks of an over.
fn write_boundaries() -> Vec<SheetRequest> {
    let mut requests = Vec::new();
    for kind in [OVER, NO_KIND] {
        requests.push(write(2, &[1, 0, 0, 0, kind, 0, 0, 1, 7, 0, 0, 0]));
        requests.push(write(2, &[1, 0, 0, 0, 7, 0, 0, 0, kind, 0, 0, 1]));
        requests.push(write(2, &[kind, 0, 0, 1, 7, 0, 0, 0]));
    }
    // Gate 1 has no value, gate 3 is the one itself.
    for first in [0, 2, 1, 3, 4, 5, u32::MAX] {
        let circuit = [
            1, 0, 0, 0, 7, 0, 0, 0, 1, 1, 0, 0, OVER, first, 0, 2, 7, 3, 0, 0,
        ];
        requests.push(write(2, &circuit));
    }
    // The constant, the unused field, and a name before them.
    for (first, second, constant) in [
        (0, 0, 1),
        (0, 0, 0),
        (0, 0, P - 1),
        (0, 0, P),
        (0, 0, u32::MAX),
        (0, 1, 1),
        (0, u32::MAX, 1),
        (0, 1, 0),
        (1, 1, 0),
    ] {
        let circuit = [1, 0, 0, 0, OVER, first, second, constant, 7, 1, 0, 0];
        requests.push(write(2, &circuit));
        requests.push(write_into(2, &circuit, 0));
        requests.push(write_into(9, &circuit, 0));
    }
    // Times by 0 beside over by 0.
    for kind in [5, OVER] {
        requests.push(write(2, &[1, 0, 0, 0, kind, 0, 0, 0, 7, 1, 0, 0]));
    }
    requests
}

/// The worked run and others on the circuit of a sheet, finished, aborted and refused.
fn scores(random: &mut Random) -> Vec<SheetRequest> {
    let worked = over::request().expect("an accepted circuit");
    let mut requests = vec![
        score("(out (over (in 0) 2))\n", &worked),
        score("(in 0)\n(over (line 0) 2)\n(out (line 1))\n", &worked),
        score("(over (in 0) 2)\n(out (line 0))\n", &worked),
        // By others, and with times in its place.
        score("(out (over (in 0) 3))\n", &worked),
        score("(out (over (in 0) 2147483646))\n", &worked),
        score("(out (times (in 0) 2))\n", &worked),
        // Refused by the reader, and by the run: one gate more wants a longer scratch.
        score("(out (over (in 0) 2))", &worked),
        score("(out (over (in 2) 2))\n", &worked),
        score("(out (over (in 0) 0))\n", &worked),
        score("(over (in 0) 2)\n", &worked),
        score(&nested(MAX_DEPTH + 1, "over", "(in 0)"), &worked),
        score("(out (times (over (in 0) 2) 2))\n", &worked),
    ];
    let text = "(over (mul (in 1) (in 0)) 7)\n(out (line 0))\n(give (times (line 0) 7) 1)\n";
    for wrong in [false, true] {
        let circuit = circuit_of(2, text.as_bytes()).expect("an accepted sheet");
        let key = random.nonzero();
        let mut scene = Scene::new(random, 2, circuit, key);
        if wrong {
            // The MAC share of the product's c.
            let place = 1 + 3 + 3 + 5;
            scene.preps[place] = field::add(scene.preps[place], 1);
        }
        let joint = scene.joint(random);
        requests.push(score(text, &joint));
    }
    requests
}
