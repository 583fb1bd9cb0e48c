//! Sheets that are scored, and requests about sheets whose text has a fault.

use super::boundary_steps::nonces;
use super::scene::Scene;
use super::sheet_reads::nested;
use super::sheet_sets::{circuit_of, read, write, write_into};
use super::{Request, SheetRequest};
use crate::docket;
use crate::field::P;
use crate::random::Random;
use crate::sheet::MAX_DEPTH;

pub(super) fn score(text: &str, joint: &Request) -> SheetRequest {
    SheetRequest::Score {
        text: text.as_bytes().to_vec(),
        joint: joint.clone(),
    }
}

/// Runs on the circuit of a sheet, finished, aborted and refused.
pub(super) fn scores(random: &mut Random) -> Vec<SheetRequest> {
    let docket = docket::request().expect("an accepted circuit");
    let sheet = "(out (mul (in 0) (in 1)))\n";
    let mut requests = vec![
        score(sheet, &docket),
        // The same circuit in other words.
        score(
            "(in 0)\n(in 1)\n(mul (line 0) (line 1))\n(out (line 2))\n",
            &docket,
        ),
        score("(in 0)\n(out (mul (line 0) (in 1)))\n", &docket),
        // Refused by the reader.
        score("", &docket),
        score("(out (mul (in 0) (in 1)))", &docket),
        score("(out (mul (in 0) (in 2)))\n", &docket),
        score("(out (plus (in 0) 2147483647))\n", &docket),
        score("(mul (in 0) (in 1))\n", &docket),
        score(&nested(MAX_DEPTH + 1, "plus", "(in 0)"), &docket),
        // Refused by the run: another circuit's material.
        score("(out (add (in 0) (in 1)))\n", &docket),
    ];
    // The parties, the material, an input, the scratch, a coefficient, the outputs; a nonce byte too few and too many.
    let changes: [fn(&mut Request); 8] = [
        |joint| lists(joint, |parties, _| *parties = 9),
        |joint| lists(joint, |_, lists| lists[0][3] = P),
        |joint| lists(joint, |_, lists| lists[1][1] = P),
        |joint| lists(joint, |_, lists| lists[2].truncate(75)),
        |joint| lists(joint, |_, lists| lists[3][2] = P),
        |joint| lists(joint, |_, lists| lists[4].clear()),
        |joint| nonces(joint).truncate(127),
        |joint| nonces(joint).push(0),
    ];
    for change in changes {
        let mut joint = docket.clone();
        change(&mut joint);
        requests.push(score(sheet, &joint));
        requests.push(score("(out (mul (in 0) (in 1)\n", &joint));
    }
    // A wrong MAC share of the product, and one of a mask.
    for number in [12, 2] {
        let mut joint = docket.clone();
        lists(&mut joint, |_, lists| lists[0][number] += 1);
        requests.push(score(sheet, &joint));
    }
    for depth in [3, 5, 8] {
        let text = nested(depth, "mul", "(in 0)") + "\n(out (plus (line 0) 7))\n(out (line 0))\n";
        let circuit = circuit_of(2, text.as_bytes()).expect("an accepted sheet");
        let key = random.element();
        let joint = Scene::new(random, 2, circuit, key).joint(random);
        requests.push(score(&text, &joint));
    }
    requests
}

/// Changes the parties of a joint run, or its preprocessing, inputs, scratch, coefficients or outputs.
fn lists(joint: &mut Request, change: impl Fn(&mut u32, [&mut Vec<u32>; 5])) {
    if let Request::Joint {
        parties,
        preps,
        inputs,
        scratch,
        coefficients,
        outputs,
        ..
    } = joint
    {
        change(parties, [preps, inputs, scratch, coefficients, outputs]);
    }
}

/// The lines of a request to `send` before that of the nonce.
const SEND: &str = "\
send
parties 2
party 0
circuit
prep
inputs
scratch
position 0 send-own 0
coefficients
";

/// The lines of a joint run between its circuit and its nonces.
const RUN: &str = "\
preps
inputs
scratch
coefficients
";

/// Faults of a line, beside lines that have none.
pub(super) fn faults() -> Vec<SheetRequest> {
    const BYTE: &str = "a byte above 255";
    let fault = |lines: String, line: usize, message: &'static str| SheetRequest::Faulty {
        lines,
        line,
        message,
    };
    let in_read = |text: &str, message: &'static str| {
        fault(
            format!("read\nparties 2\ntext{text}\ncircuit 9 9\n"),
            2,
            message,
        )
    };
    let in_send = |bytes: &str, message: &'static str| {
        fault(
            format!("{SEND}nonce{bytes}\nout 9\n"),
            SEND.lines().count(),
            message,
        )
    };
    let in_run = |head: &str, bytes: &str, message: &'static str| {
        fault(
            format!("{head}\n{RUN}nonces{bytes}\ntranscript\noutputs\n"),
            3 + RUN.lines().count(),
            message,
        )
    };
    let zeros = |count: usize| " 0".repeat(count);
    let sheet = b"(in 0)\n(out (line 0))\n";
    let mut requests = vec![
        read(2, &[255]),
        in_read(" 256", BYTE),
        in_read(" 4294967295", BYTE),
        in_read(" 40 105 256", BYTE),
        in_read(" 256 40 105", BYTE),
        in_read(" x", "not a number"),
        in_read(" 40 -1", "not a number"),
        in_read(" 4294967296", "a number above 4294967295"),
        // Any other fault of the line is told and not the byte.
        in_read(" 256 x", "not a number"),
        in_read(" x 256", "not a number"),
        in_read(" 256 4294967296", "a number above 4294967295"),
        in_read(&format!(" 256{}", zeros(65_536)), "more than 65536 numbers"),
        read(2, &vec![0; 65_536]),
        // The byte in the other entries, and a circuit's numbers, which may be above 255.
        fault(
            "write\nparties 2\ncircuit 1 0 0 0 7 0 0 0\ntext 0 255 256\n".to_string(),
            3,
            BYTE,
        ),
        write_into(2, &[1, 0, 0, 0, 7, 0, 0, 0], 3),
        fault("score\nparties 2\ntext 256\npreps\n".to_string(), 2, BYTE),
        // The bytes of nonces, in every entry that takes some.
        in_send(" 0 255 256", BYTE),
        in_send(" 4294967295", BYTE),
        in_send(" 256 x", "not a number"),
        in_send(" 256 4294967296", "a number above 4294967295"),
        in_run("score\nparties 2\ntext", " 256", BYTE),
        in_run("joint\nparties 2\ncircuit", " 255 256", BYTE),
        in_run("show\nparties 2\ncircuit", " 256", BYTE),
        in_run("show\nparties 2\ncircuit", " -1", "not a number"),
        fault(
            format!("{SEND}out 9\n"),
            SEND.lines().count(),
            "nonce is wanted",
        ),
        fault(
            format!("{SEND}nonces\nout 9\n"),
            SEND.lines().count(),
            "nonce is wanted",
        ),
        fault(
            format!("joint\nparties 2\ncircuit\n{RUN}transcript\noutputs\n"),
            3 + RUN.lines().count(),
            "nonces is wanted",
        ),
        SheetRequest::Read {
            parties: 2,
            text: sheet.to_vec(),
            circuit: vec![256, u32::MAX, 0, 1, 2, 3, 4, 5, 6],
        },
        // Lines that are missing or in another order.
        fault(
            "read\nparties 2\ncircuit 9 9\n".to_string(),
            2,
            "text is wanted",
        ),
        fault(
            "read\nparties 2\nsheet harbour.sheet\ncircuit 9 9\n".to_string(),
            2,
            "text is wanted",
        ),
        fault(
            "write\nparties 2\ntext 9 9\ncircuit 1 0 0 0 7 0 0 0\n".to_string(),
            2,
            "circuit is wanted",
        ),
        fault(
            "write\nparties 2\ncircuit 1 0 0 0 7 0 0 0\n".to_string(),
            3,
            "text is wanted",
        ),
        write(2, &[1, 0, 0, 0, 7, 0, 0, 0]),
        fault(
            "score\nparties 2\ncircuit 1 0 0 0 7 0 0 0\npreps\n".to_string(),
            2,
            "text is wanted",
        ),
        fault("read\nparties 2\n".to_string(), 2, "text is wanted"),
        read(2, sheet),
        fault(
            "read\nparties 2\ntext 40\n".to_string(),
            3,
            "circuit is wanted",
        ),
        read(2, sheet),
        fault(
            "read 2\n".to_string(),
            0,
            "nothing may follow the name of an entry",
        ),
        fault(
            "write x\n".to_string(),
            0,
            "nothing may follow the name of an entry",
        ),
        fault(
            "score 0\n".to_string(),
            0,
            "nothing may follow the name of an entry",
        ),
        fault(
            "read\nparties 2 2\ntext 256\ncircuit\n".to_string(),
            1,
            "one number is wanted",
        ),
    ];
    requests.push(read(2, sheet));
    requests
}
