//! Compares the proved entries with the Rust implementation and with Rust written for speed: first that all give equal
//! answers and leave equal lists on every case, then, unless asked for a smoke test, how long each takes.

mod agreement;
mod answers;
mod cases;
mod measure;
mod plot;
mod proved;
mod report;
mod tuned;

use std::hint::black_box;
use std::path::PathBuf;

use reference::commitment::REVEALED;
use reference::random::Random;
use reference::{field, Round, P};

use agreement::{rust_fit, tuned_fit, FitEntry};
use cases::{Halves, Lists, Ranges, Run, Sheet, LONGEST_ROW};
use measure::{compare, Sides};
use report::{Facts, FitRow, JointRow, KindRow, OverRow, Report, SheetRow, SingleRow};

const PARTIES: [u32; 3] = [2, 5, 8];
const GATES: [usize; 4] = [64, 128, 192, 256];
const SINGLE_PARTIES: u32 = 5;
const SINGLE_PARTY: u32 = 1;
const SINGLE_GATES: [usize; 2] = [64, 256];
const SINGLE_ROUNDS: [Round; 5] = [
    Round::Input,
    Round::Multiply,
    Round::CommitOpened,
    Round::RevealOpened,
    Round::OpenOutput,
];
/// The check of one opened entry, in a circuit of two gates.
const CHECK_ROUNDS: [Round; 2] = [Round::CommitOutput, Round::RevealOutput];
/// Gates of the circuits that are timed by gates of two kinds.
const KIND_GATES: usize = 256;
const PRODUCTS: usize = 4096;
const SHEET_PARTIES: u32 = 5;
const SHEET_GATES: usize = 256;
const FIT_PARTIES: u32 = 5;
const FIT_GATES: [usize; 2] = [64, 256];

fn proved_joint(run: &Run, lists: &mut Lists) -> answers::Answer {
    proved::joint_run(
        run.parties,
        &run.circuit,
        &run.preps,
        &run.inputs,
        &mut lists.scratch,
        &run.coefficients,
        &run.nonces,
        &mut lists.transcript,
        &mut lists.outputs,
    )
}

fn rust_joint(run: &Run, lists: &mut Lists) -> answers::Answer {
    answers::joint(reference::joint_run(
        run.parties,
        &run.circuit,
        &run.preps,
        &run.inputs,
        &mut lists.scratch,
        &run.coefficients,
        &run.nonces,
        &mut lists.transcript,
        &mut lists.outputs,
    ))
}

fn tuned_joint(run: &Run, lists: &mut Lists) -> answers::Answer {
    answers::joint(tuned::joint_run(
        run.parties,
        &run.circuit,
        &run.preps,
        &run.inputs,
        &mut lists.scratch,
        &run.coefficients,
        &run.nonces,
        &mut lists.transcript,
        &mut lists.outputs,
    ))
}

/// Whether the proved entries know a circuit's kinds. If not, question 4 refuses it.
fn knows(run: &Run) -> bool {
    proved_joint(run, &mut run.lists())[..2] != answers::refused(4, 0)[..2]
}

/// Both halves of the last round of each sort in a run that ends with a give, at its receiver and at another party, and sheets with
/// gives: all sides must agree. They are not timed.
fn gives_agree() {
    for receiver in [SINGLE_PARTY, SINGLE_PARTY + 1] {
        let run = Run::give_to(SINGLE_PARTIES, receiver);
        for halves in cases::last_rounds(&run, SINGLE_PARTY) {
            send(&run, &halves);
            receive(&run, &halves);
        }
        joint(&run);
    }
    for parties in PARTIES {
        let sheet = Sheet::of(&Run::gives(parties, 64));
        reading(&sheet);
        writing(&sheet);
    }
}

/// Both halves of the last round of each sort in a run with overs after each, and sheets with overs: all sides must agree. They are
/// not timed.
fn overs_agree() {
    for parties in PARTIES {
        let run = Run::over_each(parties);
        for halves in cases::last_rounds(&run, SINGLE_PARTY) {
            send(&run, &halves);
            receive(&run, &halves);
        }
        joint(&run);
        for run in [run, Run::overs(parties, 64)] {
            let sheet = Sheet::of(&run);
            reading(&sheet);
            writing(&sheet);
        }
    }
}

/// A joint run, on which all must agree.
fn joint(run: &Run) -> Sides<'_> {
    let (mut left, mut right, mut other) = (run.lists(), run.lists(), run.lists());
    let answer = proved_joint(run, &mut left);
    assert_eq!(answer, rust_joint(run, &mut right), "joint run");
    assert_eq!(answer, tuned_joint(run, &mut other), "joint run, tuned");
    assert_eq!(answer[0], 1, "the joint run finishes");
    assert_eq!(left, right, "lists of the joint run");
    assert_eq!(left, other, "lists of the joint run, tuned");
    for lists in [&mut left, &mut right, &mut other] {
        lists.clear();
    }
    Sides {
        proved: Box::new(move || {
            black_box(proved_joint(black_box(run), &mut left));
        }),
        rust: Box::new(move || {
            black_box(rust_joint(black_box(run), &mut right));
        }),
        tuned: Some(Box::new(move || {
            black_box(tuned_joint(black_box(run), &mut other));
        })),
    }
}

/// The lists that a send writes to.
#[derive(Clone, PartialEq, Debug)]
struct Sent {
    scratch: Vec<u32>,
    out: [u32; REVEALED],
}

fn proved_send(run: &Run, halves: &Halves, sent: &mut Sent) -> answers::Answer {
    proved::send(
        &run.party(SINGLE_PARTY),
        &mut sent.scratch,
        halves.send_at,
        &halves.coefficients,
        &halves.nonce,
        &mut sent.out,
    )
}

fn rust_send(run: &Run, halves: &Halves, sent: &mut Sent) -> answers::Answer {
    answers::sent(reference::send(
        &run.party(SINGLE_PARTY),
        &mut sent.scratch,
        halves.send_at,
        &halves.coefficients,
        &halves.nonce,
        &mut sent.out,
    ))
}

fn tuned_send(run: &Run, halves: &Halves, sent: &mut Sent) -> answers::Answer {
    answers::sent(tuned::send(
        &run.party(SINGLE_PARTY),
        &mut sent.scratch,
        halves.send_at,
        &halves.coefficients,
        &halves.nonce,
        &mut sent.out,
    ))
}

fn rust_receive(run: &Run, halves: &Halves, scratch: &mut [u32]) -> answers::Answer {
    let lent = run.party(SINGLE_PARTY);
    answers::received(reference::receive(
        &lent,
        scratch,
        halves.receive_at,
        &halves.heard,
    ))
}

fn tuned_receive(run: &Run, halves: &Halves, scratch: &mut [u32]) -> answers::Answer {
    let lent = run.party(SINGLE_PARTY);
    answers::received(tuned::receive(
        &lent,
        scratch,
        halves.receive_at,
        &halves.heard,
    ))
}

fn send<'a>(run: &'a Run, halves: &'a Halves) -> Sides<'a> {
    let mut left = Sent {
        scratch: halves.scratch.clone(),
        out: [0; REVEALED],
    };
    let (mut right, mut other) = (left.clone(), left.clone());
    let answer = proved_send(run, halves, &mut left);
    assert_eq!(answer, rust_send(run, halves, &mut right), "sending");
    assert_eq!(
        answer,
        tuned_send(run, halves, &mut other),
        "sending, tuned"
    );
    assert_eq!(answer[0], 1, "sending is not refused");
    assert_eq!(left, right, "words sent, and scratch");
    assert_eq!(left, other, "words sent, and scratch, tuned");
    Sides {
        proved: Box::new(move || {
            black_box(proved_send(black_box(run), halves, &mut left));
        }),
        rust: Box::new(move || {
            black_box(rust_send(black_box(run), halves, &mut right));
        }),
        tuned: Some(Box::new(move || {
            black_box(tuned_send(black_box(run), halves, &mut other));
        })),
    }
}

/// A round received again from the scratch it left gives the same answer and the same scratch.
fn receive<'a>(run: &'a Run, halves: &'a Halves) -> Sides<'a> {
    let lent = run.party(SINGLE_PARTY);
    let mut left = halves.scratch.clone();
    let (mut right, mut other) = (left.clone(), left.clone());
    for _ in 0..2 {
        let answer = proved::receive(&lent, &mut left, halves.receive_at, &halves.heard);
        assert_eq!(answer, rust_receive(run, halves, &mut right), "receiving");
        let tuned = tuned_receive(run, halves, &mut other);
        assert_eq!(answer, tuned, "receiving, tuned");
        assert!(answer[0] == 1 || answer[0] == 2, "receiving is not refused");
        assert_eq!(left, right, "scratch");
        assert_eq!(left, other, "scratch, tuned");
    }
    Sides {
        proved: Box::new(move || {
            black_box(proved::receive(
                black_box(&lent),
                &mut left,
                halves.receive_at,
                &halves.heard,
            ));
        }),
        rust: Box::new(move || {
            black_box(rust_receive(black_box(run), halves, &mut right));
        }),
        tuned: Some(Box::new(move || {
            black_box(tuned_receive(black_box(run), halves, &mut other));
        })),
    }
}

/// Scaling as the Rust implementation would: all numbers are asked first.
#[inline(never)]
fn rust_scale(values: &mut [u32], by: u32) -> bool {
    if by >= P || values.iter().any(|&value| value >= P) {
        return false;
    }
    for value in values {
        *value = field::mul(*value, by);
    }
    true
}

/// The lists that scaling leaves: the same answer and list of all three sides, and nothing written where it is refused.
fn scaled(values: &[u32], by: u32) -> Vec<u32> {
    let [mut left, mut right, mut other] = [values.to_vec(), values.to_vec(), values.to_vec()];
    let answer = proved::scale(&mut left, by);
    assert_eq!(answer, rust_scale(&mut right, by), "products by {by}");
    let tuned = tuned::scale(&mut other, by);
    assert_eq!(answer, tuned, "products by {by}, tuned");
    assert_eq!(left, right, "products by {by}");
    assert_eq!(left, other, "products by {by}, tuned");
    assert!(answer || left == values, "a refusal writes nothing");
    left
}

/// Factors and numbers whose products lie about the powers of 2 and the multiples of the prime.
const EDGES: [u32; 9] = [0, 1, 2, 32768, 46341, 65536, 1 << 30, P - 2, P - 1];

/// Products of numbers at the edges, in lists of every length up to a few lanes, and numbers that are none in every place.
fn product_edges() {
    for by in EDGES {
        for len in 0..4 * EDGES.len() {
            let mut values: Vec<u32> = EDGES.into_iter().cycle().take(len).collect();
            let expected = values.iter().map(|&value| {
                let product = u64::from(value) * u64::from(by);
                (product % u64::from(P)) as u32
            });
            assert_eq!(scaled(&values, by), expected.collect::<Vec<u32>>());
            for place in 0..len {
                for none in [P, P + 1, u32::MAX] {
                    let value = std::mem::replace(&mut values[place], none);
                    assert_eq!(scaled(&values, by), values, "a number that is none");
                    values[place] = value;
                }
            }
        }
    }
    for by in [P, P + 1, u32::MAX] {
        assert_eq!(scaled(&EDGES, by), EDGES, "a factor that is none");
    }
}

fn product<'a>() -> Sides<'a> {
    product_edges();
    let random = &mut Random::new(7);
    let (values, by) = (random.elements(PRODUCTS), random.element());
    let mut left = scaled(&values, by);
    let mut right = left.clone();
    let mut other = left.clone();
    Sides {
        proved: Box::new(move || {
            black_box(proved::scale(black_box(&mut left), black_box(by)));
        }),
        rust: Box::new(move || {
            black_box(rust_scale(black_box(&mut right), black_box(by)));
        }),
        tuned: Some(Box::new(move || {
            black_box(tuned::scale(black_box(&mut other), black_box(by)));
        })),
    }
}

/// A sheet that is read, on which both must agree, and on every text that begins as it does.
fn reading(sheet: &Sheet) -> Sides<'_> {
    let (mut left, mut right) = (vec![0; sheet.circuit.len()], vec![0; sheet.circuit.len()]);
    for len in 0..=sheet.text.len() {
        let text = &sheet.text[..len];
        let answer = proved::read_sheet(sheet.parties, text, &mut left);
        let rust = answers::read(reference::read_sheet(sheet.parties, text, &mut right));
        assert_eq!(answer, rust, "reading");
        assert_eq!(left, right, "the circuit read");
    }
    assert_eq!(left, sheet.circuit, "the whole sheet is read");
    Sides {
        tuned: None,
        proved: Box::new(move || {
            black_box(proved::read_sheet(
                sheet.parties,
                black_box(&sheet.text),
                &mut left,
            ));
        }),
        rust: Box::new(move || {
            let read = reference::read_sheet(sheet.parties, black_box(&sheet.text), &mut right);
            black_box(answers::read(read));
        }),
    }
}

/// The circuit of a sheet that is written as one.
fn writing(sheet: &Sheet) -> Sides<'_> {
    let room = LONGEST_ROW * sheet.gates();
    let (mut left, mut right) = (vec![0; room], vec![0; room]);
    let answer = proved::write_sheet(sheet.parties, &sheet.circuit, &mut left);
    let rust = reference::write_sheet(sheet.parties, &sheet.circuit, &mut right);
    assert_eq!(answer, answers::written(rust), "writing");
    assert_eq!(left, right, "the sheet written");
    Sides {
        tuned: None,
        proved: Box::new(move || {
            black_box(proved::write_sheet(
                sheet.parties,
                black_box(&sheet.circuit),
                &mut left,
            ));
        }),
        rust: Box::new(move || {
            let written =
                reference::write_sheet(sheet.parties, black_box(&sheet.circuit), &mut right);
            black_box(answers::written(written));
        }),
    }
}

/// A call of the tool of ranges.
fn fit_by(entry: FitEntry, of: &Ranges, [intervals, moves]: &mut [Vec<u32>; 2]) -> answers::Answer {
    entry(
        of.parties,
        &of.circuit,
        &of.ranges,
        of.change,
        intervals,
        moves,
    )
}

/// A circuit that fits, of which all must find the same intervals and moves.
fn fitting(of: &Ranges) -> Sides<'_> {
    let (mut left, mut right, mut other) = (of.lists(), of.lists(), of.lists());
    let answer = fit_by(proved::fit, of, &mut left);
    assert_eq!(answer, fit_by(rust_fit, of, &mut right), "fitting");
    assert_eq!(answer, fit_by(tuned_fit, of, &mut other), "fitting, tuned");
    assert_eq!(answer[0], answers::FITS, "the circuit fits");
    assert_eq!(left, right, "intervals and moves");
    assert_eq!(left, other, "intervals and moves, tuned");
    Sides {
        proved: Box::new(move || {
            black_box(fit_by(proved::fit, black_box(of), &mut left));
        }),
        rust: Box::new(move || {
            black_box(fit_by(rust_fit, black_box(of), &mut right));
        }),
        tuned: Some(Box::new(move || {
            black_box(fit_by(tuned_fit, black_box(of), &mut other));
        })),
    }
}

fn measured(repetitions: usize) -> Report {
    let sheets =
        [Sheet::plain, Sheet::nested, Sheet::deep].map(|make| make(SHEET_PARTIES, SHEET_GATES));
    let runs: Vec<Run> = PARTIES
        .into_iter()
        .flat_map(|parties| GATES.map(|gates| Run::new(parties, gates)))
        .collect();
    let of_rounds = |run: Run, rounds: &[Round]| {
        let mut halves = cases::last_rounds(&run, SINGLE_PARTY);
        halves.retain(|halves| rounds.contains(&halves.round));
        (run, halves)
    };
    let mut lent: Vec<(Run, Vec<Halves>)> = SINGLE_GATES
        .into_iter()
        .map(|gates| of_rounds(Run::new(SINGLE_PARTIES, gates), &SINGLE_ROUNDS))
        .collect();
    lent.push(of_rounds(Run::output(SINGLE_PARTIES), &CHECK_ROUNDS));
    let singles = || {
        lent.iter()
            .flat_map(|(run, rounds)| rounds.iter().map(move |halves| (run, halves)))
    };
    let squares: Vec<(&str, Run)> = PARTIES
        .into_iter()
        .filter(|_| knows(&Run::squares(2, 64)))
        .flat_map(|parties| {
            [
                ("sq", Run::squares(parties, KIND_GATES)),
                ("mul", Run::squares_by_products(parties, KIND_GATES)),
            ]
        })
        .collect();
    let gives: Vec<(&str, Run)> = PARTIES
        .into_iter()
        .filter(|_| knows(&Run::give_to(2, 0)))
        .flat_map(|parties| {
            [
                ("give", Run::gives(parties, KIND_GATES)),
                ("out", Run::gives_by_outputs(parties, KIND_GATES)),
            ]
        })
        .collect();
    if !gives.is_empty() {
        gives_agree();
    }
    // Each with the hearing of its input.
    let overs: Vec<(&str, Run, Halves)> = PARTIES
        .into_iter()
        .filter(|_| knows(&Run::over_each(2)))
        .flat_map(|parties| {
            [
                ("over", Run::overs(parties, KIND_GATES)),
                ("times", Run::overs_by_times(parties, KIND_GATES)),
            ]
        })
        .map(|(by, run)| {
            let mut rounds = cases::last_rounds(&run, SINGLE_PARTY).into_iter();
            let input = rounds.find(|halves| halves.round == Round::Input);
            (by, run, input.expect("the run has an input"))
        })
        .collect();
    if !overs.is_empty() {
        overs_agree();
    }
    let fits = FIT_GATES.map(|gates| {
        [
            Ranges::new(FIT_PARTIES, gates),
            Ranges::with_change(FIT_PARTIES, gates),
        ]
    });
    let fits = fits.as_flattened();
    let mut sides: Vec<Sides<'_>> = runs.iter().map(joint).collect();
    sides.extend(squares.iter().map(|(_, run)| joint(run)));
    sides.extend(gives.iter().map(|(_, run)| joint(run)));
    for (_, run, input) in &overs {
        sides.extend([joint(run), receive(run, input)]);
    }
    for (run, halves) in singles() {
        sides.push(send(run, halves));
        sides.push(receive(run, halves));
    }
    for sheet in &sheets {
        sides.push(reading(sheet));
        sides.push(writing(sheet));
    }
    sides.extend(fits.iter().map(fitting));
    sides.push(product());
    let mut times = compare(repetitions, &mut sides).into_iter();
    let mut next = || times.next().expect("times of each case");
    Report {
        joint: runs.iter().map(|run| JointRow::new(run, next())).collect(),
        squares: squares
            .iter()
            .map(|(by, run)| KindRow::squares(by, run, next()))
            .collect(),
        gives: gives
            .iter()
            .map(|(by, run)| KindRow::gives(by, run, next()))
            .collect(),
        overs: overs
            .iter()
            .map(|(by, run, _)| OverRow::new(by, run, next(), next()))
            .collect(),
        single: singles()
            .map(|(run, halves)| SingleRow {
                round: halves.round,
                gates: run.shape.gates,
                send: next(),
                receive: next(),
            })
            .collect(),
        sheets: sheets
            .iter()
            .map(|sheet| SheetRow {
                name: sheet.name,
                gates: sheet.gates(),
                bytes: sheet.text.len(),
                read: next(),
                write: next(),
            })
            .collect(),
        fits: fits.iter().map(|of| FitRow::new(of, next())).collect(),
        product: next().per(PRODUCTS as f64),
    }
}

fn main() {
    let arguments: Vec<String> = std::env::args().skip(1).collect();
    let arguments: Vec<&str> = arguments.iter().map(String::as_str).collect();
    match arguments[..] {
        ["--smoke"] => {
            let report = measured(1);
            assert!(!report.squares.is_empty(), "question 4 admits kind 8");
            assert!(!report.gives.is_empty(), "question 4 admits kind 9");
            assert!(!report.overs.is_empty(), "question 4 admits kind 10");
            let requests = agreement::compare();
            let fits = agreement::compare_all_fits();
            println!("bench: equal answers and lists on every case, tuned on {requests} requests more, and all on {fits} requests about ranges");
        }
        ["--measure"] => print!("{}", measured(REPETITIONS).table()),
        ["--write", folder, date, processor, rust, rattle] => {
            let report = measured(REPETITIONS);
            print!("{}", report.table());
            let facts = Facts {
                date,
                processor,
                rust,
                rattle,
                repetitions: REPETITIONS,
            };
            report
                .write(&PathBuf::from(folder), &facts)
                .expect("the report is written");
        }
        _ => {
            eprintln!(
                "usage: bench --smoke | --measure | --write FOLDER DATE PROCESSOR RUST RATTLE"
            );
            std::process::exit(2);
        }
    }
}

const REPETITIONS: usize = 201;
