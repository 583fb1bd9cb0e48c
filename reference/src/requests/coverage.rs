//! Measures what a list of requests covers, from the requests and their answers alone.

use std::cmp::Ordering;
use std::collections::{BTreeMap, BTreeSet};

use super::boundary_steps::{coefficients, heard};
use super::{neighbours, single_runs, Answer, Answered, Entry, Field, Request, Set, SingleRun};
use crate::circuit::{self, Shape, GIVE};
use crate::field::{self, P};
use crate::joint::{Ending, JointResult};
use crate::party::Round;
use crate::prep::{self, Fault};
use crate::refusal::Refusal;
use crate::text;

/// How often each label occurs.
pub fn coverage(answered: &[Answered]) -> BTreeMap<String, usize> {
    let mut counts = BTreeMap::new();
    for one in answered {
        *counts.entry(one.label()).or_default() += 1;
    }
    counts
}

/// How often each feature occurs in requests to each entry, in the order of `Entry::ALL`.
pub fn measured(answered: &[Answered]) -> BTreeMap<String, [usize; 4]> {
    let mut counts: BTreeMap<String, [usize; 4]> = BTreeMap::new();
    for one in answered {
        for feature in features(one) {
            counts.entry(feature).or_default()[one.request.entry() as usize] += 1;
        }
    }
    for ((entry, number, _), times) in neighbours(answered) {
        let feature = format!("refused {number:02}, beside a neighbour that is not");
        let column = Entry::ALL.iter().position(|one| one.name() == entry);
        counts.entry(feature).or_default()[column.expect("a name of an entry")] += times;
    }
    counts
}

/// The table of the kept sets, in the order of `Set::KEPT`: each cell has the counts in all of them.
pub fn table(sets: [&[Answered]; Set::KEPT.len()]) -> String {
    let names = Set::KEPT.map(Set::name);
    let mut text = format!(
        "| requests ({}) | `open` | `send` | `receive` | `joint` |\n|---|---|---|---|---|\n",
        names.join(" + ")
    );
    let found = sets.map(measured);
    let features: BTreeSet<&String> = found.iter().flat_map(BTreeMap::keys).collect();
    for feature in features {
        text.push_str(&format!("| {feature} |"));
        for column in 0..4 {
            let counts = found.each_ref().map(|set| {
                let counts = set.get(feature);
                counts.map_or(0, |counts| counts[column])
            });
            text.push_str(&match counts {
                none if none.iter().all(|&count| count == 0) => String::from(" |"),
                _ => format!(" {} |", counts.map(|count| count.to_string()).join(" + ")),
            });
        }
        text.push('\n');
    }
    text.push_str(&format!(
        "\n| whole runs by single entries | {} |\n|---|{}\n",
        names.join(" | "),
        "---|".repeat(names.len())
    ));
    let found = sets.map(single_runs);
    let runs: BTreeSet<&SingleRun> = found.iter().flat_map(BTreeMap::keys).collect();
    for run in runs {
        let count = |set: &BTreeMap<SingleRun, usize>| set.get(run).copied().unwrap_or(0);
        let counts = found.each_ref().map(|set| count(set).to_string());
        text.push_str(&format!(
            "| {} | {} |\n",
            described(run),
            counts.join(" | ")
        ));
    }
    text
}

fn described(run: &SingleRun) -> String {
    let who = if run.all_parties {
        "all parties"
    } else {
        "one party"
    };
    let tampered = match run.tampered {
        Some(round) => format!(", a word tampered with at `{}`", text::round(round)),
        None => String::new(),
    };
    let end = match run.aborted {
        Some(round) if run.named => format!("aborted by `{}`, a party named", text::round(round)),
        Some(round) => format!("aborted by `{}`", text::round(round)),
        None => String::from("finished"),
    };
    format!("{who}{tampered}: {end}")
}

fn features(one: &Answered) -> Vec<String> {
    let mut found = Vec::new();
    match one.answer.refusal() {
        Some(refusal) => {
            let number = refusal.number;
            found.push(format!("refused {number:02}"));
            if several_offend(&one.request, refusal) {
                found.push(format!("refused {number:02}, several numbers offend"));
            }
            if let Some(later) = later_gate(&one.request, refusal) {
                found.push(format!(
                    "refused {number:02}, and a later gate by {later:02}"
                ));
            }
            if refusal.index > 0 {
                found.push(format!("refused {number:02}, index not 0"));
            }
        }
        None => {
            found.push(String::from("accepted"));
            let (parties, circuit) = parties_and_circuit(&one.request);
            if let Ok(shape) = circuit::shape(parties, circuit) {
                found.extend(sizes(parties, circuit, &shape));
                found.extend(excesses(one, parties, &shape));
                found.extend(unasked(one, circuit, &shape));
            }
            found.extend(numbers(one));
            found.extend(joint_endings(one));
        }
    }
    found.extend(empty_lists(one));
    found.extend(position(one));
    found
}

fn lists(request: &Request) -> impl Iterator<Item = (&'static str, &[u32])> {
    let fields = request.fields().into_iter();
    fields.filter_map(|(name, field)| match field {
        Field::Numbers(numbers) if name != "parties" && name != "party" => Some((name, numbers)),
        _ => None,
    })
}

fn parties_and_circuit(request: &Request) -> (u32, &[u32]) {
    match request {
        Request::Open { lent } | Request::Send { lent, .. } | Request::Receive { lent, .. } => {
            (lent.parties, &lent.circuit)
        }
        Request::Joint {
            parties, circuit, ..
        } => (*parties, circuit),
    }
}

/// Whether the question refuses another number of its list when the first one is mended.
fn several_offend(request: &Request, refusal: Refusal) -> bool {
    let mut mended = request.clone();
    let list = match refusal.number {
        9 => mended.lists().prep,
        11 => mended.lists().inputs,
        15 => mended.lists().scratch,
        17 => coefficients(&mut mended),
        20 => heard(&mut mended),
        _ => return false,
    };
    list[refusal.index] = 1;
    let later = mended.answer().refusal();
    later.is_some_and(|later| later.number == refusal.number)
}

/// The number by which a gate after the refused one would be refused.
fn later_gate(request: &Request, refusal: Refusal) -> Option<u32> {
    let (parties, circuit) = parties_and_circuit(request);
    if !(4..=6).contains(&refusal.number) {
        return None;
    }
    let mut mended = circuit.to_vec();
    mended[4 * refusal.index..][..4].copy_from_slice(&[circuit::IN, 0, 0, 0]);
    let later = circuit::shape(parties, &mended).err()?;
    (later.index > refusal.index).then_some(later.number)
}

fn sizes(parties: u32, circuit: &[u32], shape: &Shape) -> Vec<String> {
    let mut found = vec![format!("accepted, {parties} parties")];
    match shape.gates {
        2 => found.push(String::from("accepted, 2 gates")),
        circuit::MAX_GATES => {
            found.push(String::from("accepted, 256 gates"));
            if parties == 8 {
                found.push(String::from("accepted, 256 gates and 8 parties"));
            }
        }
        _ => {}
    }
    for (name, kind) in circuit::KIND_NAMES.iter().zip(1..) {
        if circuit.chunks_exact(4).any(|line| line[0] == kind) {
            found.push(format!("accepted, with a gate of kind {name}"));
        }
    }
    found
}

/// Lists that are longer than what may be written.
fn excesses(one: &Answered, parties: u32, shape: &Shape) -> Vec<String> {
    let count = match one.request.entry() {
        Entry::Joint => parties as usize,
        _ => 1,
    };
    let words = match &one.request {
        Request::Send { lent, position, .. } => {
            position.round(&lent.circuit).map_or(0, Round::words)
        }
        _ => 0,
    };
    let longer = |(name, numbers): (&'static str, &[u32])| {
        let needed = match name {
            "scratch" => count * shape.scratch_len(),
            "out" => words,
            "transcript" => count * shape.words(),
            "outputs" => shape.outputs,
            _ => numbers.len(),
        };
        let what = if numbers.len() > needed {
            "with an excess"
        } else {
            "just long enough"
        };
        ["scratch", "out", "transcript", "outputs"]
            .contains(&name)
            .then(|| format!("accepted, `{name}` {what}"))
    };
    lists(&one.request).filter_map(longer).collect()
}

/// Where the scratch of an accepted request has numbers that are no elements.
fn unasked(one: &Answered, circuit: &[u32], shape: &Shape) -> Vec<String> {
    let layout = shape.layout();
    let (scratch, gate, len) = match &one.request {
        Request::Open { lent } => (&lent.scratch, 0, layout.len()),
        Request::Send { lent, position, .. } | Request::Receive { lent, position, .. } => {
            (&lent.scratch, position.gate as usize, layout.len())
        }
        Request::Joint { scratch, .. } => (scratch, 0, shape.parties * layout.len()),
    };
    let place = |index: usize| {
        if index >= len {
            return "in its excess";
        }
        let index = index % layout.len();
        if index >= layout.mark(0) {
            return "among the marks";
        }
        if index >= layout.nonce() {
            return "in the nonce";
        }
        if index >= layout.opened(0) {
            return "among the opened entries";
        }
        let slot = index % shape.gates;
        match slot.cmp(&gate) {
            Ordering::Less if circuit[4 * slot] == GIVE => "in the slots of a give gate",
            Ordering::Less => "in the slots of an out gate",
            Ordering::Equal => "in the slots of the gate itself",
            Ordering::Greater => "in the slots of a later gate",
        }
    };
    let mut places: Vec<&str> = (0..scratch.len())
        .filter(|&index| scratch[index] >= P)
        .map(place)
        .collect();
    places.sort();
    places.dedup();
    places
        .into_iter()
        .map(|place| format!("accepted, no elements in `scratch` {place}"))
        .collect()
}

/// The numbers around p in accepted lists; p and above where nothing asks for elements.
fn numbers(one: &Answered) -> Vec<String> {
    let mut found = Vec::new();
    for (list, numbers) in lists(&one.request).filter(|(list, _)| *list != "circuit") {
        for (number, name) in [(P - 1, "p-1"), (P, "p"), (u32::MAX, "4294967295")] {
            if numbers.contains(&number) {
                found.push(format!("accepted, {name} in `{list}`"));
            }
        }
    }
    found
}

fn empty_lists(one: &Answered) -> Vec<String> {
    let how = match one.answer.refusal() {
        Some(_) => "refused",
        None => "accepted",
    };
    let fields = one.request.fields().into_iter();
    fields
        .filter(|(_, field)| match field {
            Field::Numbers(numbers) => numbers.is_empty(),
            Field::Bytes(bytes) => bytes.is_empty(),
            Field::Position(_) => false,
        })
        .map(|(list, _)| format!("{how}, `{list}` empty"))
        .collect()
}

/// What was answered at a stage, as far as the position decides it.
fn position(one: &Answered) -> Vec<String> {
    let (Request::Send { lent, position, .. } | Request::Receive { lent, position, .. }) =
        &one.request
    else {
        return Vec::new();
    };
    let stage = text::stage(position.stage);
    let gate = match position.round(&lent.circuit) {
        Some(Round::Input) => " of an in gate",
        Some(Round::Multiply) => " of a mul gate",
        Some(Round::Square) => " of an sq gate",
        Some(_) if lent.circuit[4 * position.gate as usize] == GIVE => " of a give gate",
        _ => "",
    };
    let held = match position.held {
        0 => "",
        P.. => ", a held number above p-1",
        _ => ", a check share held",
    };
    match one.answer.refusal().map(|refusal| refusal.number) {
        Some(number @ (13 | 14)) => vec![format!("at `{stage}`{gate}{held}: refused {number}")],
        Some(_) => Vec::new(),
        None => vec![format!(
            "at `{stage}`{gate}{held}: {}{}",
            text::answer(&one.answer).split(' ').next().unwrap_or(""),
            match one.answer.named() {
                Some(_) => ", a party named",
                None => "",
            }
        )],
    }
}

/// How a joint run ended, and with which preprocessing.
fn joint_endings(one: &Answered) -> Vec<String> {
    let (
        Request::Joint {
            parties,
            circuit,
            preps,
            ..
        },
        Answer::Joint {
            result: Ok(result), ..
        },
    ) = (&one.request, &one.answer)
    else {
        return Vec::new();
    };
    let ending = ending(circuit, result);
    let key = match field::sum(preps.iter().step_by(preps.len() / *parties as usize)) {
        0 => "key 0",
        _ => "another key",
    };
    let mut faults = prep::faults(*parties, circuit, preps);
    faults.sort();
    faults.dedup();
    let mut found: Vec<String> = match faults[..] {
        [] => vec![format!("good preprocessing, {key}: {ending}")],
        _ => faults
            .into_iter()
            .map(|fault| format!("{}, {key}: {ending}", fault_name(fault)))
            .collect(),
    };
    if result.ending != Ending::Finished && result.outputs > 0 {
        found.push(String::from("aborted after an output"));
    }
    if result.rounds == 766 {
        found.push(String::from("finished after 766 rounds"));
    }
    found
}

fn fault_name(fault: Fault) -> &'static str {
    match fault {
        Fault::MaskMac => "bad MAC of a mask",
        Fault::WholeMask => "bad whole mask",
        Fault::TripleMac => "bad MAC in a triple",
        Fault::Product => "bad product in a triple",
        Fault::PairMac => "bad MAC in a pair",
        Fault::Square => "bad square in a pair",
        Fault::GivenMac => "bad MAC of a given mask",
        Fault::GivenMask => "bad whole mask of a receiver",
    }
}

fn ending(circuit: &[u32], result: &JointResult) -> &'static str {
    match (result.ending, circuit::rounds(circuit)[result.rounds - 1].1) {
        (Ending::Finished, _) => "finished",
        (_, Round::RevealOpened) => "aborted at the first check",
        _ => "aborted at the second check",
    }
}
