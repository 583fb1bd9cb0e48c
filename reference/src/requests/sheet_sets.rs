//! The sets of requests about sheets: those that are kept, and a larger one.

use super::random_sheet::random_sheet;
use super::scene::Scene;
use super::sheet_calls::{faults, scores};
use super::sheet_reads::{changed_bytes, limits, names, prefixes, read_boundaries};
use super::sheet_writes::{longest, write_boundaries, written};
use super::{sheet_gives, sheet_overs, sheet_squares, SheetRequest};
use crate::circuit::MAX_GATES;
use crate::field::P;
use crate::random::{self, Kinds, Random};
use crate::sheet::examples::{self, EXAMPLES};
use crate::sheet::{read_sheet, write_sheet};

#[derive(Clone, Copy, Debug, PartialEq, Eq)]
pub enum SheetSet {
    Kept,
    Square,
    Give,
    Over,
    Large,
}

impl SheetSet {
    pub const ALL: [SheetSet; 5] = [
        SheetSet::Kept,
        SheetSet::Square,
        SheetSet::Give,
        SheetSet::Over,
        SheetSet::Large,
    ];

    pub fn name(self) -> &'static str {
        match self {
            SheetSet::Kept => "sheet",
            SheetSet::Square => "square-sheet",
            SheetSet::Give => "give-sheet",
            SheetSet::Over => "over-sheet",
            SheetSet::Large => "sheets-large",
        }
    }

    pub fn about(self) -> &'static str {
        match self {
            SheetSet::Kept => "sheets read, written and scored; both sides of every boundary, every prefix, every byte changed, faults of the text",
            SheetSet::Square => "sheets with squares read, written and scored; both sides of every boundary, every prefix, every byte changed",
            SheetSet::Give => "sheets with gives read, written and scored; both sides of every boundary, every prefix, every byte changed",
            SheetSet::Over => "sheets with overs read, written and scored; both sides of every boundary, every prefix, every byte changed",
            SheetSet::Large => "random sheets nested to depth 17 with and without damage, random circuits written and read back",
        }
    }

    /// The same seed gives the same requests.
    pub fn make(self, seed: u64) -> Vec<SheetRequest> {
        let mut random = Random::new(seed);
        match self {
            SheetSet::Kept => kept(&mut random),
            SheetSet::Square => sheet_squares::kept(&mut random),
            SheetSet::Give => sheet_gives::kept(&mut random),
            SheetSet::Over => sheet_overs::kept(&mut random),
            SheetSet::Large => large(&mut random),
        }
    }
}

/// The circuit of a sheet that is accepted.
pub(super) fn circuit_of(parties: u32, text: &[u8]) -> Option<Vec<u32>> {
    let mut circuit = vec![0; 4 * MAX_GATES];
    let gates = read_sheet(parties, text, &mut circuit).ok()?;
    circuit.truncate(4 * gates);
    Some(circuit)
}

/// The sheet of a circuit that is accepted.
pub(super) fn sheet_of(parties: u32, circuit: &[u32]) -> Vec<u8> {
    let mut text = vec![0; 32 * MAX_GATES];
    let len = write_sheet(parties, circuit, &mut text).expect("an accepted circuit");
    text.truncate(len);
    text
}

pub(super) fn read_into(parties: u32, text: &[u8], room: usize) -> SheetRequest {
    SheetRequest::Read {
        parties,
        text: text.to_vec(),
        circuit: vec![9; room],
    }
}

/// A list that holds one number more than an accepted circuit; a short one for a text that is refused.
pub(super) fn read(parties: u32, text: &[u8]) -> SheetRequest {
    let room = circuit_of(parties, text).map_or(2, |circuit| circuit.len() + 1);
    read_into(parties, text, room)
}

pub(super) fn write_into(parties: u32, circuit: &[u32], room: usize) -> SheetRequest {
    SheetRequest::Write {
        parties,
        circuit: circuit.to_vec(),
        text: vec![7; room],
    }
}

/// A list that holds one byte more than the sheet of an accepted circuit.
pub(super) fn write(parties: u32, circuit: &[u32]) -> SheetRequest {
    let mut text = vec![0; 32 * MAX_GATES];
    let room = write_sheet(parties, circuit, &mut text).map_or(2, |len| len + 1);
    write_into(parties, circuit, room)
}

fn kept(random: &mut Random) -> Vec<SheetRequest> {
    let mut requests: Vec<SheetRequest> = EXAMPLES
        .iter()
        .map(|&(parties, parts, _)| read(parties, &examples::text(parts)))
        .collect();
    requests.extend(read_boundaries());
    requests.extend(limits());
    requests.extend(names());
    requests.extend(prefixes());
    requests.extend(changed_bytes());
    requests.extend(write_boundaries());
    requests.extend(written(random));
    requests.extend(scores(random));
    requests.extend(faults());
    requests
}

/// Damages a text in one place.
fn damaged(random: &mut Random, text: &mut Vec<u8>) {
    const BYTES: &[u8] = b"() \nadgilmopqrstuveb0123456789x\x00\xff";
    if text.is_empty() {
        return text.push(random.pick(BYTES));
    }
    let at = random.below(text.len());
    match random.below(5) {
        0 => text.truncate(at),
        1 => text[at] = random.pick(BYTES),
        2 => text.insert(at, random.pick(BYTES)),
        3 => drop(text.remove(at)),
        _ => {
            let (low, high) = (at, random.between(at, text.len() - 1));
            let part = text[low..=high.min(low + 20)].to_vec();
            text.splice(low..low, part);
        }
    }
}

/// Requests of the large set.
const LARGE: usize = 3000;

fn large(random: &mut Random) -> Vec<SheetRequest> {
    let longest = longest();
    let text = sheet_of(2, &longest);
    let mut requests = vec![read(2, &text)];
    requests.extend([0, 1].map(|less| write_into(2, &longest, text.len() - less)));
    while requests.len() < LARGE {
        let turn = requests.len();
        let rows = match random.below(20) {
            0 => random.between(20, 120),
            1..6 => random.between(8, 20),
            _ => random.between(1, 8),
        };
        let parties = random.between(2, 8) as u32;
        let sheet = random_sheet(random, rows);
        requests.push(read(parties, &sheet));
        if let Some(circuit) = circuit_of(parties, &sheet) {
            requests.push(write(parties, &circuit));
        }
        let mut worse = sheet;
        for _ in 0..random.between(1, 2) {
            damaged(random, &mut worse);
            requests.push(read(parties, &worse));
        }

        let lines = match random.below(40) {
            0 => MAX_GATES,
            1..4 => random.between(40, 130),
            _ => random.between(2, 20),
        };
        let mut circuit = random::circuit(random, Kinds::Overs, parties, lines);
        let mut text = sheet_of(parties, &circuit);
        let less = random.below(3);
        requests.push(write_into(
            parties,
            &circuit,
            (text.len() + 1).saturating_sub(less),
        ));
        let less = random.below(3);
        requests.push(read_into(
            parties,
            &text,
            (circuit.len() + 1).saturating_sub(less),
        ));
        if random.once_in(2) {
            damaged(random, &mut text);
            requests.push(read(parties, &text));
        }
        if random.once_in(2) {
            let place = random.below(circuit.len());
            circuit[place] = random.pick(&[0, 1, 2, 7, 8, 9, 10, 11, P - 1, P, u32::MAX]);
            requests.push(write(parties, &circuit));
        }
        if turn % 20 == 0 {
            let rows = random.between(1, 5);
            let text = random_sheet(random, rows);
            if let Some(circuit) = circuit_of(2, &text) {
                let key = random.element();
                let joint = Scene::new(random, 2, circuit, key).joint(random);
                requests.push(SheetRequest::Score { text, joint });
            }
        }
    }
    requests.truncate(LARGE);
    requests
}
