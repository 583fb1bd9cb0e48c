//! The circuit: decoding its gates, questions 3 to 7, its counts, and the places of its numbers in
//! preprocessing and scratch.

use crate::commitment::{NONCE_BYTES, WORDS};
use crate::field::P;
use crate::party::Round;
use crate::refusal::{ask, ask_parties, Refusal};

pub const MAX_PARTIES: usize = 8;
pub const MAX_GATES: usize = 256;

/// The kind numbers of document 01.
pub const IN: u32 = 1;
pub const ADD: u32 = 2;
pub const SUB: u32 = 3;
pub const PLUS: u32 = 4;
pub const TIMES: u32 = 5;
pub const MUL: u32 = 6;
pub const OUT: u32 = 7;
pub const SQ: u32 = 8;
pub const GIVE: u32 = 9;
pub const OVER: u32 = 10;

/// The least number above 0 that is no kind.
pub const NO_KIND: u32 = 11;

/// The names of kinds 1 to 10.
pub const KIND_NAMES: [&str; 10] = [
    "in", "add", "sub", "plus", "times", "mul", "out", "sq", "give", "over",
];

#[derive(Clone, Copy, Debug, PartialEq, Eq)]
pub enum Gate {
    Input { owner: u32 },
    Add { left: usize, right: usize },
    Sub { left: usize, right: usize },
    Plus { wire: usize, constant: u32 },
    Times { wire: usize, constant: u32 },
    Multiply { left: usize, right: usize },
    Output { wire: usize },
    Square { wire: usize },
    Give { wire: usize, receiver: u32 },
    Over { wire: usize, constant: u32 },
}

/// What a gate takes from the preprocessing, and what it opens.
#[derive(Clone, Copy, Debug, PartialEq, Eq)]
pub struct Needs {
    /// Numbers of its record.
    pub record: usize,
    /// Entries that it opens and leaves unchecked.
    pub entries: usize,
    /// Its own round, in which it opens them.
    pub round: Option<Round>,
}

impl Gate {
    /// "What a line takes from the material and opens is now told by its kind."
    pub fn needs(self) -> Needs {
        let (record, entries, round) = match self {
            // Mask share, MAC share, whole mask.
            Gate::Input { .. } => (3, 0, Some(Round::Input)),
            // a, MAC of a, b, MAC of b, c, MAC of c.
            Gate::Multiply { .. } => (6, 2, Some(Round::Multiply)),
            // a, MAC of a, c, MAC of c.
            Gate::Square { .. } => (4, 1, Some(Round::Square)),
            // Mask share, MAC share, whole mask. It stops as an out gate does, and has no round of its own.
            Gate::Give { .. } => (3, 0, None),
            _ => (0, 0, None),
        };
        Needs {
            record,
            entries,
            round,
        }
    }

    /// Numbers of preprocessing that the gate reads.
    pub fn record_len(self) -> usize {
        self.needs().record
    }

    /// Whether the gate is an out or a give gate: it has no value, opens one and checks all that is opened.
    pub fn is_output(self) -> bool {
        matches!(self, Gate::Output { .. } | Gate::Give { .. })
    }

    /// The party that alone is told what a give gate releases.
    pub fn receiver(self) -> Option<u32> {
        match self {
            Gate::Give { receiver, .. } => Some(receiver),
            _ => None,
        }
    }

    /// The opened and unchecked entries after the gate, given those before it.
    pub fn pending_after(self, pending: usize) -> usize {
        if self.is_output() {
            0
        } else {
            pending + self.needs().entries
        }
    }
}

/// Reads the four numbers of a gate. None if the kind is not 1 to 10.
fn decode(line: &[u32]) -> Option<Gate> {
    let &[kind, first, second, constant] = line else {
        return None;
    };
    let (left, right) = (first as usize, second as usize);
    match kind {
        IN => Some(Gate::Input { owner: first }),
        ADD => Some(Gate::Add { left, right }),
        SUB => Some(Gate::Sub { left, right }),
        PLUS => Some(Gate::Plus {
            wire: left,
            constant,
        }),
        TIMES => Some(Gate::Times {
            wire: left,
            constant,
        }),
        MUL => Some(Gate::Multiply { left, right }),
        OUT => Some(Gate::Output { wire: left }),
        SQ => Some(Gate::Square { wire: left }),
        GIVE => Some(Gate::Give {
            wire: left,
            receiver: second,
        }),
        OVER => Some(Gate::Over {
            wire: left,
            constant,
        }),
        _ => None,
    }
}

/// The gates in order. In an accepted circuit every gate decodes, so none is left out.
pub fn gates(circuit: &[u32]) -> impl Iterator<Item = Gate> + '_ {
    circuit.chunks_exact(4).map_while(decode)
}

pub fn gate(circuit: &[u32], index: usize) -> Option<Gate> {
    circuit.chunks_exact(4).nth(index).and_then(decode)
}

/// Whether both first and second name gates.
pub(crate) fn has_two_names(kind: u32) -> bool {
    [ADD, SUB, MUL].contains(&kind)
}

/// Whether the gate has a value: "an out line has no value", and "a give has no value".
pub(crate) fn has_value(line: &[u32]) -> bool {
    ![OUT, GIVE].contains(&line[0])
}

/// The counts that decide the lengths of all lists.
#[derive(Clone, Copy, Debug, PartialEq, Eq)]
pub struct Shape {
    pub parties: usize,
    pub gates: usize,
    pub inputs: usize,
    /// In gates of each party.
    pub owned: [usize; MAX_PARTIES],
    pub products: usize,
    pub squares: usize,
    /// Out and give gates.
    pub outputs: usize,
    /// Give gates.
    pub gives: usize,
    /// Out and give gates that have something opened and unchecked before them.
    pub checked_outputs: usize,
    /// Numbers of all records.
    records: usize,
    /// Entries that all gates open in their own rounds.
    entries: usize,
    /// Words that one party sends in those rounds.
    own_words: usize,
}

impl Shape {
    pub fn prep_len(&self) -> usize {
        1 + self.records
    }

    pub fn layout(&self) -> Layout {
        Layout {
            parties: self.parties,
            gates: self.gates,
            opened: self.entries + 1,
        }
    }

    pub fn scratch_len(&self) -> usize {
        self.layout().len()
    }

    /// Coefficients of a full joint run: one for each opened entry, and one for each output.
    pub fn coefficients(&self) -> usize {
        self.entries + self.outputs
    }

    /// Checks of a full run.
    pub fn checks(&self) -> usize {
        self.outputs + self.checked_outputs
    }

    /// Bytes of the nonces of a full joint run: "in order of checks, seats in order within".
    pub fn nonces(&self) -> usize {
        NONCE_BYTES * self.parties * self.checks()
    }

    /// Words that one party sends in a full run.
    pub fn words(&self) -> usize {
        let check = Round::CommitOutput.words() + Round::RevealOutput.words();
        self.own_words + self.outputs + check * self.checks()
    }

    fn count(&mut self, gate: Gate, pending: usize) {
        match gate {
            Gate::Input { owner } => {
                self.inputs += 1;
                self.owned[owner as usize] += 1;
            }
            Gate::Multiply { .. } => self.products += 1,
            Gate::Square { .. } => self.squares += 1,
            Gate::Give { .. } => self.gives += 1,
            _ => {}
        }
        if gate.is_output() {
            self.outputs += 1;
            self.checked_outputs += usize::from(pending > 0);
        }
        let needs = gate.needs();
        self.records += needs.record;
        self.entries += needs.entries;
        self.own_words += needs.round.map_or(0, Round::words);
    }
}

/// Where the numbers of one party's scratch are: "L shares, L MAC shares, 2M + 1 opened values,
/// 2M + 1 MAC shares of those", and one more of each of the last two for every sq gate. "The scratch's end
/// gains eight numbers for the seat's nonce, then eight for each seat's mark."
#[derive(Clone, Copy, Debug, PartialEq, Eq)]
pub struct Layout {
    parties: usize,
    gates: usize,
    opened: usize,
}

impl Layout {
    pub fn share(self, gate: usize) -> usize {
        gate
    }

    pub fn mac(self, gate: usize) -> usize {
        self.gates + gate
    }

    pub fn opened(self, entry: usize) -> usize {
        2 * self.gates + entry
    }

    pub fn opened_mac(self, entry: usize) -> usize {
        2 * self.gates + self.opened + entry
    }

    /// How many opened entries there is room for.
    pub fn entries(self) -> usize {
        self.opened
    }

    /// Where the words of the party's nonce start.
    pub fn nonce(self) -> usize {
        2 * self.gates + 2 * self.opened
    }

    /// Where the words of a party's mark start.
    pub fn mark(self, party: usize) -> usize {
        self.nonce() + WORDS + WORDS * party
    }

    pub fn len(self) -> usize {
        self.mark(self.parties)
    }

    pub fn is_empty(self) -> bool {
        self.len() == 0
    }
}

/// Questions 4, 5 and 6 of one gate. The error is the question's number.
fn ask_gate(parties: u32, circuit: &[u32], index: usize) -> Result<Gate, u32> {
    let line = &circuit[4 * index..4 * index + 4];
    let gate = decode(line).ok_or(4u32)?;
    // Only gates before this one can be named, and they have been asked already.
    let is_wire = |name: usize| name < index && has_value(&circuit[4 * name..]);
    let names = match gate {
        Gate::Input { owner } => owner < parties,
        Gate::Add { left, right } | Gate::Sub { left, right } | Gate::Multiply { left, right } => {
            is_wire(left) && is_wire(right)
        }
        Gate::Plus { wire, .. }
        | Gate::Times { wire, .. }
        | Gate::Over { wire, .. }
        | Gate::Output { wire }
        | Gate::Square { wire } => is_wire(wire),
        Gate::Give { wire, receiver } => is_wire(wire) && receiver < parties,
    };
    if !names {
        return Err(5);
    }
    let (second, last) = (line[2], line[3]);
    let fields = match gate {
        Gate::Input { .. } | Gate::Output { .. } | Gate::Square { .. } => second == 0 && last == 0,
        Gate::Add { .. } | Gate::Sub { .. } | Gate::Multiply { .. } | Gate::Give { .. } => {
            last == 0
        }
        Gate::Plus { constant, .. } | Gate::Times { constant, .. } => second == 0 && constant < P,
        // "Question 6 refuses a constant 0 there."
        Gate::Over { constant, .. } => second == 0 && (1..P).contains(&constant),
    };
    if fields {
        Ok(gate)
    } else {
        Err(6)
    }
}

/// Questions 3 to 7, of a number of parties that has passed question 1.
pub(crate) fn ask_circuit(parties: u32, circuit: &[u32]) -> Result<Shape, Refusal> {
    let gates = circuit.len() / 4;
    ask(
        3,
        circuit.len().is_multiple_of(4) && (2..=MAX_GATES).contains(&gates),
    )?;
    let mut shape = Shape {
        parties: parties as usize,
        gates,
        inputs: 0,
        owned: [0; MAX_PARTIES],
        products: 0,
        squares: 0,
        outputs: 0,
        gives: 0,
        checked_outputs: 0,
        records: 0,
        entries: 0,
        own_words: 0,
    };
    let mut pending = 0;
    for index in 0..gates {
        let gate = ask_gate(parties, circuit, index).map_err(|number| Refusal { number, index })?;
        shape.count(gate, pending);
        pending = gate.pending_after(pending);
    }
    ask(7, !has_value(&circuit[4 * (gates - 1)..]))?;
    Ok(shape)
}

/// Questions 1 and 3 to 7, and the counts of a circuit that passes them.
pub fn shape(parties: u32, circuit: &[u32]) -> Result<Shape, Refusal> {
    ask_parties(parties)?;
    ask_circuit(parties, circuit)
}

/// What the gates before one gate of an accepted circuit have used up.
#[derive(Clone, Copy, Debug, PartialEq, Eq)]
pub struct Before {
    /// Where the gate's record starts in the preprocessing; the key share is number 0.
    pub record: usize,
    /// How many in gates the party has among them.
    pub own_inputs: usize,
    /// How many opened entries they leave unchecked.
    pub pending: usize,
}

pub fn before(circuit: &[u32], party: u32, index: usize) -> Before {
    let start = Before {
        record: 1,
        own_inputs: 0,
        pending: 0,
    };
    gates(circuit)
        .take(index)
        .fold(start, |before, gate| Before {
            record: before.record + gate.record_len(),
            own_inputs: before.own_inputs + usize::from(gate == Gate::Input { owner: party }),
            pending: gate.pending_after(before.pending),
        })
}

/// The rounds of a full run of an accepted circuit, each with its gate.
pub fn rounds(circuit: &[u32]) -> Vec<(usize, Round)> {
    let mut rounds = Vec::new();
    let mut pending = 0;
    for (index, gate) in gates(circuit).enumerate() {
        rounds.extend(gate.needs().round.map(|round| (index, round)));
        if gate.is_output() {
            if pending > 0 {
                rounds
                    .extend([Round::CommitOpened, Round::RevealOpened].map(|round| (index, round)));
            }
            let always = [Round::OpenOutput, Round::CommitOutput, Round::RevealOutput];
            rounds.extend(always.map(|round| (index, round)));
        }
        pending = gate.pending_after(pending);
    }
    rounds
}
