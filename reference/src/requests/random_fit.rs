//! Random circuits of every kind that are grown so that each gate fits, or all before one.

use super::FitRequest;
use crate::circuit::{self, Gate, ADD, GIVE, IN, MUL, OUT, OVER, PLUS, SQ, SUB, TIMES};
use crate::field::P;
use crate::fit::{self, Change, Interval};
use crate::random::Random;

/// How wide the ranges of inputs are.
#[derive(Clone, Copy, Debug, PartialEq, Eq)]
pub(super) enum Width {
    /// To 1, seldom to 2: products can follow products without end.
    Bits,
    /// To 12.
    Small,
    /// To 46341, where a single product may leave.
    Roots,
    /// To p - 1.
    Any,
}

impl Width {
    pub(super) const ALL: [Width; 4] = [Width::Bits, Width::Small, Width::Roots, Width::Any];

    fn range(self, random: &mut Random) -> [u32; 2] {
        let most = match self {
            Width::Bits => {
                return random.pick(&[[0, 1], [0, 1], [0, 1], [1, 1], [1, 1], [1, 2], [0, 0]]);
            }
            Width::Small => 12,
            Width::Roots => 46_341,
            Width::Any => P - 1,
        };
        let end = |random: &mut Random| match random.below(4) {
            0 => 0,
            1 => most,
            _ => random.below(most as usize + 1) as u32,
        };
        let (one, other) = (end(random), end(random));
        match random.below(4) {
            0 => [one; 2],
            _ => [one.min(other), one.max(other)],
        }
    }
}

/// A circuit that grows gate by gate.
struct Growing {
    parties: u32,
    width: Width,
    /// Whether products follow products, each mostly of the one before.
    deep: bool,
    circuit: Vec<u32>,
    ranges: Vec<u32>,
    /// Of each gate; those of gates without a value are of no matter.
    intervals: Vec<Interval>,
    wires: Vec<u32>,
}

const LARGEST: i128 = P as i128 - 1;

impl Growing {
    fn new(random: &mut Random, parties: u32, width: Width) -> Growing {
        // Wider ranges leave too soon.
        let narrow = [Width::Bits, Width::Small].contains(&width);
        Growing {
            parties,
            width,
            deep: narrow && random.once_in(2),
            circuit: Vec::new(),
            ranges: Vec::new(),
            intervals: Vec::new(),
            wires: Vec::new(),
        }
    }

    fn high(&self, wire: u32) -> i128 {
        self.intervals[wire as usize].high
    }

    /// A constant that may bring a wire to the edge: `room` is the greatest that fits.
    fn constant(random: &mut Random, room: i128) -> u32 {
        match random.below(16) {
            0 => room as u32,
            1 => random.below(room as usize + 1) as u32,
            2 => 0,
            // One too many, if that is an element at all.
            3 => (room + 1).min(LARGEST) as u32,
            _ => random.below(4) as u32,
        }
    }

    /// A gate of the kind with operands and constant filled in.
    fn line(&self, random: &mut Random, kind: u32) -> [u32; 4] {
        let party = random.below(self.parties as usize) as u32;
        if kind == IN {
            return [IN, party, 0, 0];
        }
        let is_input = |wire: u32| self.circuit[4 * wire as usize] == IN;
        let worked_out = self.wires.iter().rfind(|&&wire| !is_input(wire));
        let first = match worked_out {
            Some(&recent) if self.deep && !random.once_in(4) => recent,
            _ if random.once_in(2) => self.wires[self.wires.len() - 1],
            _ => random.pick(&self.wires),
        };
        match kind {
            PLUS => [
                kind,
                first,
                0,
                Self::constant(random, LARGEST - self.high(first)),
            ],
            TIMES => {
                let room = LARGEST.checked_div(self.high(first)).unwrap_or(LARGEST);
                [kind, first, 0, Self::constant(random, room)]
            }
            OVER => [kind, first, 0, random.divisor()],
            OUT | SQ => [kind, first, 0, 0],
            GIVE => [kind, first, party, 0],
            SUB => {
                // A wire that can be taken away, if there is one.
                let low = self.intervals[first as usize].low;
                let below = self.wires.iter().filter(|&&wire| self.high(wire) <= low);
                let below: Vec<u32> = below.copied().collect();
                let second = match below.is_empty() || random.once_in(5) {
                    true => random.pick(&self.wires),
                    false => random.pick(&below),
                };
                [kind, first, second, 0]
            }
            _ => [kind, first, random.pick(&self.wires), 0],
        }
    }

    /// The interval of a gate that would come next. None for an over and for what leaves.
    fn interval(&self, line: [u32; 4], range: [u32; 2]) -> Option<Interval> {
        let gate = circuit::gate(&line, 0).expect("a kind");
        let range = Interval {
            low: range[0].into(),
            high: range[1].into(),
        };
        match gate {
            Gate::Output { .. } | Gate::Give { .. } => Some(range),
            gate => fit::interval(gate, range, |wire| self.intervals[wire])
                .filter(|interval| interval.fits()),
        }
    }

    fn push(&mut self, line: [u32; 4], range: [u32; 2], interval: Interval) {
        if circuit::has_value(&line) {
            self.wires.push(self.intervals.len() as u32);
        }
        if line[0] == IN {
            self.ranges.extend(range);
        }
        self.intervals.push(interval);
        self.circuit.extend(line);
    }

    /// A gate that fits.
    fn grow(&mut self, random: &mut Random) {
        const KINDS: [u32; 15] = [
            IN, IN, ADD, ADD, SUB, SUB, PLUS, PLUS, TIMES, MUL, MUL, MUL, SQ, OUT, GIVE,
        ];
        const DEEP: [u32; 9] = [MUL, MUL, MUL, SQ, SUB, PLUS, IN, OUT, GIVE];
        let kinds = if self.deep { &DEEP[..] } else { &KINDS };
        let range = self.width.range(random);
        for _ in 0..12 {
            let kind = random.pick(kinds);
            let line = self.line(random, kind);
            if let Some(interval) = self.interval(line, range) {
                return self.push(line, range, interval);
            }
        }
        let line = [PLUS, self.wires[0], 0, 0];
        let interval = self.intervals[self.wires[0] as usize];
        self.push(line, range, interval);
    }

    /// An over, or a gate that leaves, if one is found soon. What comes after it may name it.
    fn leave(&mut self, random: &mut Random) {
        let range = self.width.range(random);
        for _ in 0..40 {
            let kind = random.pick(&[ADD, SUB, SUB, PLUS, TIMES, MUL, SQ, OVER]);
            let line = self.line(random, kind);
            if self.interval(line, range).is_none() {
                let after = Interval { low: 0, high: 1 };
                return self.push(line, range, after);
            }
        }
        self.grow(random);
    }
}

/// An amount, often at the cap.
fn amount(random: &mut Random) -> u32 {
    match random.below(12) {
        0 => 0,
        1 => random.pick(&[P - 1, P, P + 1, u32::MAX]),
        2 => random.number(),
        3 => random.below(100_000) as u32,
        _ => random.between(1, 20) as u32,
    }
}

/// A call on a circuit of so many gates, at least 2, that fits; or with so many gates that do not, each somewhere after the first.
pub(super) fn random_fit(
    random: &mut Random,
    parties: u32,
    width: Width,
    lines: usize,
    leaving: usize,
) -> FitRequest {
    let mut growing = Growing::new(random, parties, width);
    let range = width.range(random);
    let line = growing.line(random, IN);
    let interval = growing.interval(line, range).expect("an element");
    growing.push(line, range, interval);
    let places: Vec<usize> = (0..leaving).map(|_| random.below(lines)).collect();
    for gate in 1..lines - 1 {
        if places.contains(&gate) {
            growing.leave(random);
        } else {
            growing.grow(random);
        }
    }
    let last = random.pick(&[OUT, GIVE]);
    let line = growing.line(random, last);
    growing.push(line, range, interval);

    let inputs: Vec<u32> = (0..lines as u32)
        .filter(|&gate| growing.circuit[4 * gate as usize] == IN)
        .collect();
    let change = (!random.once_in(5)).then(|| {
        let gate = random.pick(&inputs);
        let amount = amount(random);
        Change { gate, amount }
    });
    let outputs = lines - growing.wires.len();
    let excess = |random: &mut Random| random.below(6).saturating_sub(3);
    let of_intervals = 2 * lines + excess(random);
    let of_moves = match change {
        Some(_) => outputs + excess(random),
        None => random.below(2),
    };
    FitRequest::Fit {
        parties,
        circuit: growing.circuit,
        ranges: growing.ranges,
        change,
        intervals: random.numbers(of_intervals),
        moves: random.numbers(of_moves),
    }
}

/// The same request with one thing changed, which may or may not be refused.
pub(super) fn altered(random: &mut Random, request: &FitRequest) -> FitRequest {
    let mut request = request.clone();
    let FitRequest::Fit {
        parties,
        circuit,
        ranges,
        change,
        intervals,
        moves,
    } = &mut request
    else {
        return request;
    };
    let number = match random.below(3) {
        0 => random.below(12) as u32,
        _ => random.pick(&[0, 1, P - 1, P, P + 1, u32::MAX]),
    };
    // What was altered before may have left nothing to alter.
    if circuit.is_empty() || ranges.len() < 2 {
        return request;
    }
    match random.below(10) {
        0 => *parties = random.pick(&[0, 1, 2, 8, 9, u32::MAX]),
        1 | 2 => {
            let place = random.below(circuit.len());
            circuit[place] = number;
        }
        3 | 4 => {
            let place = random.below(ranges.len());
            ranges[place] = number;
        }
        5 => {
            let place = random.below(ranges.len() - 1);
            ranges.swap(place, place + 1);
        }
        6 => match random.below(3) {
            0 => drop(ranges.pop()),
            1 => ranges.push(number),
            _ => ranges.extend([0, 1]),
        },
        7 => {
            let gate = random.below(circuit.len() / 4 + 2) as u32;
            let amount = amount(random);
            *change = Some(Change { gate, amount });
        }
        8 => intervals.truncate(random.between(circuit.len() / 2 - 1, circuit.len() / 2)),
        _ => drop(moves.pop()),
    }
    request
}
