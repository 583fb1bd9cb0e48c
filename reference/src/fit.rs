//! Whether every value of a circuit stays an element in whole numbers, for all inputs in given ranges, and how far
//! an output can move.
//!
//! Ends of intervals and moves are whole numbers here, of more bits than any of them needs: what falls below 0 or
//! comes to the prime is seen as such.

use crate::circuit::{self, Gate};
use crate::field::P;
use crate::refusal::{ask, Refusal};

/// The largest element.
const LARGEST: i128 = P as i128 - 1;

/// An in gate, and by how much its input may change, the others being the same.
#[derive(Clone, Copy, Debug, PartialEq, Eq)]
pub struct Change {
    pub gate: u32,
    pub amount: u32,
}

#[derive(Clone, Copy, Debug, PartialEq, Eq)]
pub enum Fit {
    /// Every output is the whole-number result.
    Fits,
    /// The first gate that is an over, or whose value may leave the elements.
    Leaves { gate: usize },
}

/// The least and the greatest number that a gate's value can be, as far as the rule of its kind tells.
#[derive(Clone, Copy, Debug, PartialEq, Eq)]
pub struct Interval {
    pub low: i128,
    pub high: i128,
}

impl Interval {
    pub fn fits(self) -> bool {
        0 <= self.low && self.high <= LARGEST
    }
}

/// The interval of a gate's value, of those of the gates that it names, which fit; that of an in gate is its range. None for an over,
/// which has no whole-number result, and for an out or a give gate, which has no value.
pub fn interval(gate: Gate, range: Interval, of: impl Fn(usize) -> Interval) -> Option<Interval> {
    // What an operation makes of the lowest numbers, and of the highest.
    let (low, high) = match gate {
        Gate::Input { .. } => (range.low, range.high),
        Gate::Add { left, right } => (of(left).low + of(right).low, of(left).high + of(right).high),
        // The least difference takes the most away.
        Gate::Sub { left, right } => (of(left).low - of(right).high, of(left).high - of(right).low),
        Gate::Plus { wire, constant } => {
            let constant = i128::from(constant);
            (of(wire).low + constant, of(wire).high + constant)
        }
        Gate::Times { wire, constant } => {
            let constant = i128::from(constant);
            (of(wire).low * constant, of(wire).high * constant)
        }
        // No factor is below 0, so the lowest ones give the lowest product.
        Gate::Multiply { left, right } => {
            (of(left).low * of(right).low, of(left).high * of(right).high)
        }
        Gate::Square { wire } => (of(wire).low * of(wire).low, of(wire).high * of(wire).high),
        Gate::Over { .. } | Gate::Output { .. } | Gate::Give { .. } => return None,
    };
    Some(Interval { low, high })
}

/// The ranges of the in gates, lowest number first.
fn ranges_of(ranges: &[u32]) -> impl Iterator<Item = Interval> + '_ {
    ranges.chunks_exact(2).map(|range| Interval {
        low: range[0].into(),
        high: range[1].into(),
    })
}

/// "0 0 without a value."
const NO_VALUE: Interval = Interval { low: 0, high: 0 };

/// The interval of every gate of an accepted circuit. The error is the first gate that is an over or leaves the elements.
fn intervals_of(circuit: &[u32], ranges: &[u32]) -> Result<Vec<Interval>, usize> {
    let mut ranges = ranges_of(ranges);
    let mut intervals: Vec<Interval> = Vec::new();
    for (index, gate) in circuit::gates(circuit).enumerate() {
        let range = match gate {
            Gate::Input { .. } => ranges.next().expect("a range for each in gate"),
            _ => NO_VALUE,
        };
        let found = match gate {
            gate if gate.is_output() => NO_VALUE,
            gate => interval(gate, range, |wire| intervals[wire]).ok_or(index)?,
        };
        if !found.fits() {
            return Err(index);
        }
        intervals.push(found);
    }
    Ok(intervals)
}

/// How far each gate's value can move, at most `LARGEST`; an out or a give gate has the move of the gate that it names.
fn moves_of(circuit: &[u32], intervals: &[Interval], change: Change) -> Vec<i128> {
    let mut moves: Vec<i128> = Vec::new();
    for (index, gate) in circuit::gates(circuit).enumerate() {
        // A product moves by at most the one factor times the other's move, both ways round.
        let product = |left: usize, right: usize| {
            intervals[left].high * moves[right] + intervals[right].high * moves[left]
        };
        let found = match gate {
            Gate::Input { .. } if index == change.gate as usize => change.amount.into(),
            // The others do not change; no circuit that fits has an over.
            Gate::Input { .. } | Gate::Over { .. } => 0,
            Gate::Add { left, right } | Gate::Sub { left, right } => moves[left] + moves[right],
            Gate::Plus { wire, .. } => moves[wire],
            Gate::Times { wire, constant } => i128::from(constant) * moves[wire],
            Gate::Multiply { left, right } => product(left, right),
            Gate::Square { wire } => product(wire, wire),
            Gate::Output { wire } | Gate::Give { wire, .. } => moves[wire],
        };
        moves.push(found.min(LARGEST));
    }
    moves
}

/// Question 26: "ranges of the wrong count, reversed or with an end at or above p".
fn are_ranges(ranges: &[u32], inputs: usize) -> bool {
    ranges.len() == 2 * inputs
        && ranges_of(ranges).all(|range| range.low <= range.high && range.fits())
}

/// Asks 1, 3 to 7, 26, 27 if there is a change, and 18. Where the circuit fits, writes the interval of every gate, lowest number first, and if there is
/// a change the move of every output; else nothing.
pub fn fit(
    parties: u32,
    circuit: &[u32],
    ranges: &[u32],
    change: Option<Change>,
    intervals: &mut [u32],
    moves: &mut [u32],
) -> Result<Fit, Refusal> {
    let shape = circuit::shape(parties, circuit)?;
    ask(26, are_ranges(ranges, shape.inputs))?;
    if let Some(change) = change {
        let named = circuit::gate(circuit, change.gate as usize);
        ask(27, matches!(named, Some(Gate::Input { .. })))?;
    }
    // The second list is of no matter where nothing will be written to it.
    let wanted = change.map_or(0, |_| shape.outputs);
    let have_room = intervals.len() >= 2 * shape.gates && moves.len() >= wanted;
    ask(18, have_room)?;

    let found = match intervals_of(circuit, ranges) {
        Ok(found) => found,
        Err(gate) => return Ok(Fit::Leaves { gate }),
    };
    let ends = found.iter().flat_map(|of| [of.low, of.high]);
    for (place, end) in intervals.iter_mut().zip(ends) {
        *place = end as u32;
    }
    if let Some(change) = change {
        let of_gates = moves_of(circuit, &found, change).into_iter();
        let of_gates = of_gates.zip(circuit::gates(circuit));
        let of_outputs = of_gates.filter(|(_, gate)| gate.is_output());
        for (place, (found, _)) in moves.iter_mut().zip(of_outputs) {
            *place = found as u32;
        }
    }
    Ok(Fit::Fits)
}
