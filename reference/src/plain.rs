//! A circuit's meaning on plain inputs, and the round formula.

use crate::circuit::{self, Gate};
use crate::field::{add, inverse, mul, sub};
use crate::joint::first_inputs;
use crate::refusal::Refusal;

/// The value of each gate on inputs joined in party order; None for an out or a give gate, which has no value.
/// Fails as questions 1 and 3 to 7 do. Panics if inputs are missing.
pub fn values(parties: u32, circuit: &[u32], inputs: &[u32]) -> Result<Vec<Option<u32>>, Refusal> {
    let shape = circuit::shape(parties, circuit)?;
    let mut next_input = first_inputs(&shape);
    let mut values: Vec<Option<u32>> = Vec::with_capacity(shape.gates);
    for gate in circuit::gates(circuit) {
        let value =
            |wire: usize| values[wire].expect("an accepted circuit names gates with values");
        values.push(match gate {
            Gate::Input { owner } => {
                let next = &mut next_input[owner as usize];
                *next += 1;
                Some(inputs[*next - 1])
            }
            Gate::Add { left, right } => Some(add(value(left), value(right))),
            Gate::Sub { left, right } => Some(sub(value(left), value(right))),
            Gate::Plus { wire, constant } => Some(add(value(wire), constant)),
            Gate::Times { wire, constant } => Some(mul(value(wire), constant)),
            Gate::Over { wire, constant } => Some(mul(value(wire), inverse(constant))),
            Gate::Multiply { left, right } => Some(mul(value(left), value(right))),
            Gate::Square { wire } => Some(mul(value(wire), value(wire))),
            Gate::Output { .. } | Gate::Give { .. } => None,
        });
    }
    Ok(values)
}

/// "An out line's score is the value it names", and so is a give's: all of them, in order.
pub fn outputs(parties: u32, circuit: &[u32], inputs: &[u32]) -> Result<Vec<u32>, Refusal> {
    let values = values(parties, circuit, inputs)?;
    Ok(circuit::gates(circuit)
        .filter_map(|gate| match gate {
            Gate::Output { wire } | Gate::Give { wire, .. } => values[wire],
            _ => None,
        })
        .collect())
}

/// "A run takes I + M + 5 x outs - 2 x (outs with nothing unchecked) rounds", and one more for each sq gate,
/// for an accepted circuit; a give gate counts as an out gate.
pub fn rounds(circuit: &[u32]) -> usize {
    let (mut inputs, mut products, mut squares) = (0, 0, 0);
    let (mut outputs, mut unneeded, mut pending) = (0, 0, 0);
    for gate in circuit::gates(circuit) {
        match gate {
            Gate::Input { .. } => inputs += 1,
            Gate::Multiply { .. } => products += 1,
            Gate::Square { .. } => squares += 1,
            Gate::Output { .. } | Gate::Give { .. } => {
                outputs += 1;
                unneeded += usize::from(pending == 0);
            }
            _ => {}
        }
        pending = gate.pending_after(pending);
    }
    inputs + products + squares + 5 * outputs - 2 * unneeded
}
