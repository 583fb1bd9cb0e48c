//! Secrecy: two runs on other inputs, whose preprocessing is matched one for one.

use super::{Case, Left};
use reference::circuit::{self, Gate};
use reference::field::{add, mul, sub, sum};
use reference::plain;
use reference::prep;
use reference::random::{Kinds, Random};

/// A run and other inputs, seen by some parties. The outputs are equal at out gates and at give gates whose receiver
/// is seen.
pub struct Two {
    pub case: Case,
    pub inputs: Vec<u32>,
    pub seen: Vec<bool>,
    /// A party that is not seen.
    pub carrier: usize,
}

/// What each wire moves by from the inputs to others.
pub fn moves(case: &Case, to: &[u32]) -> Vec<u32> {
    let values = |inputs| plain::values(case.parties, &case.circuit, inputs).unwrap();
    let pairs = values(&case.inputs).into_iter().zip(values(to));
    pairs
        .map(|(from, to)| sub(to.unwrap_or(0), from.unwrap_or(0)))
        .collect()
}

impl Two {
    /// The inputs of parties that are seen stay; of the others some change their sign, some to any element.
    pub fn random(random: &mut Random, kinds: Kinds) -> Option<Two> {
        let key = random.edge_element();
        let mut case = Case::random_of(random, kinds, 24, key);
        let carrier = random.below(case.count());
        let seen: Vec<bool> = (0..case.count())
            .map(|party| party != carrier && random.once_in(2))
            .collect();
        let owners = (0..case.count()).flat_map(|party| vec![party; case.shape.owned[party]]);
        let inputs: Vec<u32> = owners
            .zip(&case.inputs)
            .map(|(owner, &input)| match random.below(4) {
                _ if seen[owner] => input,
                0 => input,
                1 => random.element(),
                _ => sub(0, input),
            })
            .collect();
        let moved = moves(&case, &inputs);
        let gates: Vec<Gate> = circuit::gates(&case.circuit).collect();
        for (index, gate) in gates.iter().enumerate() {
            let told = match gate.receiver() {
                None => gate.is_output(),
                Some(receiver) => seen[receiver as usize],
            };
            if told {
                let equal: Vec<usize> = (0..index)
                    .filter(|&wire| !gates[wire].is_output() && moved[wire] == 0)
                    .collect();
                if equal.is_empty() {
                    return None;
                }
                case.circuit[4 * index + 1] = random.pick(&equal) as u32;
            }
        }
        Some(Two {
            case,
            inputs,
            seen,
            carrier,
        })
    }

    /// The match of the preprocessing: masks of in gates move as the inputs do, a and b as the wires do, c so that it
    /// stays their product, masks of give gates as the wires do, all at the carrier; a whole mask at the party that
    /// knows it.
    pub fn matched(&self, case: &Case, to: &[u32]) -> Case {
        let moves = moves(case, to);
        let len = case.shape.prep_len();
        let total = |index: usize| sum(case.preps.iter().skip(index).step_by(len));
        let key = total(0);
        let mut preps = case.preps.clone();
        let mut move_by = |party: usize, index: usize, by: u32| {
            let number = &mut preps[party * len + index];
            *number = add(*number, by);
        };
        let mut record = 1;
        for (index, gate) in circuit::gates(&case.circuit).enumerate() {
            let moved = match gate {
                Gate::Input { owner } => {
                    move_by(owner as usize, record + 2, moves[index]);
                    vec![moves[index]]
                }
                Gate::Multiply { left, right } => {
                    let (a, b) = (total(record), total(record + 2));
                    let (by_a, by_b) = (moves[left], moves[right]);
                    let c = mul(add(a, by_a), add(b, by_b));
                    vec![by_a, by_b, sub(c, mul(a, b))]
                }
                Gate::Square { wire } => {
                    let (a, by) = (total(record), moves[wire]);
                    let c = mul(add(a, by), add(a, by));
                    vec![by, sub(c, mul(a, a))]
                }
                Gate::Give { wire, receiver } => {
                    move_by(receiver as usize, record + 2, moves[wire]);
                    vec![moves[wire]]
                }
                _ => Vec::new(),
            };
            for (number, by) in moved.into_iter().enumerate() {
                move_by(self.carrier, record + 2 * number, by);
                move_by(self.carrier, record + 2 * number + 1, mul(key, by));
            }
            record += gate.record_len();
        }
        Case {
            preps,
            inputs: to.to_vec(),
            ..case.clone()
        }
    }

    /// Both runs write the same words and leave the same scratch to the parties that are seen, whose preprocessing
    /// is the same; and the match of the match is where it began. What both leave.
    pub fn assert_alike(&self) -> [Left; 2] {
        let (first, second) = (&self.case, self.matched(&self.case, &self.inputs));
        assert!(prep::is_good(first.parties, &first.circuit, &first.preps));
        assert!(prep::is_good(first.parties, &first.circuit, &second.preps));
        assert_eq!(self.matched(&second, &first.inputs).preps, first.preps);

        let (left, right) = (first.joint(), second.joint());
        assert_eq!(left.result.unwrap(), right.result.unwrap());
        assert_eq!(left.transcript, right.transcript);
        let outputs = left.outputs.iter().zip(&right.outputs);
        let gates = circuit::gates(&first.circuit).filter(|gate| gate.is_output());
        for (gate, (left, right)) in gates.zip(outputs) {
            let told = gate
                .receiver()
                .is_none_or(|party| self.seen[party as usize]);
            assert!(left == right || !told);
        }
        for party in (0..first.count()).filter(|&party| self.seen[party]) {
            let part = |list: &[u32], len: usize| list[party * len..][..len].to_vec();
            let len = first.shape.prep_len();
            assert_eq!(part(&first.preps, len), part(&second.preps, len));
            let len = first.shape.scratch_len();
            assert_eq!(part(&left.scratch, len), part(&right.scratch, len));
        }
        [left, right]
    }
}
