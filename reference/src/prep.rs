//! Good preprocessing from a generator, and the conditions for it.

use crate::circuit::{self, Gate};
use crate::field::{mul, sub, sum, P};
use crate::random::Random;

/// Random shares of a number, one for each party.
fn split(random: &mut Random, parties: usize, number: u32) -> Vec<u32> {
    let mut shares = random.elements(parties);
    let chosen = random.below(parties);
    let excess = sub(sum(&shares), number);
    shares[chosen] = sub(shares[chosen], excess);
    shares
}

/// The preprocessing of all parties.
struct Preps {
    key: u32,
    lists: Vec<Vec<u32>>,
}

impl Preps {
    fn push(&mut self, numbers: Vec<u32>) {
        for (list, number) in self.lists.iter_mut().zip(numbers) {
            list.push(number);
        }
    }

    /// Shares of a number, and MAC shares of it.
    fn push_shared(&mut self, random: &mut Random, number: u32) {
        let parties = self.lists.len();
        self.push(split(random, parties, number));
        self.push(split(random, parties, mul(self.key, number)));
    }

    /// A mask that one party knows whole; what the others have in that place is any element.
    fn push_mask(&mut self, random: &mut Random, knower: u32) {
        let mask = random.element();
        self.push_shared(random, mask);
        let mut whole = random.elements(self.lists.len());
        whole[knower as usize] = mask;
        self.push(whole);
    }
}

/// Good preprocessing for an accepted circuit under the given key, joined in party order. All shares
/// and masks are random, so is a whole mask where it is not read.
pub fn make(random: &mut Random, parties: u32, circuit: &[u32], key: u32) -> Vec<u32> {
    let count = parties as usize;
    let mut preps = Preps {
        key,
        lists: vec![Vec::new(); count],
    };
    preps.push(split(random, count, key));
    for gate in circuit::gates(circuit) {
        match gate {
            Gate::Input { owner } => preps.push_mask(random, owner),
            Gate::Multiply { .. } => {
                let (a, b) = (random.element(), random.element());
                preps.push_shared(random, a);
                preps.push_shared(random, b);
                preps.push_shared(random, mul(a, b));
            }
            Gate::Square { .. } => {
                let a = random.element();
                preps.push_shared(random, a);
                preps.push_shared(random, mul(a, a));
            }
            Gate::Give { receiver, .. } => preps.push_mask(random, receiver),
            _ => {}
        }
    }
    preps.lists.concat()
}

/// A condition of good preprocessing that does not hold.
#[derive(Clone, Copy, Debug, PartialEq, Eq, PartialOrd, Ord)]
pub enum Fault {
    /// MAC shares of a mask that do not sum to the key times the mask.
    MaskMac,
    /// An owner's whole mask that is not the mask.
    WholeMask,
    /// MAC shares of a, b or c that do not sum to the key times it.
    TripleMac,
    /// c is not a times b.
    Product,
    /// MAC shares of a pair's a or c that do not sum to the key times it.
    PairMac,
    /// A pair's c is not a times a.
    Square,
    /// MAC shares of a give gate's mask that do not sum to the key times the mask.
    GivenMac,
    /// A receiver's whole mask that is not the mask.
    GivenMask,
}

/// What is wrong with joined preprocessing that passes questions 8 and 9: "Material over all seats is
/// good when".
pub fn faults(parties: u32, circuit: &[u32], preps: &[u32]) -> Vec<Fault> {
    let len = preps.len() / parties as usize;
    let total = |index: usize| sum(preps.iter().skip(index).step_by(len));
    let key = total(0);
    let shared = |index: usize| total(index + 1) == mul(key, total(index));
    let whole = |party: u32, record: usize| preps[party as usize * len + record + 2];
    let mut record = 1;
    let mut faults = Vec::new();
    for gate in circuit::gates(circuit) {
        let conditions = match gate {
            Gate::Input { owner } => vec![
                (Fault::MaskMac, shared(record)),
                (Fault::WholeMask, whole(owner, record) == total(record)),
            ],
            Gate::Give { receiver, .. } => vec![
                (Fault::GivenMac, shared(record)),
                (Fault::GivenMask, whole(receiver, record) == total(record)),
            ],
            Gate::Multiply { .. } => {
                let product = mul(total(record), total(record + 2));
                let macs = [0, 2, 4].into_iter().all(|number| shared(record + number));
                vec![
                    (Fault::TripleMac, macs),
                    (Fault::Product, total(record + 4) == product),
                ]
            }
            Gate::Square { .. } => {
                let square = mul(total(record), total(record));
                vec![
                    (Fault::PairMac, shared(record) && shared(record + 2)),
                    (Fault::Square, total(record + 2) == square),
                ]
            }
            _ => Vec::new(),
        };
        faults.extend(
            conditions
                .iter()
                .filter(|(_, good)| !good)
                .map(|(fault, _)| *fault),
        );
        record += gate.record_len();
    }
    faults
}

/// Whether the joined preprocessing of all parties is good for an accepted circuit.
pub fn is_good(parties: u32, circuit: &[u32], preps: &[u32]) -> bool {
    circuit::shape(parties, circuit).is_ok_and(|shape| {
        preps.len() == parties as usize * shape.prep_len()
            && preps.iter().all(|&number| number < P)
            && faults(parties, circuit, preps).is_empty()
    })
}
