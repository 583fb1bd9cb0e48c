//! What one party computes, on its own numbers, without asking any question.
//!
//! The single entries and the joint run both use these steps, after their own questions.

use crate::circuit::{Gate, Layout};
use crate::commitment::{self, REVEALED, WORDS};
use crate::field::{add, inner_product, inverse, mul, product, reduce, sub};

#[derive(Clone, Copy)]
pub(crate) struct Local {
    /// Whether this is party 0, which alone adds public numbers to its share.
    first: bool,
    key: u32,
    layout: Layout,
}

impl Local {
    pub fn new(party: usize, prep: &[u32], layout: Layout) -> Local {
        Local {
            first: party == 0,
            key: prep[0],
            layout,
        }
    }

    /// A public number's part in this party's share.
    fn public(self, number: u32) -> u32 {
        if self.first {
            number
        } else {
            0
        }
    }

    /// "The owner posts input - whole mask".
    pub fn input_word(record: &[u32], input: u32) -> u32 {
        sub(input, record[2])
    }

    /// "Seat 0 adds e to its mask share, each seat adds key share x e to its MAC share."
    pub fn receive_input(self, scratch: &mut [u32], gate: usize, record: &[u32], e: u32) {
        scratch[self.layout.share(gate)] = add(record[0], self.public(e));
        scratch[self.layout.mac(gate)] = add(record[1], mul(self.key, e));
    }

    /// "The seat's shares of E = first - a and D = second - b."
    pub fn multiply_words(
        self,
        scratch: &[u32],
        record: &[u32],
        left: usize,
        right: usize,
    ) -> [u32; 2] {
        [
            sub(scratch[self.layout.share(left)], record[0]),
            sub(scratch[self.layout.share(right)], record[2]),
        ]
    }

    /// Appends E and D after `pending` opened entries, and makes the new share and MAC share.
    pub fn receive_multiply(
        self,
        scratch: &mut [u32],
        (gate, left, right): (usize, usize, usize),
        record: &[u32],
        pending: usize,
        (e, d): (u32, u32),
    ) {
        let layout = self.layout;
        let (a, a_mac, b, b_mac, c, c_mac) = (
            record[0], record[1], record[2], record[3], record[4], record[5],
        );
        scratch[layout.opened(pending)] = e;
        scratch[layout.opened(pending + 1)] = d;
        scratch[layout.opened_mac(pending)] = sub(scratch[layout.mac(left)], a_mac);
        scratch[layout.opened_mac(pending + 1)] = sub(scratch[layout.mac(right)], b_mac);

        let ed = mul(e, d);
        let share = u64::from(c) + product(e, b) + product(d, a) + u64::from(self.public(ed));
        let mac = u64::from(c_mac) + product(e, b_mac) + product(d, a_mac) + product(self.key, ed);
        scratch[layout.share(gate)] = reduce(share);
        scratch[layout.mac(gate)] = reduce(mac);
    }

    /// "One round of one word opens E = first - a".
    pub fn square_word(self, scratch: &[u32], record: &[u32], wire: usize) -> u32 {
        sub(scratch[self.layout.share(wire)], record[0])
    }

    /// Appends E after `pending` opened entries, and makes the new share and MAC share.
    pub fn receive_square(
        self,
        scratch: &mut [u32],
        (gate, wire): (usize, usize),
        record: &[u32],
        pending: usize,
        e: u32,
    ) {
        let layout = self.layout;
        let (a, a_mac, c, c_mac) = (record[0], record[1], record[2], record[3]);
        scratch[layout.opened(pending)] = e;
        scratch[layout.opened_mac(pending)] = sub(scratch[layout.mac(wire)], a_mac);

        let ee = mul(e, e);
        let share = u64::from(c) + 2 * product(e, a) + u64::from(self.public(ee));
        let mac = u64::from(c_mac) + 2 * product(e, a_mac) + product(self.key, ee);
        scratch[layout.share(gate)] = reduce(share);
        scratch[layout.mac(gate)] = reduce(mac);
    }

    /// "Show, one word, the seat's share of first."
    pub fn output_word(self, scratch: &[u32], wire: usize) -> u32 {
        scratch[self.layout.share(wire)]
    }

    /// "Hearing makes the sum and its MAC share the only opened entry, at index 0."
    pub fn receive_output(self, scratch: &mut [u32], wire: usize, sum: u32) {
        scratch[self.layout.opened(0)] = sum;
        scratch[self.layout.opened_mac(0)] = scratch[self.layout.mac(wire)];
    }

    /// A give gate "shows the line less the mask": the same at every party.
    pub fn give_word(self, scratch: &[u32], record: &[u32], wire: usize) -> u32 {
        sub(scratch[self.layout.share(wire)], record[0])
    }

    /// Makes the sum and its MAC share, which is the wire's less the mask's, the only opened entry.
    pub fn receive_give(self, scratch: &mut [u32], record: &[u32], wire: usize, sum: u32) {
        scratch[self.layout.opened(0)] = sum;
        scratch[self.layout.opened_mac(0)] = sub(scratch[self.layout.mac(wire)], record[1]);
    }

    /// "v is the sum of draw x opened value; the check word is the sum of draw x MAC share, less key
    /// share x v." There is one coefficient for each opened entry.
    pub fn check_share(self, scratch: &[u32], coefficients: &[u32]) -> u32 {
        let entries = coefficients.len();
        let opened = &scratch[self.layout.opened(0)..][..entries];
        let opened_macs = &scratch[self.layout.opened_mac(0)..][..entries];
        let v = inner_product(coefficients, opened);
        sub(inner_product(coefficients, opened_macs), mul(self.key, v))
    }

    /// Writes the words of the nonce that is handed over at a commitment.
    pub fn keep_nonce(self, scratch: &mut [u32], nonce: &[u8]) {
        let words = commitment::nonce_words(nonce);
        scratch[self.layout.nonce()..][..WORDS].copy_from_slice(&words);
    }

    /// The words that reveal a check share: it, and the nonce as it stands in the scratch.
    pub fn revealed(self, scratch: &[u32], check_share: u32) -> [u32; REVEALED] {
        commitment::revealed(check_share, &scratch[self.layout.nonce()..])
    }

    /// Writes the marks of all parties as they are heard.
    pub fn receive_marks(self, scratch: &mut [u32], marks: &[u32]) {
        scratch[self.layout.mark(0)..][..marks.len()].copy_from_slice(marks);
    }

    /// The lowest party whose revealed words do not hash to the mark written for it.
    pub fn lowest_unfit(self, scratch: &[u32], revealed: &[u32]) -> Option<u32> {
        let marks = &scratch[self.layout.mark(0)..self.layout.len()];
        commitment::lowest_unfit(marks, revealed)
    }

    /// The score that a passing second check releases.
    pub fn output(self, scratch: &[u32]) -> u32 {
        scratch[self.layout.opened(0)]
    }

    /// The score that a passing second check gives the receiver: "the shown sum plus the whole mask".
    pub fn given(self, scratch: &[u32], record: &[u32]) -> u32 {
        add(scratch[self.layout.opened(0)], record[2])
    }

    /// "Plus adds the constant at seat 0 only and key share x constant to every MAC share. Add, sub
    /// and times act on share and MAC share alike." Over "multiplies share and MAC share alike by the constant's
    /// inverse". False, with nothing written, for a gate that needs a round.
    pub fn linear(self, scratch: &mut [u32], index: usize, gate: Gate) -> bool {
        let layout = self.layout;
        let share = |wire: usize| scratch[layout.share(wire)];
        let mac = |wire: usize| scratch[layout.mac(wire)];
        let (new_share, new_mac) = match gate {
            Gate::Add { left, right } => {
                (add(share(left), share(right)), add(mac(left), mac(right)))
            }
            Gate::Sub { left, right } => {
                (sub(share(left), share(right)), sub(mac(left), mac(right)))
            }
            Gate::Plus { wire, constant } => (
                add(share(wire), self.public(constant)),
                add(mac(wire), mul(self.key, constant)),
            ),
            Gate::Times { wire, constant } => {
                (mul(share(wire), constant), mul(mac(wire), constant))
            }
            Gate::Over { wire, constant } => {
                let inverse = inverse(constant);
                (mul(share(wire), inverse), mul(mac(wire), inverse))
            }
            Gate::Input { .. }
            | Gate::Multiply { .. }
            | Gate::Square { .. }
            | Gate::Output { .. }
            | Gate::Give { .. } => return false,
        };
        scratch[layout.share(index)] = new_share;
        scratch[layout.mac(index)] = new_mac;
        true
    }
}
