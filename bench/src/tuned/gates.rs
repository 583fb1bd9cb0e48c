//! Questions 3 to 7 of whole blocks of gates, and what is counted of an accepted circuit.

use reference::circuit::{ADD, GIVE, IN, MAX_GATES, MUL, OUT, OVER, PLUS, SQ, SUB, TIMES};
use reference::{Refusal, P};

use super::field::ask;

pub const IN8: u8 = IN as u8;
pub const ADD8: u8 = ADD as u8;
pub const SUB8: u8 = SUB as u8;
pub const PLUS8: u8 = PLUS as u8;
pub const TIMES8: u8 = TIMES as u8;
pub const MUL8: u8 = MUL as u8;
pub const OUT8: u8 = OUT as u8;
pub const SQ8: u8 = SQ as u8;
pub const GIVE8: u8 = GIVE as u8;
pub const OVER8: u8 = OVER as u8;

/// One field of each gate, as a byte: an index of a list of 256 that needs no question.
type Plane = [u8; MAX_GATES];

/// The gates of an accepted circuit. What lies after the last one is 0.
pub struct Gates {
    pub len: usize,
    kinds: Plane,
    /// The first named wires; 0 for in gates.
    firsts: Plane,
    /// The second named wires; 0 for gates that name one, and for a give gate, whose second is a party.
    seconds: Plane,
    /// The owners of in gates; 255 for others and after the last gate.
    owners: Plane,
    /// The constants, of which only those are told apart that are 0 and that are not.
    constants: Plane,
}

/// The index of each gate.
const INDICES: Plane = {
    let mut indices = [0; MAX_GATES];
    let mut index = 0;
    while index < MAX_GATES {
        indices[index] = index as u8;
        index += 1;
    }
    indices
};

/// Numbers or gates that are gone through at once.
const BLOCK: usize = 16;

fn blocks_of(plane: &mut Plane) -> impl Iterator<Item = &mut [u8; BLOCK]> {
    plane.as_chunks_mut().0.iter_mut()
}

/// A byte of ones where the condition holds.
fn mask(condition: bool) -> u8 {
    u8::from(condition).wrapping_neg()
}

/// The fields of all gates, a byte for each.
type Bytes = [[u8; BLOCK]; 4 * MAX_GATES / BLOCK];

/// Whether all numbers are elements. Makes bytes of them; one that does not fit becomes 255, which is no kind, names nothing
/// and is not 0.
fn narrow(circuit: &[u32], bytes: &mut Bytes) -> bool {
    let (blocks, rest) = circuit.as_chunks::<BLOCK>();
    let (mut top, mut next) = ([0; BLOCK], [0; BLOCK]);
    let mut fill = |numbers: &[u32; BLOCK], bytes: &mut [u8; BLOCK]| {
        for lane in 0..BLOCK {
            top[lane % 4] |= numbers[lane];
            next[lane % 4] |= numbers[lane].wrapping_add(1);
            bytes[lane] = (numbers[lane] as i32).clamp(0, 255) as u8;
        }
    };
    for (numbers, bytes) in blocks.iter().zip(&mut *bytes) {
        fill(numbers, bytes);
    }
    if !rest.is_empty() {
        let mut last = [0; BLOCK];
        last[..rest.len()].copy_from_slice(rest);
        fill(&last, &mut bytes[blocks.len()]);
    }
    top.into_iter().chain(next).all(|number| number >> 31 == 0)
}

/// How many gates of a circuit there are of some kinds. In an accepted circuit no number is above 255.
#[derive(Clone, Copy, Default)]
pub struct Counts {
    pub inputs: usize,
    pub products: usize,
    pub squares: usize,
    /// Out and give gates.
    pub outputs: usize,
    pub gives: usize,
}

impl Counts {
    /// Numbers of the key share and of all records.
    pub fn prep_len(self) -> usize {
        1 + 3 * (self.inputs + self.gives) + 6 * self.products + 4 * self.squares
    }

    /// Entries that the gates open in their own rounds.
    pub fn entries(self) -> usize {
        2 * self.products + self.squares
    }
}

/// Counts kinds, at most 255 of each.
#[inline]
fn count(kinds: impl Iterator<Item = u8>) -> Counts {
    let (mut inputs, mut products, mut squares) = (0u8, 0u8, 0u8);
    let (mut outs, mut gives) = (0u8, 0u8);
    for kind in kinds {
        inputs = inputs.wrapping_add(u8::from(kind == IN8));
        products = products.wrapping_add(u8::from(kind == MUL8));
        squares = squares.wrapping_add(u8::from(kind == SQ8));
        outs = outs.wrapping_add(u8::from(kind == OUT8));
        gives = gives.wrapping_add(u8::from(kind == GIVE8));
    }
    Counts {
        inputs: inputs.into(),
        products: products.into(),
        squares: squares.into(),
        outputs: usize::from(outs) + usize::from(gives),
        gives: gives.into(),
    }
}

/// Ones where the gate is an out or a give gate.
fn is_output(kind: u8) -> u8 {
    mask(kind == OUT8) | mask(kind == GIVE8)
}

impl Gates {
    pub fn new() -> Gates {
        Gates {
            len: 0,
            kinds: [0; MAX_GATES],
            firsts: [0; MAX_GATES],
            seconds: [0; MAX_GATES],
            owners: [u8::MAX; MAX_GATES],
            constants: [0; MAX_GATES],
        }
    }

    /// Questions 3 to 7, of a number of parties that has passed question 1.
    pub fn read(&mut self, parties: u32, circuit: &[u32]) -> Result<(), Refusal> {
        let (lines, rest) = circuit.as_chunks::<4>();
        self.len = lines.len();
        ask(3, rest.is_empty() && (2..=MAX_GATES).contains(&self.len))?;
        let mut bytes = [[0; BLOCK]; 4 * MAX_GATES / BLOCK];
        let narrow = narrow(circuit, &mut bytes);
        self.part(&bytes);
        let yes = narrow
            && self.fields_fit(parties as u8)
            && self.values_named()
            && is_output(self.kinds[self.len - 1]) != 0;
        if yes {
            Ok(())
        } else {
            Err(first_no(parties, lines))
        }
    }

    /// Parts the bytes by fields.
    fn part(&mut self, bytes: &Bytes) {
        let names = blocks_of(&mut self.firsts).zip(blocks_of(&mut self.seconds));
        let others = blocks_of(&mut self.kinds).zip(blocks_of(&mut self.constants));
        let words = bytes
            .as_flattened()
            .as_chunks::<4>()
            .0
            .as_chunks::<BLOCK>()
            .0;
        let blocks = words.iter().zip(names.zip(others));
        for (words, ((firsts, seconds), (kinds, constants))) in
            blocks.take(self.len.div_ceil(BLOCK))
        {
            let words = words.map(u32::from_le_bytes);
            *kinds = words.map(|word| word as u8);
            *firsts = words.map(|word| (word >> 8) as u8);
            *seconds = words.map(|word| (word >> 16) as u8);
            *constants = words.map(|word| (word >> 24) as u8);
        }
    }

    /// Whether kinds, names and unused fields are right, that no out or give gate is named aside.
    fn fields_fit(&mut self, parties: u8) -> bool {
        let mut bad = 0;
        let fields = self.kinds.iter().zip(&mut self.firsts);
        let fields = fields.zip(&mut self.seconds);
        let fields = fields.zip(&mut self.owners).zip(&self.constants);
        let fields = fields.zip(&INDICES).take(self.len);
        for (((((&kind, first), second), owner), &constant), &index) in fields {
            let input = mask(kind == IN8);
            let give = mask(kind == GIVE8);
            let two = mask(kind & !1 == ADD8) | mask(kind == MUL8);
            let over = mask(kind == OVER8);
            let has_constant = mask(kind & !1 == PLUS8) | over;
            let first_end = (parties & input) | (index & !input);
            let second_end = (index & two) | (parties & give) | (1 & !(two | give));
            bad |= mask(kind.wrapping_sub(1) >= OVER8)
                | mask(*first >= first_end)
                | mask(*second >= second_end)
                | (constant & !has_constant)
                | (mask(constant == 0) & over);
            *owner = *first | !input;
            *first &= !input;
            *second &= !give;
        }
        bad == 0
    }

    /// Whether no gate names an out or a give gate.
    fn values_named(&self) -> bool {
        let out = self.kinds.map(is_output);
        let blocks = |plane| <[u8]>::as_chunks::<BLOCK>(plane).0.iter();
        let firsts = blocks(&self.firsts[..self.padded()]);
        let seconds = blocks(&self.seconds[..self.padded()]);
        let mut named = 0;
        for (firsts, seconds) in firsts.zip(seconds) {
            for (&first, &second) in firsts.iter().zip(seconds) {
                named |= out[usize::from(first)] | out[usize::from(second)];
            }
        }
        named == 0
    }

    /// The number of gates, filled up to whole blocks.
    fn padded(&self) -> usize {
        self.len.next_multiple_of(2 * BLOCK).min(MAX_GATES)
    }

    /// The gate's kind, the first and the second wire that it names.
    pub fn gate(&self, index: usize) -> (u8, u8, u8) {
        (self.kinds[index], self.firsts[index], self.seconds[index])
    }

    /// Whether there is such a gate, and it is an in gate.
    pub fn is_input(&self, index: u32) -> bool {
        self.kinds.get(index as usize) == Some(&IN8)
    }

    /// The gates from the first on, each with its kind and the two wires that it names.
    pub fn iter(&self) -> impl Iterator<Item = (u8, u8, u8)> + '_ {
        let names = self.firsts.iter().zip(&self.seconds);
        let all = self.kinds.iter().zip(names).take(self.len);
        all.map(|(&kind, (&first, &second))| (kind, first, second))
    }

    /// What there is in the circuit.
    #[inline]
    pub fn counts(&self) -> Counts {
        count(self.kinds[..self.padded()].iter().copied())
    }

    /// What there is before a gate.
    #[inline]
    pub fn counts_before(&self, end: u8) -> Counts {
        let kinds = self.kinds[..self.padded()].iter().zip(&INDICES);
        count(kinds.map(|(&kind, &index)| kind & mask(index < end)))
    }

    /// How many in gates the party has.
    pub fn owned(&self, party: u8) -> usize {
        let mut owned = 0u8;
        for &owner in &self.owners[..self.padded()] {
            owned = owned.wrapping_add(u8::from(owner == party));
        }
        owned.into()
    }

    /// How many in gates the party has before a gate.
    pub fn owned_before(&self, party: u8, end: usize) -> usize {
        let owners = self.owners[..end].iter();
        owners.filter(|&&owner| owner == party).count()
    }

    /// How many out and give gates have something opened and unchecked before them.
    pub fn checked_outputs(&self) -> usize {
        let (mut checked, mut unchecked) = (0, 0);
        let opens = |kind: u8| mask(kind == MUL8) | mask(kind == SQ8);
        for kinds in &self.kinds.as_chunks::<BLOCK>().0[..self.padded() / BLOCK] {
            // Most blocks have no out gate.
            let outputs = kinds.iter().fold(0, |any, &kind| any | is_output(kind));
            if outputs == 0 {
                unchecked |= kinds.iter().fold(0, |any, &kind| any | opens(kind)) & 1;
                continue;
            }
            for &kind in kinds {
                if is_output(kind) != 0 {
                    checked += usize::from(unchecked);
                    unchecked = 0;
                } else {
                    unchecked |= opens(kind) & 1;
                }
            }
        }
        checked
    }

    /// How many opened entries the gates before one leave unchecked.
    pub fn pending(&self, index: usize) -> usize {
        let kinds = self.kinds[..index].iter().rev();
        kinds
            .take_while(|&&kind| is_output(kind) == 0)
            .map(|&kind| usize::from(kind == MUL8) * 2 + usize::from(kind == SQ8))
            .sum()
    }
}

/// The first no of questions 4 to 7, of gates that do not pass them all.
#[cold]
fn first_no(parties: u32, lines: &[[u32; 4]]) -> Refusal {
    for (index, &[kind, first, second, constant]) in lines.iter().enumerate() {
        let no = |number| Refusal { number, index };
        let is_wire =
            |name: u32| (name as usize) < index && ![OUT, GIVE].contains(&lines[name as usize][0]);
        let two = [ADD, SUB, MUL].contains(&kind);
        if !(IN..=OVER).contains(&kind) {
            return no(4);
        }
        let named = match kind {
            IN => first < parties,
            GIVE => is_wire(first) && second < parties,
            _ => is_wire(first) && (!two || is_wire(second)),
        };
        if !named {
            return no(5);
        }
        let allowed = match kind {
            PLUS | TIMES => 0..P,
            OVER => 1..P,
            _ => 0..1,
        };
        if !allowed.contains(&constant) || (!two && kind != GIVE && second != 0) {
            return no(6);
        }
    }
    Refusal {
        number: 7,
        index: 0,
    }
}
