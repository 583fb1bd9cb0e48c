//! A deterministic generator, and random circuits that pass questions 3 to 7.

use crate::circuit::{self, ADD, GIVE, IN, MUL, OUT, OVER, PLUS, SQ, SUB, TIMES};
use crate::field::P;
use crate::party::Round;

/// The splitmix64 generator.
#[derive(Clone, Debug)]
pub struct Random {
    state: u64,
}

impl Random {
    pub fn new(seed: u64) -> Random {
        Random { state: seed }
    }

    fn bits(&mut self) -> u64 {
        self.state = self.state.wrapping_add(0x9e37_79b9_7f4a_7c15);
        let mut z = self.state;
        z = (z ^ (z >> 30)).wrapping_mul(0xbf58_476d_1ce4_e5b9);
        z = (z ^ (z >> 27)).wrapping_mul(0x94d0_49bb_1331_11eb);
        z ^ (z >> 31)
    }

    /// Any 32-bit number.
    pub fn number(&mut self) -> u32 {
        (self.bits() >> 32) as u32
    }

    /// A number below `bound`, which is not 0.
    pub fn below(&mut self, bound: usize) -> usize {
        (self.bits() % bound as u64) as usize
    }

    /// A number from `low` to `high`, both included.
    pub fn between(&mut self, low: usize, high: usize) -> usize {
        low + self.below(high - low + 1)
    }

    /// True once in `times`.
    pub fn once_in(&mut self, times: usize) -> bool {
        self.below(times) == 0
    }

    /// Any element.
    pub fn element(&mut self) -> u32 {
        (self.bits() % u64::from(P)) as u32
    }

    /// An element that is not 0.
    pub fn nonzero(&mut self) -> u32 {
        1 + (self.bits() % u64::from(P - 1)) as u32
    }

    /// An element, often one at an end of the range.
    pub fn edge_element(&mut self) -> u32 {
        match self.below(8) {
            0 => 0,
            1 => 1,
            2 => P - 1,
            _ => self.element(),
        }
    }

    /// An element that is not 0, often one at an end of the range or one with a short inverse.
    pub fn divisor(&mut self) -> u32 {
        match self.below(12) {
            small @ 1..=3 => small as u32,
            4 => P - 1,
            5 => P - 2,
            _ => self.nonzero(),
        }
    }

    pub fn pick<T: Copy>(&mut self, list: &[T]) -> T {
        list[self.below(list.len())]
    }

    pub fn elements(&mut self, len: usize) -> Vec<u32> {
        (0..len).map(|_| self.element()).collect()
    }

    /// Any numbers: mostly digits, the rest around `P` or of any size.
    pub fn numbers(&mut self, len: usize) -> Vec<u32> {
        let mut number = || match self.below(24) {
            0 => self.number(),
            1 | 2 => self.pick(&[P - 1, P, u32::MAX]),
            digit => digit as u32 % 10,
        };
        (0..len).map(|_| number()).collect()
    }

    /// Any bytes: mostly digits, the rest of any size.
    pub fn bytes(&mut self, len: usize) -> Vec<u8> {
        let mut byte = || match self.below(12) {
            0 => self.below(256) as u8,
            1 => self.pick(&[127, 128, 255]),
            digit => digit as u8 % 10,
        };
        (0..len).map(|_| byte()).collect()
    }

    pub fn shuffle<T>(&mut self, list: &mut [T]) {
        for last in (1..list.len()).rev() {
            list.swap(last, self.below(last + 1));
        }
    }
}

const LINEAR: [u32; 4] = [ADD, SUB, PLUS, TIMES];

/// The kinds that the gates of random circuits have.
#[derive(Clone, Copy, Debug, PartialEq, Eq)]
pub enum Kinds {
    /// Those of document 01, 1 to 7.
    Base,
    /// 1 to 8.
    Squares,
    /// 1 to 9.
    Gives,
    /// 1 to 10.
    Overs,
}

impl Kinds {
    pub const ALL: [Kinds; 4] = [Kinds::Base, Kinds::Squares, Kinds::Gives, Kinds::Overs];

    pub fn has(self, kind: u32) -> bool {
        match kind {
            SQ => self != Kinds::Base,
            GIVE => [Kinds::Gives, Kinds::Overs].contains(&self),
            OVER => self == Kinds::Overs,
            _ => true,
        }
    }

    pub fn rounds(self) -> impl Iterator<Item = Round> {
        let has = move |round: &Round| self.has(SQ) || *round != Round::Square;
        Round::ALL.into_iter().filter(has)
    }

    /// Gates of the smallest circuit that `rich_circuit` gives.
    pub fn rich_lines(self) -> usize {
        match self {
            Kinds::Base => 10,
            Kinds::Squares => 12,
            Kinds::Gives => 13,
            Kinds::Overs => 14,
        }
    }

    fn any(self, random: &mut Random) -> u32 {
        let most = match self {
            Kinds::Base => 9,
            Kinds::Squares => 11,
            Kinds::Gives => 13,
            Kinds::Overs => 15,
        };
        match random.below(most) {
            0 | 1 => IN,
            2 | 3 => MUL,
            4 => OUT,
            9 | 10 => SQ,
            11 | 12 => GIVE,
            13.. => OVER,
            _ => random.pick(&LINEAR),
        }
    }

    /// A kind for the last gate.
    fn last(self, random: &mut Random) -> u32 {
        match self {
            Kinds::Gives | Kinds::Overs => random.pick(&[OUT, GIVE]),
            _ => OUT,
        }
    }
}

/// Fills the fields of gates of the given kinds, of which the first is in.
pub fn from_kinds(random: &mut Random, parties: u32, kinds: &[u32]) -> Vec<u32> {
    let mut circuit = Vec::with_capacity(4 * kinds.len());
    let mut wires: Vec<u32> = Vec::with_capacity(kinds.len());
    for (index, &kind) in kinds.iter().enumerate() {
        let line = if kind == IN {
            [IN, random.below(parties as usize) as u32, 0, 0]
        } else {
            // The most recent wire is taken often, so that values pass through many gates.
            let first = if random.once_in(2) {
                wires[wires.len() - 1]
            } else {
                random.pick(&wires)
            };
            let second = if random.once_in(4) {
                first
            } else {
                random.pick(&wires)
            };
            match kind {
                PLUS | TIMES => [kind, first, 0, random.edge_element()],
                OVER => [kind, first, 0, random.divisor()],
                OUT | SQ => [kind, first, 0, 0],
                GIVE => [kind, first, random.below(parties as usize) as u32, 0],
                _ => [kind, first, second, 0],
            }
        };
        if circuit::has_value(&line) {
            wires.push(index as u32);
        }
        circuit.extend(line);
    }
    circuit
}

/// An accepted circuit of `lines` gates, at least 2, of any of the kinds.
pub fn circuit(random: &mut Random, of: Kinds, parties: u32, lines: usize) -> Vec<u32> {
    let mut kinds = vec![IN];
    kinds.extend((2..lines).map(|_| of.any(random)));
    kinds.push(of.last(random));
    from_kinds(random, parties, &kinds)
}

/// An accepted circuit of `lines` gates, at least `rich_lines`, that has every one of the kinds, an out
/// gate with something unchecked before it, later one with nothing unchecked, and after that a mul and
/// an add gate, and an sq gate if it is among the kinds. If give gates are, one has nothing unchecked before
/// it, and the first and the last out gate may be a give gate instead.
pub fn rich_circuit(random: &mut Random, of: Kinds, parties: u32, lines: usize) -> Vec<u32> {
    rich(random, of, parties, lines, |kind| kind)
}

/// The same with as few out gates as that, so that a long circuit's run takes few checks.
pub fn rich_circuit_of_few_checks(
    random: &mut Random,
    of: Kinds,
    parties: u32,
    lines: usize,
) -> Vec<u32> {
    let other = |kind| match kind {
        OUT | GIVE => PLUS,
        kind => kind,
    };
    rich(random, of, parties, lines, other)
}

/// A rich circuit, of which the kinds that are not needed are put through `other`.
fn rich(
    random: &mut Random,
    of: Kinds,
    parties: u32,
    lines: usize,
    other: fn(u32) -> u32,
) -> Vec<u32> {
    let mut parts = [vec![PLUS, MUL, SUB], vec![TIMES], vec![MUL, ADD]];
    let mut ends = [OUT; 3];
    if of.has(SQ) {
        parts[0].push(SQ);
        parts[2].push(SQ);
    }
    if of.has(GIVE) {
        parts[1].push(GIVE);
        ends = [random.pick(&[OUT, GIVE]), OUT, of.last(random)];
    }
    if of.has(OVER) {
        parts[1].push(OVER);
    }
    for _ in of.rich_lines()..lines {
        let part = random.below(parts.len());
        // A mul or sq gate in the middle part would leave something unchecked before its out gate.
        let kind = match other(of.any(random)) {
            MUL | SQ if part == 1 => random.pick(&LINEAR),
            kind => kind,
        };
        parts[part].push(kind);
    }
    let mut kinds = vec![IN];
    for (part, end) in parts.iter_mut().zip(ends) {
        random.shuffle(part);
        kinds.append(part);
        kinds.push(end);
    }
    from_kinds(random, parties, &kinds)
}
