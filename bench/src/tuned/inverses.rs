//! The inverses of over gates' constants: of several gates at once, by one inverse of their product.

use reference::circuit::OVER;

use super::field::times;

/// The product of two elements.
fn mul(x: u32, y: u32) -> u32 {
    times(x, 2 * y)
}

/// Squares so many times, and multiplies.
fn raised(x: u32, squarings: usize, by: u32) -> u32 {
    mul((0..squarings).fold(x, |x, _| mul(x, x)), by)
}

/// The inverse of an element that is not 0: its power to `P - 2`, which is 29 ones in binary, a 0 and a 1. 30 squarings and 8 other
/// products; a name tells how many ones the exponent has so far.
pub fn inverse(x: u32) -> u32 {
    let two = raised(x, 1, x);
    let three = raised(two, 1, x);
    let six = raised(three, 3, three);
    let seven = raised(six, 1, x);
    let fourteen = raised(seven, 7, seven);
    let twenty_eight = raised(fourteen, 14, fourteen);
    let twenty_nine = raised(twenty_eight, 1, x);
    raised(twenty_nine, 2, x)
}

/// Gates whose inverses are found at once.
const BATCH: usize = 32;

/// The inverses of the next over gates, in order. None is looked for before an over gate comes.
pub struct Inverses {
    found: [u32; BATCH],
    len: usize,
    used: usize,
}

impl Inverses {
    pub fn new() -> Inverses {
        Inverses {
            found: [0; BATCH],
            len: 0,
            used: 0,
        }
    }

    /// The inverse of the first gate's constant. It is an over gate, and those after it are asked for in order, up to the end of the gates.
    #[inline]
    pub fn next<'a>(&mut self, gates: impl Iterator<Item = &'a [u32; 4]>) -> u32 {
        if self.used == self.len {
            self.find(gates);
        }
        self.used += 1;
        self.found[(self.used - 1) % BATCH]
    }

    /// Each inverse is that of the product of all constants up to it, times the product of those before it.
    #[inline(never)]
    fn find<'a>(&mut self, gates: impl Iterator<Item = &'a [u32; 4]>) {
        let mut constants = [0; BATCH];
        (self.len, self.used) = (0, 0);
        let mut product = 1;
        let overs = gates.filter(|line| line[0] == OVER);
        for (line, (constant, before)) in overs.zip(constants.iter_mut().zip(&mut self.found)) {
            (*constant, *before) = (line[3], product);
            product = mul(product, line[3]);
            self.len += 1;
        }
        let mut inverted = inverse(product);
        let found = self.found[..self.len].iter_mut().zip(&constants);
        for (found, &constant) in found.rev() {
            *found = mul(*found, inverted);
            inverted = mul(inverted, constant);
        }
    }
}
