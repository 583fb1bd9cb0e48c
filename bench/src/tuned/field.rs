//! Arithmetic modulo the prime without branches, and the question whether numbers are elements.

use reference::{Refusal, P};

const P64: u64 = P as u64;

/// The remainder of a number below 2^60: `t + q` with the quotient `q` is the remainder and `q` times 2^31.
pub fn remainder(t: u64) -> u32 {
    let q = (t + (t >> 31) + 1) >> 31;
    (t + q) as u32 & P
}

/// A number congruent to `x`, below 2^34, and below 2^32 for a product of two elements with an element added.
pub fn fold(x: u64) -> u64 {
    (x & P64) + (x >> 31)
}

/// The remainder of any 64-bit number.
pub fn reduce(x: u64) -> u32 {
    remainder(fold(x))
}

/// The remainder of a number below `2 * P`.
fn once(t: u32) -> u32 {
    t.wrapping_add(t.wrapping_add(1) >> 31) & P
}

pub fn add(x: u32, y: u32) -> u32 {
    once(x.wrapping_add(y))
}

pub fn sub(x: u32, y: u32) -> u32 {
    let t = x.wrapping_sub(y);
    t.wrapping_add(P & (t as i32 >> 31) as u32)
}

/// Four numbers that are worked out alike: a share and its MAC share at two parties.
pub type Quad = [u32; 4];

/// Works out four numbers from those in the same places.
#[inline(always)]
pub fn quad(of: impl Fn(usize) -> u32) -> Quad {
    [of(0), of(1), of(2), of(3)]
}

pub fn product(x: u32, y: u32) -> u64 {
    u64::from(x) * u64::from(y)
}

/// The product of two elements, the second of which is given twice: the upper half of the product is then its bits above
/// bit 31.
pub fn times(x: u32, twice: u32) -> u32 {
    let wide = product(x, twice);
    once(((wide >> 32) as u32).wrapping_add(wide as u32 >> 1))
}

const LANES: usize = 16;

/// Numbers put together by bits.
#[derive(Default)]
struct Bits {
    numbers: [u32; LANES],
    successors: [u32; LANES],
}

impl Bits {
    #[inline(always)]
    fn add(&mut self, numbers: &[u32; LANES]) {
        for (lane, &x) in numbers.iter().enumerate() {
            self.numbers[lane] |= x;
            self.successors[lane] |= x.wrapping_add(1);
        }
    }

    /// Whether no number has bit 31, nor gets it when 1 is added.
    #[inline(always)]
    fn elements(&self) -> bool {
        let mut top = self.numbers;
        for (top, next) in top.iter_mut().zip(self.successors) {
            *top = (*top | next) >> 31;
        }
        top == [0; LANES]
    }
}

/// Whether all numbers are below `P`. The last ones of a long list may be asked twice.
pub fn all_elements(list: &[u32]) -> bool {
    let Some(last) = list.last_chunk() else {
        return list.iter().all(|&x| x < P);
    };
    let mut bits = Bits::default();
    for numbers in list.as_chunks().0 {
        bits.add(numbers);
    }
    bits.add(last);
    bits.elements()
}

/// Asks whether all numbers are below `P`; the refusal has the index of the first no.
pub fn ask_elements(number: u32, list: &[u32]) -> Result<(), Refusal> {
    if all_elements(list) {
        Ok(())
    } else {
        Err(first_other(number, list))
    }
}

#[cold]
fn first_other(number: u32, list: &[u32]) -> Refusal {
    let index = list.iter().position(|&x| x >= P).unwrap_or(0);
    Refusal { number, index }
}

/// A question whose refusal has index 0.
pub fn ask(number: u32, yes: bool) -> Result<(), Refusal> {
    if yes {
        Ok(())
    } else {
        Err(Refusal { number, index: 0 })
    }
}

/// The sum of the products of the pairs, below 2^44 for lists of up to 1024.
pub fn inner_product(left: &[u32], right: &[u32]) -> u64 {
    let (left, left_rest) = left.as_chunks::<8>();
    let (right, right_rest) = right.as_chunks::<8>();
    let mut total = [0; 4];
    for (x, y) in left.iter().zip(right) {
        for lane in 0..4 {
            let both = product(x[lane], y[lane]) + product(x[lane + 4], y[lane + 4]);
            total[lane] += fold(both);
        }
    }
    let rest = left_rest.iter().zip(right_rest);
    rest.fold(total.into_iter().sum(), |total, (&x, &y)| {
        total + fold(product(x, y))
    })
}

/// Multiplies each number in place. False, with nothing written, if one of them or the factor is not below `P`.
#[inline(never)]
pub fn scale(values: &mut [u32], by: u32) -> bool {
    if by >= P || !all_elements(values) {
        return false;
    }
    for value in values {
        *value = times(*value, 2 * by);
    }
    true
}
