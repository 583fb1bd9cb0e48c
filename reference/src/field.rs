//! Arithmetic modulo the prime 2^31 - 1.
//!
//! Every function expects elements (numbers below `P`) unless it says otherwise, and gives elements.

/// The prime. An element is 0 to `P - 1`; `P` itself is never read as 0.
pub const P: u32 = 2147483647;

const MASK: u64 = P as u64;

/// One folding step: 2^31 is 1 modulo `P`, so the bits above bit 31 can be added to those below.
/// The result is congruent to `x`, and below 2^34 for every `x`.
fn fold(x: u64) -> u64 {
    (x & MASK) + (x >> 31)
}

/// The remainder of any 64-bit number.
pub fn reduce(x: u64) -> u32 {
    // The first fold leaves less than 2^34, the second at most 2^31 + 6, which is below 2 * P.
    let folded = fold(fold(x)) as u32;
    if folded >= P {
        folded - P
    } else {
        folded
    }
}

pub fn add(x: u32, y: u32) -> u32 {
    let sum = x + y;
    if sum >= P {
        sum - P
    } else {
        sum
    }
}

pub fn sub(x: u32, y: u32) -> u32 {
    if x >= y {
        x - y
    } else {
        x + (P - y)
    }
}

pub fn mul(x: u32, y: u32) -> u32 {
    reduce(product(x, y))
}

/// The product before reduction; below 2^62 for elements, so three of them and an element can be
/// added up before one `reduce`.
pub fn product(x: u32, y: u32) -> u64 {
    u64::from(x) * u64::from(y)
}

/// The inverse of an element that is not 0, so that the two multiply to 1: by Fermat's theorem its power to `P - 2`. Every bit
/// of that exponent but one is 1. The power of 0 is 0.
pub fn inverse(x: u32) -> u32 {
    let (mut power, mut square, mut exponent) = (1, x, P - 2);
    while exponent > 0 {
        if exponent & 1 == 1 {
            power = mul(power, square);
        }
        square = mul(square, square);
        exponent >>= 1;
    }
    power
}

/// The sum of the numbers. A circuit has at most 8 parties, but the sum is right for up to 2^32 numbers.
pub fn sum<'a>(numbers: impl IntoIterator<Item = &'a u32>) -> u32 {
    reduce(numbers.into_iter().map(|&x| u64::from(x)).sum())
}

/// The sum of the products of the pairs; the shorter list decides the number of pairs.
pub fn inner_product(left: &[u32], right: &[u32]) -> u32 {
    let total = left
        .iter()
        .zip(right)
        .fold(0, |total, (&x, &y)| fold(total + product(x, y)));
    reduce(total)
}

#[cfg(test)]
mod tests {
    use super::*;

    #[test]
    fn agrees_with_the_remainder_operator() {
        let p = u64::from(P);
        for x in [
            0,
            1,
            p - 1,
            p,
            p + 1,
            2 * p,
            (p - 1) * (p - 1),
            1 << 62,
            u64::MAX - 1,
            u64::MAX,
        ] {
            assert_eq!(u64::from(reduce(x)), x % p);
        }
        let elements = [0, 1, 2, 65535, 65536, P / 2, P / 2 + 1, P - 2, P - 1];
        for x in elements {
            for y in elements {
                let (wide_x, wide_y) = (u64::from(x), u64::from(y));
                assert_eq!(u64::from(add(x, y)), (wide_x + wide_y) % p);
                assert_eq!(u64::from(sub(x, y)), (wide_x + p - wide_y) % p);
                assert_eq!(u64::from(mul(x, y)), wide_x * wide_y % p);
            }
        }
        assert_eq!(inner_product(&[P - 1; 600], &[P - 1; 600]), 600);
        assert_eq!(sum(&[P - 1; 8]), P - 8);
    }

    #[test]
    fn an_inverse_multiplies_to_1() {
        for (x, inverted) in [
            (1, 1),
            (2, 1_073_741_824),
            (3, 1_431_655_765),
            (P - 2, 1_073_741_823),
            (P - 1, P - 1),
        ] {
            assert_eq!(inverse(x), inverted);
            assert_eq!(inverse(inverted), x);
        }
        assert_eq!(inverse(0), 0);
        let some = (1..P).step_by(21_001);
        for x in (1..20_000).chain(some).chain(P - 20_000..P) {
            assert!((1..P).contains(&inverse(x)));
            assert_eq!(mul(x, inverse(x)), 1);
        }
    }
}
