//! The tool of ranges: every interval and every move in one pass over the gates. They are held on the stack, and written once all
//! gates are known to fit.

use reference::circuit::{ADD, GIVE, IN, MAX_GATES, MUL, OUT, PLUS, SQ, SUB, TIMES};
use reference::fit::{Change, Fit};
use reference::{Refusal, P};

use super::field::{ask, product};
use super::gates::Gates;

const LARGEST: u64 = P as u64 - 1;

/// Asks 1, 3 to 7, 26, 27 if there is a change, and 18.
pub fn fit(
    parties: u32,
    circuit: &[u32],
    ranges: &[u32],
    change: Option<Change>,
    intervals: &mut [u32],
    moves: &mut [u32],
) -> Result<Fit, Refusal> {
    ask(1, (2..=8).contains(&parties))?;
    let mut gates = Gates::new();
    gates.read(parties, circuit)?;
    let counts = gates.counts();
    ask(26, ranges.len() == 2 * counts.inputs && are_ranges(ranges))?;
    if let Some(change) = change {
        ask(27, gates.is_input(change.gate))?;
    }
    let released = if change.is_some() { counts.outputs } else { 0 };
    ask(
        18,
        intervals.len() >= 2 * gates.len && moves.len() >= released,
    )?;
    let walk = Walk {
        circuit,
        ranges,
        intervals: &mut intervals[..2 * gates.len],
        moves: &mut moves[..released],
    };
    // Less room on the stack is less to fill with zeros.
    Ok(match gates.len {
        0..=64 => walk.with_room::<64>(change),
        65..=128 => walk.with_room::<128>(change),
        _ => walk.with_room::<MAX_GATES>(change),
    })
}

/// Whether no range is reversed or has an end that is no element.
fn are_ranges(ranges: &[u32]) -> bool {
    let pairs = ranges.as_chunks::<2>().0.iter();
    // A lowest number that is not above an element is one.
    pairs.fold(true, |yes, &[low, high]| yes & (low <= high) & (high < P))
}

/// What an accepted call works with.
struct Walk<'a> {
    circuit: &'a [u32],
    ranges: &'a [u32],
    intervals: &'a mut [u32],
    moves: &'a mut [u32],
}

impl Walk<'_> {
    /// Goes over the gates, with room for G of them.
    fn with_room<const G: usize>(self, change: Option<Change>) -> Fit {
        match change {
            Some(change) => self.go::<G, true>(change),
            None => self.go::<G, false>(Change { gate: 0, amount: 0 }),
        }
    }

    /// The same with moves or without.
    #[inline(never)]
    fn go<const G: usize, const MOVES: bool>(self, change: Change) -> Fit {
        let mut ranges = self.ranges.as_chunks::<2>().0.iter();
        // Ends and moves are elements. Lists of their own are filled and read faster than one of pairs.
        let (mut lows, mut highs, mut moves) = ([0; G], [0; G], [0; G]);
        // The moves of the outputs, and how many were gone over.
        let (mut released, mut count) = ([0; G], 0);
        let lines = self.circuit.as_chunks::<4>().0;
        for (index, &[kind, first, second, constant]) in lines.iter().enumerate() {
            // What names no wire names some place of the lists, and is not used.
            let (left, right) = (first as usize % G, second as usize % G);
            let (x_low, x_high, dx) = (lows[left], highs[left], moves[left]);
            let (y_low, y_high, dy) = (lows[right], highs[right], moves[right]);
            // In 64 bits: two products of elements come to less than 2^63, and what falls below 0 to more than that.
            let sum = |x: u32, y: u32| u64::from(x) + u64::from(y);
            let difference = |x: u32, y: u32| u64::from(x).wrapping_sub(y.into());
            let (low, high, by) = match kind {
                IN => {
                    let &[low, high] = ranges.next().unwrap_or(&[0; 2]);
                    let changes = index == change.gate as usize;
                    let by = if changes { change.amount } else { 0 };
                    (low.into(), high.into(), by.into())
                }
                ADD => (sum(x_low, y_low), sum(x_high, y_high), sum(dx, dy)),
                SUB => (
                    difference(x_low, y_high),
                    difference(x_high, y_low),
                    sum(dx, dy),
                ),
                PLUS => (sum(x_low, constant), sum(x_high, constant), dx.into()),
                TIMES => (
                    product(x_low, constant),
                    product(x_high, constant),
                    product(dx, constant),
                ),
                MUL => (
                    product(x_low, y_low),
                    product(x_high, y_high),
                    product(x_high, dy) + product(y_high, dx),
                ),
                SQ => (
                    product(x_low, x_low),
                    product(x_high, x_high),
                    2 * product(x_high, dx),
                ),
                OUT | GIVE => {
                    if MOVES {
                        released[count % G] = dx;
                        count += 1;
                    }
                    (0, 0, 0)
                }
                _ => return Fit::Leaves { gate: index },
            };
            if low > LARGEST || high > LARGEST {
                return Fit::Leaves { gate: index };
            }
            lows[index % G] = low as u32;
            highs[index % G] = high as u32;
            if MOVES {
                moves[index % G] = by.min(LARGEST) as u32;
            }
        }
        let places = self.intervals.as_chunks_mut::<2>().0.iter_mut();
        for (place, (&low, &high)) in places.zip(lows.iter().zip(&highs)) {
            *place = [low, high];
        }
        self.moves.copy_from_slice(&released[..self.moves.len()]);
        Fit::Fits
    }
}
