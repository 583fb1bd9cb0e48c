//! Refusals: the number of the first question answered with no, and an index.

use crate::field::P;

/// "A refusal gives its number and an index": the gate for 4 to 6, the first offending number's
/// index in its list for 9, 11, 15, 17 and 20, otherwise 0.
#[derive(Clone, Copy, Debug, PartialEq, Eq)]
pub struct Refusal {
    pub number: u32,
    pub index: usize,
}

/// A question whose refusal has index 0.
pub(crate) fn ask(number: u32, yes: bool) -> Result<(), Refusal> {
    if yes {
        Ok(())
    } else {
        Err(Refusal { number, index: 0 })
    }
}

/// Asks whether all numbers are below `P`; the refusal has the index of the first that is not.
pub(crate) fn ask_elements(number: u32, list: &[u32]) -> Result<(), Refusal> {
    ask_elements_where(number, list, |_| true)
}

/// The same of the numbers at some indices.
pub(crate) fn ask_elements_where(
    number: u32,
    list: &[u32],
    asked: impl Fn(usize) -> bool,
) -> Result<(), Refusal> {
    let mut numbers = list.iter().enumerate();
    match numbers.position(|(index, &x)| x >= P && asked(index)) {
        None => Ok(()),
        Some(index) => Err(Refusal { number, index }),
    }
}

/// Question 1.
pub(crate) fn ask_parties(parties: u32) -> Result<(), Refusal> {
    ask(1, (2..=8).contains(&parties))
}
