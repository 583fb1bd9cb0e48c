//! The fixed rotation of cases, and the requests generated from it.

use super::{accept, refuse, Answered, Entry, Request, Size};
use crate::circuit::{MAX_GATES, MAX_PARTIES};
use crate::random::{Kinds, Random};

/// What a case is made for. The tests hold the answers against it.
#[derive(Clone, Copy, Debug, PartialEq, Eq)]
pub(super) enum Expected {
    Refused(u32),
    Accepted,
    Aborted,
}

#[derive(Clone, Copy, Debug)]
enum Case {
    WholeRun,
    Accepted(accept::Subject),
    Refused {
        entry: Entry,
        number: u32,
        variant: usize,
    },
}

/// The cases of one turn of the rotation. Every turn has every refusal number in every entry that asks
/// it and every variant of it; which variant meets which entry changes with the turn.
fn rotation(turn: usize, kinds: Kinds) -> Vec<Case> {
    let mut cases = vec![Case::WholeRun];
    for (number, entries, variants, pairs) in refuse::CASES {
        let len = entries.len();
        let count = if pairs {
            len * variants
        } else {
            len.max(variants)
        };
        cases.extend((0..count).map(|case| {
            let variant = if pairs { case / len } else { case };
            Case::Refused {
                entry: entries[case % len],
                number,
                variant: (variant + turn) % variants,
            }
        }));
    }
    cases.extend(accept::subjects(kinds).map(Case::Accepted));
    cases
}

/// The requests of one turn, with what is expected of each.
fn turn_requests(
    random: &mut Random,
    turn: usize,
    size: Size,
) -> impl Iterator<Item = (Request, Expected)> + '_ {
    let cases = rotation(turn, size.kinds).into_iter();
    cases.flat_map(move |case| match case {
        Case::WholeRun => accept::whole_run(random, turn, size),
        Case::Accepted(subject) => accept::accepted(random, turn, size, subject),
        Case::Refused {
            entry,
            number,
            variant,
        } => {
            let mut request = refuse::refused(random, size, entry, number, variant);
            // The first turn has single faults only, so that it shows each of them alone.
            if turn > 0 && random.once_in(3) {
                refuse::add_later_faults(random, &mut request, number);
            }
            vec![(request, Expected::Refused(number))]
        }
    })
}

/// The requests of one turn.
pub(super) fn requests(random: &mut Random, turn: usize, size: Size) -> Vec<Request> {
    turn_requests(random, turn, size)
        .map(|(request, _)| request)
        .collect()
}

/// The first `count` requests of the rotation, with their answers. The same arguments give the same
/// requests.
pub fn generate(seed: u64, count: usize, size: Size) -> Vec<Answered> {
    let size = Size {
        kinds: size.kinds,
        max_lines: size.max_lines.clamp(size.kinds.rich_lines(), MAX_GATES),
        max_parties: size.max_parties.clamp(2, MAX_PARTIES as u32),
    };
    let mut random = Random::new(seed);
    let mut answered = Vec::with_capacity(count);
    for turn in 0.. {
        let missing = count - answered.len();
        if missing == 0 {
            break;
        }
        let requests = turn_requests(&mut random, turn, size).take(missing);
        answered.extend(requests.map(|(request, _)| request.answered()));
    }
    answered
}

#[cfg(test)]
mod tests {
    use super::*;

    #[test]
    fn each_case_is_answered_as_it_is_made_for() {
        for size in [
            Size {
                kinds: Kinds::Base,
                max_lines: 10,
                max_parties: 2,
            },
            Size {
                kinds: Kinds::Squares,
                max_lines: 12,
                max_parties: 2,
            },
            Size {
                kinds: Kinds::Gives,
                max_lines: 13,
                max_parties: 2,
            },
            Size {
                kinds: Kinds::Overs,
                max_lines: 14,
                max_parties: 2,
            },
            Size::SMALL,
            Size::FULL,
        ] {
            let mut random = Random::new(11);
            for turn in 0..40 {
                for (request, expected) in turn_requests(&mut random, turn, size) {
                    let answer = request.answer();
                    let found = match answer.refusal() {
                        Some(refusal) => Expected::Refused(refusal.number),
                        None if answer.aborted() => Expected::Aborted,
                        None => Expected::Accepted,
                    };
                    assert_eq!(found, expected, "{request:?}");
                }
            }
        }
    }

    #[test]
    fn one_turn_of_small_cases_fits_into_160_requests() {
        let turn = turn_requests(&mut Random::new(1), 0, Size::SMALL).count();
        assert!(turn <= 160, "{turn}");
    }
}
