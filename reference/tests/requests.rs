//! The generated requests: what they cover, and that refusals give the right index and write nowhere.

mod common;

use std::collections::BTreeSet;

use common::answers::{assert_refusal_is_right, assert_written_as_due};
use reference::random::Kinds;
use reference::requests::{coverage, generate, Answer, Request, Size};
use reference::{Ending, Round};

fn assert_covered(count: usize) {
    for seed in 0..5 {
        let counts = coverage(&generate(seed, count, Size::SMALL));
        let mut wanted = BTreeSet::new();
        let numbers: [(&str, Vec<u32>); 4] = [
            ("open", (1..=12).collect()),
            ("send", (1..=18).chain([25]).collect()),
            ("receive", (1..=15).chain(19..=20).collect()),
            (
                "joint",
                [1].into_iter()
                    .chain(3..=12)
                    .chain(16..=18)
                    .chain([25])
                    .collect(),
            ),
        ];
        for (entry, numbers) in numbers {
            wanted.extend(
                numbers
                    .into_iter()
                    .map(|number| format!("{entry} refused {number:02}")),
            );
        }
        wanted.insert("open accepted".to_string());
        wanted.insert("joint accepted finished".to_string());
        wanted.insert("joint accepted aborted".to_string());
        for round in Round::ALL {
            wanted.insert(format!("send accepted {round:?}"));
            wanted.insert(format!("receive accepted {round:?}"));
        }
        wanted.insert("receive accepted RevealOutput released".to_string());
        wanted.insert("receive accepted RevealOpened aborted".to_string());
        wanted.insert("receive accepted RevealOutput aborted".to_string());
        let found: BTreeSet<String> = counts.into_keys().collect();
        // Exactly these: no entry refuses with a number that it does not ask.
        assert_eq!(found, wanted, "seed {seed}, {count} requests");
    }
}

#[test]
fn covers_everything() {
    assert_covered(160);
    assert_covered(300);
}

#[test]
fn is_deterministic_and_of_the_asked_length() {
    for count in [0, 1, 149, 400] {
        let first = generate(3, count, Size::SMALL);
        assert_eq!(first.len(), count);
        assert_eq!(first, generate(3, count, Size::SMALL));
    }
}

#[test]
fn joint_requests_cover_every_number_of_parties_and_an_abort_after_an_output() {
    let answered = generate(
        1,
        170,
        Size {
            kinds: Kinds::Overs,
            max_lines: 15,
            max_parties: 8,
        },
    );
    let mut finished = BTreeSet::new();
    let mut late_aborts = 0;
    for one in &answered {
        if let (
            Request::Joint { parties, .. },
            Answer::Joint {
                result: Ok(result), ..
            },
        ) = (&one.request, &one.answer)
        {
            match result.ending {
                Ending::Finished => drop(finished.insert(*parties)),
                Ending::Aborted { .. } => late_aborts += usize::from(result.outputs > 0),
            }
        }
    }
    assert_eq!(
        finished.into_iter().collect::<Vec<_>>(),
        (2..=8).collect::<Vec<_>>()
    );
    assert!(late_aborts > 0);
}

#[test]
fn refusals_and_writes() {
    for (seed, size) in [
        (1, Size::SMALL),
        (2, Size::FULL),
        (
            3,
            Size {
                kinds: Kinds::Overs,
                max_lines: 30,
                max_parties: 8,
            },
        ),
    ] {
        for one in generate(seed, 3000, size) {
            if let Some(refusal) = one.answer.refusal() {
                assert_refusal_is_right(&one, refusal);
            }
            assert_written_as_due(&one);
        }
    }
}
