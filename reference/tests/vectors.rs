//! The sets of test vectors: what they cover, measured from the requests and answers alone.

mod common;

use std::collections::{BTreeMap, BTreeSet};
use std::sync::OnceLock;

use common::answers::{assert_refusal_is_right, assert_written_as_due};
use reference::circuit::{self, GIVE, KIND_NAMES, OUT, OVER, SQ, TIMES};
use reference::random::Kinds;
use reference::requests::{
    measured, neighbours, single_runs, table, Answer, Answered, Entry, Field, Request, Set,
    SingleRun,
};
use reference::{text, Ending, Received, Round, Sort, Stage, P};

use Entry::{Joint, Open, Receive, Send};

/// The seed of the vectors that are kept.
const SEED: u64 = 1;

fn small() -> &'static [Answered] {
    static SMALL: OnceLock<Vec<Answered>> = OnceLock::new();
    SMALL.get_or_init(|| Set::Small.make(SEED))
}

fn square() -> &'static [Answered] {
    static SQUARE: OnceLock<Vec<Answered>> = OnceLock::new();
    SQUARE.get_or_init(|| Set::Square.make(SEED))
}

fn mark() -> &'static [Answered] {
    static MARK: OnceLock<Vec<Answered>> = OnceLock::new();
    MARK.get_or_init(|| Set::Mark.make(SEED))
}

fn give() -> &'static [Answered] {
    static GIVE: OnceLock<Vec<Answered>> = OnceLock::new();
    GIVE.get_or_init(|| Set::Give.make(SEED))
}

fn gives_large() -> &'static [Answered] {
    static LARGE: OnceLock<Vec<Answered>> = OnceLock::new();
    LARGE.get_or_init(|| Set::GivesLarge.make(SEED))
}

fn over() -> &'static [Answered] {
    static OVER: OnceLock<Vec<Answered>> = OnceLock::new();
    OVER.get_or_init(|| Set::Over.make(SEED))
}

fn overs_large() -> &'static [Answered] {
    static LARGE: OnceLock<Vec<Answered>> = OnceLock::new();
    LARGE.get_or_init(|| Set::OversLarge.make(SEED))
}

/// The requests of all sets that are kept.
fn kept<'a>() -> impl Iterator<Item = &'a Answered> {
    let sets = [small(), large(), square(), mark(), give(), over()];
    sets.into_iter().flatten()
}

fn large() -> &'static [Answered] {
    static LARGE: OnceLock<Vec<Answered>> = OnceLock::new();
    LARGE.get_or_init(|| Set::Large.make(SEED))
}

const SINGLE: [Entry; 3] = [Open, Send, Receive];

/// The numbers of the questions.
fn questions() -> impl Iterator<Item = u32> {
    (1..=20).chain([25])
}

/// The entries that ask each question.
fn asking(number: u32) -> Vec<Entry> {
    match number {
        2 => SINGLE.to_vec(),
        13..=15 => vec![Send, Receive],
        16..=18 | 25 => vec![Send, Joint],
        19 | 20 => vec![Receive],
        _ => Entry::ALL.to_vec(),
    }
}

fn half(entry: Entry, sort: Sort) -> Stage {
    match entry {
        Send => Stage::Send(sort),
        _ => Stage::Receive(sort),
    }
}

fn other_half(entry: Entry, sort: Sort) -> Stage {
    match entry {
        Send => Stage::Receive(sort),
        _ => Stage::Send(sort),
    }
}

/// A stage as the features name it where its round is there: an own round with its gate.
fn names(stage: Stage) -> Vec<String> {
    let name = format!("`{}`", text::stage(stage));
    match stage {
        Stage::Send(Sort::Own) | Stage::Receive(Sort::Own) => ["an in", "a mul"]
            .map(|kind| format!("{name} of {kind} gate"))
            .to_vec(),
        _ => vec![name],
    }
}

/// Where a check share may be held.
fn holds(stage: Stage) -> bool {
    match stage {
        Stage::Receive(sort) => sort.is_commit(),
        Stage::Send(sort) => sort.is_reveal(),
        _ => false,
    }
}

/// Every feature that the small set must have, with the entry.
fn wanted() -> BTreeSet<(Entry, String)> {
    let mut wanted = BTreeSet::new();
    let mut want = |entries: &[Entry], feature: String| {
        wanted.extend(entries.iter().map(|&entry| (entry, feature.clone())));
    };

    for parties in 2..=8 {
        want(&Entry::ALL, format!("accepted, {parties} parties"));
    }
    for (kind, name) in (1..).zip(KIND_NAMES) {
        if Kinds::Base.has(kind) {
            want(&Entry::ALL, format!("accepted, with a gate of kind {name}"));
        }
    }
    for gates in [2, 256] {
        want(&Entry::ALL, format!("accepted, {gates} gates"));
    }

    for number in questions() {
        let entries = asking(number);
        want(&entries, format!("refused {number:02}"));
        want(
            &entries,
            format!("refused {number:02}, beside a neighbour that is not"),
        );
        if [9, 11, 15, 17, 20].contains(&number) {
            want(
                &entries,
                format!("refused {number:02}, several numbers offend"),
            );
        }
        if [4, 5, 6, 9, 11, 15, 17, 20].contains(&number) {
            want(&entries, format!("refused {number:02}, index not 0"));
        }
    }
    for early in 4..=6 {
        for late in 4..=6 {
            want(
                &Entry::ALL,
                format!("refused {early:02}, and a later gate by {late:02}"),
            );
        }
    }

    let written: [(&[Entry], &str); 4] = [
        (&Entry::ALL, "scratch"),
        (&[Send], "out"),
        (&[Joint], "transcript"),
        (&[Joint], "outputs"),
    ];
    for (entries, list) in written {
        for what in ["with an excess", "just long enough"] {
            want(entries, format!("accepted, `{list}` {what}"));
        }
        for number in ["p", "4294967295"] {
            want(entries, format!("accepted, {number} in `{list}`"));
        }
        want(entries, format!("refused, `{list}` empty"));
    }
    let elements: [(&[Entry], &str); 6] = [
        (&SINGLE, "prep"),
        (&[Joint], "preps"),
        (&Entry::ALL, "inputs"),
        (&Entry::ALL, "scratch"),
        (&[Send, Joint], "coefficients"),
        (&[Receive], "heard"),
    ];
    for (entries, list) in elements {
        want(entries, format!("accepted, p-1 in `{list}`"));
        want(entries, format!("refused, `{list}` empty"));
    }
    let unasked: [(&[Entry], &str); 7] = [
        (&Entry::ALL, "in its excess"),
        (&Entry::ALL, "among the opened entries"),
        (&Entry::ALL, "in the nonce"),
        (&Entry::ALL, "among the marks"),
        (&Entry::ALL, "in the slots of the gate itself"),
        (&Entry::ALL, "in the slots of a later gate"),
        (&[Send, Receive], "in the slots of an out gate"),
    ];
    for (entries, place) in unasked {
        want(
            entries,
            format!("accepted, no elements in `scratch` {place}"),
        );
    }
    want(&Entry::ALL, String::from("refused, `circuit` empty"));
    want(&SINGLE, String::from("accepted, `inputs` empty"));
    for list in ["coefficients", "nonce"] {
        want(&[Send], format!("accepted, `{list}` empty"));
    }
    want(&[Send], String::from("refused, `nonce` empty"));
    want(&[Joint], String::from("refused, `nonces` empty"));

    for entry in [Send, Receive] {
        let mut stages: Vec<Stage> = Sort::ALL.map(|sort| half(entry, sort)).to_vec();
        for &stage in &stages {
            let held = if holds(stage) {
                ", a check share held"
            } else {
                ""
            };
            let answers: &[&str] = match stage {
                Stage::Receive(Sort::RevealOutput) => &["output", "abort", "abort, a party named"],
                Stage::Receive(Sort::RevealOpened) => &["next", "abort", "abort, a party named"],
                _ => &["next"],
            };
            for name in names(stage) {
                for answer in answers {
                    want(&[entry], format!("at {name}{held}: {answer}"));
                }
            }
        }
        for sort in Sort::ALL {
            for name in names(other_half(entry, sort)) {
                want(&[entry], format!("at {name}: refused 14"));
            }
        }
        for end in [Stage::Finished, Stage::Aborted] {
            let stage = text::stage(end);
            want(&[entry], format!("at `{stage}`: refused 14"));
            stages.push(end);
        }
        for stage in stages {
            want(&[entry], format!("at `{}`: refused 13", text::stage(stage)));
            for name in names(stage) {
                want(
                    &[entry],
                    format!("at {name}, a held number above p-1: refused 13"),
                );
                if !holds(stage) {
                    want(
                        &[entry],
                        format!("at {name}, a check share held: refused 13"),
                    );
                }
            }
        }
    }

    for ending in [
        "good preprocessing, key 0: finished",
        "good preprocessing, another key: finished",
        "bad MAC of a mask, another key: aborted at the first check",
        "bad MAC of a mask, another key: aborted at the second check",
        "bad MAC in a triple, key 0: aborted at the first check",
        "bad MAC in a triple, another key: aborted at the first check",
        "bad MAC in a triple, another key: aborted at the second check",
        "bad product in a triple, key 0: finished",
        "bad product in a triple, another key: finished",
        "bad whole mask, key 0: finished",
        "bad whole mask, another key: finished",
        "aborted after an output",
    ] {
        want(&[Joint], String::from(ending));
    }
    wanted
}

/// Every boundary that the small set must have on both sides, with the entry and number.
fn wanted_neighbours() -> BTreeSet<(&'static str, u32, String)> {
    let mut wanted = BTreeSet::new();
    let mut want = |entries: &[Entry], number: u32, changes: &[&str]| {
        for entry in entries {
            assert!(asking(number).contains(entry));
            wanted.extend(
                changes
                    .iter()
                    .map(|change| (entry.name(), number, String::from(*change))),
            );
        }
    };
    let all = &Entry::ALL;
    want(
        all,
        1,
        &[
            "parties 2->1",
            "parties 2->0",
            "parties 8->9",
            "parties 8->4294967295",
        ],
    );
    want(
        &SINGLE,
        2,
        &["party the number of parties", "party 4294967295"],
    );
    want(
        all,
        3,
        &[
            "circuit one shorter",
            "circuit one longer",
            "circuit of no number",
            "circuit 8->4 long",
            "circuit 1024->1028 long",
        ],
    );
    want(all, 4, &["kind 1->0", "kind 7->11", "kind 7->4294967295"]);
    want(
        all,
        5,
        &[
            "in first names the number of parties",
            "in first names 4294967295",
        ],
    );
    for (kind, fields) in [
        ("add", &["first", "second"][..]),
        ("sub", &["first", "second"]),
        ("plus", &["first"]),
        ("times", &["first"]),
        ("mul", &["first", "second"]),
        ("out", &["first"]),
    ] {
        for field in fields {
            for named in ["itself", "the next gate", "4294967295"] {
                want(all, 5, &[&format!("{kind} {field} names {named}")]);
            }
        }
    }
    for kind in ["add", "mul", "out"] {
        want(all, 5, &[&format!("{kind} first names an out gate")]);
    }
    for (kind, fields) in [
        ("in", &["second", "constant"][..]),
        ("add", &["constant"]),
        ("sub", &["constant"]),
        ("plus", &["second"]),
        ("times", &["second"]),
        ("mul", &["constant"]),
        ("out", &["second", "constant"]),
    ] {
        for field in fields {
            want(all, 6, &[&format!("{kind} {field} 0->1")]);
            want(all, 6, &[&format!("{kind} {field} 0->4294967295")]);
        }
    }
    let around_p = |place: &str| ["p", "4294967295"].map(|number| format!("{place} p-1->{number}"));
    for place in ["plus constant", "times constant"] {
        for change in around_p(place) {
            want(all, 6, &[&change]);
        }
    }
    want(all, 7, &["kind 7->4", "kind 7->5"]);

    let exact = |list: &str| {
        ["one shorter", "one longer", "of no number"].map(|change| format!("{list} {change}"))
    };
    let at_least =
        |list: &str| ["one shorter", "of no number"].map(|change| format!("{list} {change}"));
    let prep = |entry: Entry| if entry == Joint { "preps" } else { "prep" };
    for entry in Entry::ALL {
        for change in exact(prep(entry)) {
            want(&[entry], 8, &[&change]);
        }
        for change in around_p(prep(entry)) {
            want(&[entry], 9, &[&change]);
        }
    }
    for change in exact("inputs") {
        want(all, 10, &[&change]);
    }
    for change in around_p("inputs") {
        want(all, 11, &[&change]);
    }
    for change in at_least("scratch") {
        want(all, 12, &[&change]);
    }

    for entry in [Send, Receive] {
        let ends = [Stage::Finished, Stage::Aborted];
        let halves = Sort::ALL.map(|sort| half(entry, sort));
        for stage in halves.into_iter().chain(ends) {
            let name = text::stage(stage);
            let changes = if holds(stage) {
                vec!["p-1->p", "p-1->4294967295"]
            } else {
                vec!["0->1", "0->p-1", "0->4294967295"]
            };
            for change in changes {
                want(&[entry], 13, &[&format!("held {change} at {name}")]);
            }
        }
        want(&[entry], 13, &["gate"]);
        for (from, to) in [
            (Sort::Own, Sort::CommitOpened),
            (Sort::Own, Sort::RevealOpened),
            (Sort::Own, Sort::OpenOutput),
            (Sort::Own, Sort::CommitOutput),
            (Sort::CommitOpened, Sort::Own),
            (Sort::OpenOutput, Sort::Own),
            (Sort::OpenOutput, Sort::CommitOpened),
            (Sort::OpenOutput, Sort::RevealOpened),
            (Sort::RevealOutput, Sort::Own),
        ] {
            let stages = [from, to].map(|sort| text::stage(half(entry, sort)));
            want(&[entry], 13, &[&format!("stage {}", stages.join("->"))]);
        }
        for sort in Sort::ALL {
            let stages = [half(entry, sort), other_half(entry, sort)].map(text::stage);
            want(&[entry], 14, &[&format!("stage {}", stages.join("->"))]);
        }
        for end in ends {
            let stages = [half(entry, Sort::RevealOutput), end].map(text::stage);
            want(&[entry], 14, &[&format!("stage {}", stages.join("->"))]);
        }
        for change in around_p("scratch") {
            want(&[entry], 15, &[&change]);
        }
    }
    for entry in [Send, Joint] {
        for change in exact("coefficients") {
            want(&[entry], 16, &[&change]);
        }
        for change in around_p("coefficients") {
            want(&[entry], 17, &[&change]);
        }
    }
    for change in at_least("out") {
        want(&[Send], 18, &[&change]);
    }
    for list in ["transcript", "outputs"] {
        for change in at_least(list) {
            want(&[Joint], 18, &[&change]);
        }
    }
    for change in exact("heard") {
        want(&[Receive], 19, &[&change]);
    }
    for change in around_p("heard") {
        want(&[Receive], 20, &[&change]);
    }
    for (entry, list) in [(Send, "nonce"), (Joint, "nonces")] {
        for change in exact(list) {
            want(&[entry], 25, &[&change]);
        }
    }
    wanted
}

fn missing<T: Ord + Clone>(wanted: BTreeSet<T>, found: impl Fn(&T) -> bool) -> Vec<T> {
    wanted.into_iter().filter(|one| !found(one)).collect()
}

#[test]
fn small_covers_what_is_wanted() {
    let small = small();
    assert!(small.len() >= 2000);
    let counts = measured(small);
    let has = |(entry, feature): &(Entry, String)| {
        let count = counts.get(feature).map(|counts| counts[*entry as usize]);
        count.is_some_and(|count| count > 0)
    };
    assert_eq!(missing(wanted(), has), []);

    let found = neighbours(small);
    assert_eq!(
        missing(wanted_neighbours(), |one| found.contains_key(one)),
        []
    );
}

/// No entry refuses with a number that it does not ask.
#[test]
fn refusals_are_those_that_the_entry_asks() {
    let made = Set::MarksLarge.make(SEED);
    for one in kept().chain(&made) {
        if let Some(refusal) = one.answer.refusal() {
            assert!(asking(refusal.number).contains(&one.request.entry()));
            assert_refusal_is_right(one, refusal);
        }
        assert_written_as_due(one);
    }
}

fn run(
    all_parties: bool,
    aborted: Option<Round>,
    named: bool,
    tampered: Option<Round>,
) -> SingleRun {
    SingleRun {
        all_parties,
        aborted,
        named,
        tampered,
    }
}

/// A run of all parties in which a word of a round is heard otherwise: what is opened aborts at the next check and
/// names no party, a mark or what is revealed under it names the party.
fn tampered(round: Round) -> SingleRun {
    let aborted = match round {
        Round::Input => None,
        Round::Multiply | Round::Square | Round::CommitOpened | Round::RevealOpened => {
            Some(Round::RevealOpened)
        }
        Round::OpenOutput | Round::CommitOutput | Round::RevealOutput => Some(Round::RevealOutput),
    };
    let named = round.is_commit() || round.is_reveal();
    run(true, aborted, named, Some(round))
}

#[test]
fn small_has_whole_runs_of_every_kind() {
    let small = small();
    let found = single_runs(small);
    let ends = [None, Some(Round::RevealOpened), Some(Round::RevealOutput)];
    let mut wanted: BTreeSet<SingleRun> = ends
        .into_iter()
        .map(|aborted| run(false, aborted, false, None))
        .collect();
    wanted.insert(run(true, None, false, None));
    wanted.extend(Kinds::Base.rounds().map(tampered));
    assert_eq!(missing(wanted, |run| found.contains_key(run)), []);

    let mut finished = BTreeSet::new();
    for one in small {
        if let (Request::Joint { parties, .. }, Answer::Joint { result, .. }) =
            (&one.request, &one.answer)
        {
            if result.is_ok_and(|result| result.ending == Ending::Finished) {
                finished.insert(*parties);
            }
        }
    }
    assert_eq!(finished, (2..=8).collect());
}

/// The longest list of each name in accepted requests.
fn longest_lists(answered: &[Answered]) -> BTreeMap<&str, usize> {
    let mut lengths = BTreeMap::new();
    let accepted = answered.iter().filter(|one| one.answer.refusal().is_none());
    for (name, field) in accepted.flat_map(|one| one.request.fields()) {
        let len = match field {
            Field::Numbers(numbers) => numbers.len(),
            Field::Bytes(bytes) => bytes.len(),
            Field::Position(_) => continue,
        };
        let longest = lengths.entry(name).or_insert(0);
        *longest = len.max(*longest);
    }
    lengths
}

/// The highest index of each refusal by entry.
fn highest_indices(answered: &[Answered]) -> BTreeMap<(&str, u32), usize> {
    let mut indices = BTreeMap::new();
    for one in answered {
        if let Some(refusal) = one.answer.refusal() {
            let key = (one.request.entry().name(), refusal.number);
            let highest = indices.entry(key).or_insert(0);
            *highest = refusal.index.max(*highest);
        }
    }
    indices
}

#[test]
fn large_has_the_longest_runs_and_lists_and_high_indices() {
    let large = large();
    let (lengths, indices) = (longest_lists(large), highest_indices(large));
    for (name, longest) in [
        ("circuit", 4 * 256),
        ("prep", 1 + 3 + 6 * 254),
        ("preps", 8 * (1 + 3 + 6 * 254)),
        ("inputs", 255),
        ("coefficients", 2 * 254 + 1),
        ("outputs", 255),
        ("out", 9),
        ("nonce", 32),
        ("heard", 72),
    ] {
        assert_eq!(lengths[name], longest, "{name}");
    }
    // At least: these may have an excess.
    assert!(lengths["scratch"] >= 8 * (2 * 256 + 2 * (2 * 254 + 1) + 8 + 8 * 8));
    assert!(lengths["transcript"] >= 2 * (1 + 2 * 127 + 128 + 17 * 255));
    for entry in Entry::ALL {
        for number in 4..=6 {
            assert_eq!(indices[&(entry.name(), number)], 255);
        }
    }
    for (key, index) in [
        (("joint", 9), 8 * (1 + 3 + 6 * 254) - 1),
        (("joint", 11), 254),
        (("joint", 17), 2 * 254),
    ] {
        assert_eq!(indices[&key], index, "{key:?}");
    }
    for entry in ["send", "receive"] {
        assert!(indices[&(entry, 15)] > 2 * 256);
    }

    let counts = measured(large);
    for feature in [
        "accepted, 256 gates and 8 parties",
        "accepted, `scratch` with an excess",
        "accepted, `transcript` with an excess",
        "accepted, `outputs` with an excess",
        "finished after 766 rounds",
        "good preprocessing, another key: finished",
        "bad MAC in a triple, another key: aborted at the first check",
        "aborted after an output",
    ] {
        assert!(counts[feature][Joint as usize] > 0, "{feature}");
    }
    assert_eq!(
        single_runs(large).into_iter().collect::<Vec<_>>(),
        [(run(false, None, false, None), 1)]
    );
    let released = large.iter().filter(|one| {
        matches!(
            one.answer,
            Answer::Receive {
                result: Ok(Received::Released { .. }),
                ..
            }
        )
    });
    assert!(released.count() > 1);
}

#[test]
fn the_text_keeps_within_the_limits_of_the_format() {
    let made = Set::MarksLarge.make(SEED);
    for one in kept().chain(&made) {
        for line in text::request(&one.request).lines() {
            assert!(line.len() <= 1_048_576);
            assert!(line.split(' ').count() <= 1 + 65_536);
        }
    }
}

#[test]
fn the_table_is_the_printed_one() {
    let readme = include_str!("../../vectors/README.md");
    let sets = [small(), large(), square(), mark(), give(), over()];
    assert!(readme.contains(&table(sets)));
}

#[test]
fn the_same_seed_gives_the_same_requests() {
    for set in Set::ALL {
        let made = set.make(SEED);
        assert_eq!(made, set.make(SEED));
        assert_ne!(made, set.make(SEED + 1));
    }
}

/// The counts that vectors/README.md tells.
#[test]
fn the_counts_are_the_printed_ones() {
    let readme = include_str!("../../vectors/README.md");
    for set in Set::ALL {
        let requests = format!("| {} requests", set.make(SEED).len());
        assert!(readme.contains(&requests), "{}: {requests}", set.name());
    }
}

fn parties_and_circuit(one: &Answered) -> (u32, &[u32]) {
    match &one.request {
        Request::Joint {
            circuit, parties, ..
        } => (*parties, circuit),
        Request::Open { lent } | Request::Send { lent, .. } | Request::Receive { lent, .. } => {
            (lent.parties, &lent.circuit)
        }
    }
}

/// Whether the request's circuit is accepted and has a gate of the kind.
fn has(one: &Answered, kind: u32) -> bool {
    let (parties, circuit) = parties_and_circuit(one);
    let mut lines = circuit.chunks_exact(4);
    circuit::shape(parties, circuit).is_ok() && lines.any(|line| line[0] == kind)
}

fn has_square(one: &Answered) -> bool {
    has(one, SQ)
}

fn has_give(one: &Answered) -> bool {
    has(one, GIVE)
}

#[test]
fn only_the_sets_of_squares_have_squares() {
    assert!(!small().iter().chain(large()).any(has_square));
    let (with, without): (Vec<&Answered>, Vec<&Answered>) =
        square().iter().partition(|one| has_square(one));
    // The others are refused before the circuit is accepted.
    assert!(with.len() > 4 * without.len());
    assert!(without.iter().all(|one| {
        let refusal = one.answer.refusal();
        refusal.is_some_and(|refusal| refusal.number <= 7)
    }));
}

#[test]
fn only_the_sets_of_gives_have_gives() {
    let others = small().iter().chain(large()).chain(square()).chain(mark());
    assert!(!others.into_iter().any(has_give));
    let (with, without): (Vec<&Answered>, Vec<&Answered>) =
        give().iter().partition(|one| has_give(one));
    assert!(with.len() > 4 * without.len());
    // The others are refused before the circuit is accepted, or have as few or as many gates as there can be.
    assert!(without.iter().all(|one| {
        let refusal = one.answer.refusal();
        refusal.is_some_and(|refusal| refusal.number <= 7) || one.request.entry() != Joint
    }));
}

#[test]
fn only_the_sets_of_overs_have_overs() {
    let others = small().iter().chain(large()).chain(square()).chain(mark());
    let others = others.chain(give()).chain(gives_large());
    assert!(!others.into_iter().any(|one| has(one, OVER)));
    let (with, without): (Vec<&Answered>, Vec<&Answered>) =
        over().iter().partition(|one| has(one, OVER));
    // The others are refused before the circuit is accepted.
    assert!(with.len() > 3 * without.len());
    assert!(without.iter().all(|one| {
        let refusal = one.answer.refusal();
        refusal.is_some_and(|refusal| refusal.number <= 7)
    }));
}

#[test]
fn square_has_every_boundary_at_a_square() {
    let counts = measured(square());
    let mut wanted = BTreeSet::new();
    let mut want = |entries: &[Entry], feature: String| {
        wanted.extend(entries.iter().map(|&entry| (entry, feature.clone())));
    };
    for number in questions() {
        want(
            &asking(number),
            format!("refused {number:02}, beside a neighbour that is not"),
        );
    }
    want(
        &Entry::ALL,
        String::from("accepted, with a gate of kind sq"),
    );
    for parties in 2..=8 {
        want(&[Joint], format!("accepted, {parties} parties"));
    }
    for (entry, here, other) in [
        (Send, "send-own", "receive-own"),
        (Receive, "receive-own", "send-own"),
    ] {
        want(&[entry], format!("at `{here}` of an sq gate: next"));
        want(&[entry], format!("at `{other}` of an sq gate: refused 14"));
        for held in ["a check share held", "a held number above p-1"] {
            want(
                &[entry],
                format!("at `{here}` of an sq gate, {held}: refused 13"),
            );
        }
    }
    for ending in [
        "good preprocessing, key 0: finished",
        "good preprocessing, another key: finished",
        "bad MAC in a pair, another key: aborted at the first check",
        "bad MAC in a pair, another key: aborted at the second check",
        "bad square in a pair, key 0: finished",
        "bad square in a pair, another key: finished",
        "aborted after an output",
    ] {
        want(&[Joint], String::from(ending));
    }
    let has = |(entry, feature): &(Entry, String)| {
        let count = counts.get(feature).map(|counts| counts[*entry as usize]);
        count.is_some_and(|count| count > 0)
    };
    assert_eq!(missing(wanted, has), []);

    let mut wanted = BTreeSet::new();
    for entry in Entry::ALL {
        for (number, change) in [
            (4, "kind 8->11"),
            (5, "sq first names itself"),
            (5, "sq first names the next gate"),
            (5, "sq first names 4294967295"),
            (5, "sq first names an out gate"),
            (6, "sq second 0->1"),
            (6, "sq second 0->4294967295"),
            (6, "sq constant 0->1"),
            (6, "sq constant 0->4294967295"),
        ] {
            wanted.insert((entry.name(), number, String::from(change)));
        }
    }
    for entry in [Send, Receive] {
        for to in [Sort::CommitOpened, Sort::RevealOutput] {
            let stages = [Sort::Own, to].map(|sort| text::stage(half(entry, sort)));
            wanted.insert((entry.name(), 13, format!("stage {}", stages.join("->"))));
        }
    }
    let found = neighbours(square());
    assert_eq!(missing(wanted, |one| found.contains_key(one)), []);
}

/// The index of question 15 is that of a square's share, its MAC share, and both numbers of its entry.
#[test]
fn square_has_refusals_in_every_place_of_a_square() {
    let mut places = BTreeSet::new();
    for one in square() {
        let (Request::Send { lent, position, .. } | Request::Receive { lent, position, .. }) =
            &one.request
        else {
            continue;
        };
        let Some(refusal) = one.answer.refusal().filter(|refusal| refusal.number == 15) else {
            continue;
        };
        let shape = circuit::shape(lent.parties, &lent.circuit).unwrap();
        let layout = shape.layout();
        let mut entries = 0;
        for (gate, line) in lent.circuit.chunks_exact(4).enumerate() {
            if line[0] == OUT && gate < position.gate as usize {
                entries = 0;
            }
            if line[0] == SQ {
                let of_the_square = [
                    ("share", layout.share(gate)),
                    ("MAC share", layout.mac(gate)),
                    ("entry", layout.opened(entries)),
                    ("MAC share of the entry", layout.opened_mac(entries)),
                ];
                let named = of_the_square.iter();
                let found = named.filter(|(_, place)| *place == refusal.index);
                places.extend(found.map(|(name, _)| (one.request.entry(), *name)));
            }
            entries += circuit::gate(&lent.circuit, gate).unwrap().needs().entries;
        }
    }
    assert_eq!(places.len(), 2 * 4, "{places:?}");
}

/// Runs of all parties in which a word of a square is tampered with, and first checks of one entry and of
/// other odd numbers.
#[test]
fn square_has_whole_runs_and_odd_checks() {
    let found = single_runs(square());
    for wanted in [
        run(true, None, false, None),
        run(false, None, false, None),
        run(false, Some(Round::RevealOpened), false, None),
        tampered(Round::Square),
        tampered(Round::RevealOpened),
        tampered(Round::CommitOpened),
        tampered(Round::OpenOutput),
    ] {
        assert!(found.contains_key(&wanted), "{wanted:?}");
    }
    let mut checked = BTreeSet::new();
    for one in square() {
        if let Request::Send {
            lent,
            position,
            coefficients,
            ..
        } = &one.request
        {
            let round = position.round(&lent.circuit);
            if one.answer.refusal().is_none() && round == Some(Round::CommitOpened) {
                checked.insert(coefficients.len());
            }
        }
    }
    assert!(checked.contains(&1) && checked.contains(&3), "{checked:?}");
    assert!(checked.iter().any(|count| count % 2 == 0), "{checked:?}");
}

#[test]
fn the_large_set_of_squares_has_the_longest_run_and_every_refusal() {
    let large = Set::SquaresLarge.make(SEED);
    let counts = measured(&large);
    for number in questions() {
        let refused = &counts[&format!("refused {number:02}")];
        for entry in asking(number) {
            assert!(refused[entry as usize] > 1, "{number} {entry:?}");
        }
    }
    for feature in [
        "accepted, with a gate of kind sq",
        "accepted, 256 gates and 8 parties",
        "finished after 766 rounds",
        "bad MAC in a pair, another key: aborted at the first check",
        "bad square in a pair, another key: finished",
    ] {
        assert!(counts[feature][Joint as usize] > 0, "{feature}");
    }
}

/// Every feature that the set of gives must have.
#[test]
fn give_has_every_boundary_at_a_give() {
    let counts = measured(give());
    let mut wanted = BTreeSet::new();
    let mut want = |entries: &[Entry], feature: String| {
        wanted.extend(entries.iter().map(|&entry| (entry, feature.clone())));
    };
    for number in questions() {
        want(
            &asking(number),
            format!("refused {number:02}, beside a neighbour that is not"),
        );
    }
    want(
        &Entry::ALL,
        String::from("accepted, with a gate of kind give"),
    );
    for parties in 2..=8 {
        want(&[Joint], format!("accepted, {parties} parties"));
    }
    let slots = "accepted, no elements in `scratch` in the slots of a give gate";
    want(&[Send, Receive], String::from(slots));
    for entry in [Send, Receive] {
        for sort in Sort::ALL.into_iter().filter(|&sort| sort != Sort::Own) {
            let (here, other) = (half(entry, sort), other_half(entry, sort));
            let held = if holds(here) {
                ", a check share held"
            } else {
                ""
            };
            let name = text::stage(here);
            let answers: &[&str] = match here {
                // The receiver, another party, and both sorts of abort.
                Stage::Receive(Sort::RevealOutput) => {
                    &["output", "next", "abort", "abort, a party named"]
                }
                Stage::Receive(Sort::RevealOpened) => &["next", "abort", "abort, a party named"],
                _ => &["next"],
            };
            for answer in answers {
                want(
                    &[entry],
                    format!("at `{name}` of a give gate{held}: {answer}"),
                );
            }
            let other = text::stage(other);
            want(&[entry], format!("at `{other}` of a give gate: refused 14"));
        }
        for sort in [Sort::OpenOutput, Sort::CommitOutput] {
            let name = text::stage(half(entry, sort));
            let above = "a held number above p-1: refused 13";
            want(&[entry], format!("at `{name}` of a give gate, {above}"));
        }
    }
    for ending in [
        "good preprocessing, key 0: finished",
        "good preprocessing, another key: finished",
        "bad MAC of a given mask, another key: aborted at the second check",
        "bad whole mask of a receiver, key 0: finished",
        "bad whole mask of a receiver, another key: finished",
        "aborted after an output",
    ] {
        want(&[Joint], String::from(ending));
    }
    let has = |(entry, feature): &(Entry, String)| {
        let count = counts.get(feature).map(|counts| counts[*entry as usize]);
        count.is_some_and(|count| count > 0)
    };
    assert_eq!(missing(wanted, has), []);

    let mut wanted = BTreeSet::new();
    for entry in Entry::ALL {
        for (number, change) in [
            (4, "kind 9->11"),
            (5, "give first names itself"),
            (5, "give first names the next gate"),
            (5, "give first names 4294967295"),
            (5, "give second names the number of parties"),
            (5, "give second names 4294967295"),
            (6, "give constant 0->1"),
            (6, "give constant 0->4294967295"),
            (7, "kind 9->4"),
            (7, "kind 9->5"),
        ] {
            wanted.insert((entry.name(), number, String::from(change)));
        }
    }
    for entry in [Send, Receive] {
        for end in [Stage::Finished, Stage::Aborted] {
            let stages = [half(entry, Sort::RevealOutput), end].map(text::stage);
            wanted.insert((entry.name(), 14, format!("stage {}", stages.join("->"))));
        }
        let stages = [Sort::OpenOutput, Sort::Own].map(|sort| text::stage(half(entry, sort)));
        wanted.insert((entry.name(), 13, format!("stage {}", stages.join("->"))));
    }
    for (number, change) in [
        (18, "outputs one shorter"),
        (18, "outputs of no number"),
        (25, "nonces one shorter"),
        (16, "coefficients one shorter"),
    ] {
        wanted.insert(("joint", number, String::from(change)));
    }
    let found = neighbours(give());
    assert_eq!(missing(wanted, |one| found.contains_key(one)), []);
    // A give gate names one without a value.
    for entry in Entry::ALL {
        for what in ["an out gate", "a give gate"] {
            let key = (entry.name(), 5, format!("give first names {what}"));
            assert!(found.contains_key(&key), "{key:?}");
        }
    }
    let named = |kind: &str| (Joint.name(), 5, format!("{kind} first names a give gate"));
    let large = neighbours(gives_large());
    for kind in ["add", "mul", "out", "sq", "give"] {
        assert!(large.contains_key(&named(kind)), "{kind}");
    }
}

/// The whole mask of a give gate that is no element is refused at its receiver and at another party, in every entry; the index of
/// question 15 is that of a share, of a MAC share, and of both numbers of the opened entry.
#[test]
fn give_has_refusals_in_every_place_of_a_give() {
    let mut masks = BTreeSet::new();
    let mut places = BTreeSet::new();
    for one in give() {
        let Some(refusal) = one.answer.refusal() else {
            continue;
        };
        let entry = one.request.entry();
        let (party, parties, circuit) = match &one.request {
            Request::Joint {
                parties, circuit, ..
            } => (None, *parties, circuit),
            Request::Open { lent } | Request::Send { lent, .. } | Request::Receive { lent, .. } => {
                (Some(lent.party), lent.parties, &lent.circuit)
            }
        };
        let Ok(shape) = circuit::shape(parties, circuit) else {
            continue;
        };
        if refusal.number == 9 {
            let len = shape.prep_len();
            let party = party.unwrap_or((refusal.index / len) as u32);
            for gate in 0..shape.gates {
                let record = circuit::before(circuit, party, gate).record;
                let receiver = circuit::gate(circuit, gate).unwrap().receiver();
                if let Some(receiver) = receiver.filter(|_| refusal.index % len == record + 2) {
                    masks.insert((entry, receiver == party));
                }
            }
        }
        if let (15, Request::Send { position, .. } | Request::Receive { position, .. }) =
            (refusal.number, &one.request)
        {
            let layout = shape.layout();
            let gate = position.gate as usize;
            let round = position.round(circuit).unwrap();
            if circuit[4 * gate] == GIVE {
                let wire = circuit[4 * gate + 1] as usize;
                let of_the_give = [
                    ("share", layout.share(wire)),
                    ("MAC share", layout.mac(wire)),
                    ("entry", layout.opened(0)),
                    ("MAC share of the entry", layout.opened_mac(0)),
                ];
                let named = of_the_give.iter();
                let found = named.filter(|(_, place)| *place == refusal.index);
                places.extend(found.map(|(name, _)| (entry, round, *name)));
            }
        }
    }
    assert_eq!(masks.len(), 2 * 4, "{masks:?}");
    for entry in [Send, Receive] {
        for (round, names) in [
            (Round::OpenOutput, ["share", "MAC share"]),
            (Round::CommitOutput, ["entry", "MAC share of the entry"]),
        ] {
            for name in names {
                assert!(places.contains(&(entry, round, name)), "{entry:?} {name}");
            }
        }
    }
}

/// Whole runs of all parties, with words of every round of a give tampered with; gives to party 0, to the last one, to the
/// owner and to another; joint runs that list gives and outs in turns.
#[test]
fn give_has_whole_runs_and_every_receiver() {
    let found = single_runs(give());
    for wanted in [
        run(true, None, false, None),
        run(false, None, false, None),
        run(true, Some(Round::RevealOutput), false, None),
        tampered(Round::Multiply),
        tampered(Round::CommitOpened),
        tampered(Round::RevealOpened),
        tampered(Round::OpenOutput),
        tampered(Round::CommitOutput),
        tampered(Round::RevealOutput),
    ] {
        assert!(found.contains_key(&wanted), "{wanted:?}");
    }

    let mut receivers = BTreeSet::new();
    let mut released = BTreeSet::new();
    let mut mixed = 0;
    for one in give() {
        match (&one.request, &one.answer) {
            (
                Request::Joint {
                    parties, circuit, ..
                },
                Answer::Joint {
                    result: Ok(result), ..
                },
            ) if result.ending == Ending::Finished => {
                let lines: Vec<&[u32]> = circuit.chunks_exact(4).collect();
                let gives = lines.iter().filter(|line| line[0] == GIVE);
                for line in gives {
                    let wire = lines[line[1] as usize];
                    let owner = wire[0] == 1 && wire[1] == line[2];
                    receivers.insert((line[2] == 0, line[2] + 1 == *parties, owner));
                }
                let outputs: Vec<u32> = lines
                    .iter()
                    .map(|line| line[0])
                    .filter(|kind| [OUT, GIVE].contains(kind))
                    .collect();
                mixed += usize::from(outputs.windows(2).filter(|two| two[0] != two[1]).count() > 2);
            }
            (
                Request::Receive { lent, position, .. },
                Answer::Receive {
                    result: Ok(result), ..
                },
            ) => {
                let line = lent.circuit.chunks_exact(4).nth(position.gate as usize);
                let line = line.unwrap();
                let passed = position.stage == Stage::Receive(Sort::RevealOutput);
                if line[0] == GIVE && passed && !matches!(result, Received::Aborted { .. }) {
                    let told = matches!(result, Received::Released { .. });
                    assert_eq!(told, line[2] == lent.party);
                    released.insert((told, lent.party));
                }
            }
            _ => {}
        }
    }
    for wanted in [
        (true, false, false),
        (false, true, false),
        (true, false, true),
        (false, true, true),
        (false, false, false),
    ] {
        assert!(receivers.contains(&wanted), "{wanted:?}");
    }
    for wanted in [(true, 0), (true, 1), (true, 2), (false, 0), (false, 1)] {
        assert!(released.contains(&wanted), "{wanted:?}");
    }
    assert!(mixed > 1, "{mixed}");
}

#[test]
fn the_large_set_of_gives_has_the_longest_runs_and_every_refusal() {
    let large = gives_large();
    let counts = measured(large);
    for number in questions() {
        let refused = &counts[&format!("refused {number:02}")];
        for entry in asking(number) {
            assert!(refused[entry as usize] > 1, "{number} {entry:?}");
        }
    }
    for feature in [
        "accepted, with a gate of kind give",
        "accepted, 256 gates and 8 parties",
        "finished after 766 rounds",
        "bad MAC of a given mask, another key: aborted at the second check",
        "bad whole mask of a receiver, another key: finished",
    ] {
        assert!(counts[feature][Joint as usize] > 0, "{feature}");
    }
    // 766 rounds by gives alone, and by gives after products and after squares, of two parties and of eight.
    let mut longest = BTreeSet::new();
    for one in large {
        if let (
            Request::Joint {
                parties, circuit, ..
            },
            Answer::Joint {
                result: Ok(result), ..
            },
        ) = (&one.request, &one.answer)
        {
            let last = circuit[circuit.len() - 4];
            if (result.rounds, result.ending, last) == (766, Ending::Finished, GIVE) {
                longest.insert((*parties, circuit[4]));
            }
        }
    }
    for parties in [2, 8] {
        for kind in [6, SQ, GIVE] {
            assert!(longest.contains(&(parties, kind)), "{parties} {kind}");
        }
    }
    let lengths = longest_lists(large);
    for (name, longest) in [
        ("circuit", 4 * 256),
        ("prep", 1 + 3 + 6 * 254 + 3),
        ("preps", 8 * (1 + 3 + 6 * 254 + 3)),
        ("coefficients", 2 * 254 + 1),
        ("outputs", 255),
        ("nonces", 65_280),
        ("transcript", 37_744),
        ("heard", 72),
    ] {
        assert_eq!(lengths[name], longest, "{name}");
    }
    for one in large {
        if let Some(refusal) = one.answer.refusal() {
            assert!(asking(refusal.number).contains(&one.request.entry()));
            assert_refusal_is_right(one, refusal);
        }
        assert_written_as_due(one);
        for line in text::request(&one.request).lines() {
            assert!(line.len() <= 1_048_576);
        }
    }
}

/// Every feature that the set of overs must have.
#[test]
fn over_has_every_boundary_at_an_over() {
    let counts = measured(over());
    let mut wanted = BTreeSet::new();
    let mut want = |entries: &[Entry], feature: String| {
        wanted.extend(entries.iter().map(|&entry| (entry, feature.clone())));
    };
    for number in questions() {
        want(
            &asking(number),
            format!("refused {number:02}, beside a neighbour that is not"),
        );
    }
    for name in KIND_NAMES {
        want(&Entry::ALL, format!("accepted, with a gate of kind {name}"));
    }
    for parties in 2..=8 {
        want(&[Joint], format!("accepted, {parties} parties"));
    }
    for ending in [
        "good preprocessing, key 0: finished",
        "good preprocessing, another key: finished",
        "bad MAC of a mask, another key: aborted at the first check",
        "bad MAC in a triple, another key: aborted at the second check",
        "bad product in a triple, another key: finished",
        "bad whole mask, another key: finished",
    ] {
        want(&[Joint], String::from(ending));
    }
    let has = |(entry, feature): &(Entry, String)| {
        let count = counts.get(feature).map(|counts| counts[*entry as usize]);
        count.is_some_and(|count| count > 0)
    };
    assert_eq!(missing(wanted, has), []);

    let mut wanted = BTreeSet::new();
    for entry in Entry::ALL {
        for (number, change) in [
            (4, "kind 10->11"),
            (4, "kind 10->4294967295"),
            (5, "over first names itself"),
            (5, "over first names the next gate"),
            (5, "over first names 4294967295"),
            (5, "over first names an out gate"),
            (5, "over first names a give gate"),
            (6, "over second 0->1"),
            (6, "over second 0->4294967295"),
            (6, "over constant 1->0"),
            (6, "over constant p-1->p"),
            (6, "over constant p-1->4294967295"),
            // Times by 0 is let pass.
            (6, "kind 5->10"),
        ] {
            wanted.insert((entry.name(), number, String::from(change)));
        }
    }
    let found = neighbours(over());
    assert_eq!(missing(wanted, |one| found.contains_key(one)), []);
}

/// The index of question 15 is that of an over's share and of its MAC share; no position is at an over; the last gate is none.
#[test]
fn over_has_refusals_in_every_place_of_an_over() {
    let mut places = BTreeSet::new();
    let mut stages = BTreeSet::new();
    let mut last = BTreeSet::new();
    for one in over() {
        let entry = one.request.entry();
        let (parties, circuit) = parties_and_circuit(one);
        let number = one.answer.refusal().map(|refusal| refusal.number);
        if number == Some(7) && circuit[circuit.len() - 4] == OVER {
            last.insert(entry);
        }
        let (Request::Send { position, .. } | Request::Receive { position, .. }) = &one.request
        else {
            continue;
        };
        let Ok(shape) = circuit::shape(parties, circuit) else {
            continue;
        };
        let at_an_over = circuit.get(4 * position.gate as usize) == Some(&OVER);
        if at_an_over && position.held == 0 && number == Some(13) {
            stages.insert((entry, text::stage(position.stage)));
        }
        assert!(!at_an_over || number.is_some_and(|number| number <= 13));
        if let (Some(15), Some(refusal)) = (number, one.answer.refusal()) {
            let layout = shape.layout();
            for gate in (0..shape.gates).filter(|gate| circuit[4 * gate] == OVER) {
                let of_the_over = [
                    ("share", layout.share(gate)),
                    ("MAC share", layout.mac(gate)),
                ];
                let named = of_the_over.iter();
                let found = named.filter(|(_, place)| *place == refusal.index);
                places.extend(found.map(|(name, _)| (entry, *name)));
            }
        }
    }
    assert_eq!(places.len(), 2 * 2, "{places:?}");
    assert_eq!(last.len(), 4, "{last:?}");
    for entry in [Send, Receive] {
        let halves = Sort::ALL.map(|sort| half(entry, sort)).into_iter();
        for stage in halves.chain([Stage::Finished, Stage::Aborted]) {
            let key = (entry, text::stage(stage));
            assert!(stages.contains(&key), "{key:?}");
        }
    }
}

/// Overs by each of the constants, of every kind of wire, after every stop, right before an output; by the same constant as times before and
/// after it; worked out by the joint run, and by single entries after each kind of round.
#[test]
fn over_has_every_constant_and_every_wire() {
    let mut constants = BTreeSet::new();
    let mut wires = BTreeSet::new();
    let mut before = BTreeSet::new();
    let mut after = BTreeSet::new();
    let mut undone = BTreeSet::new();
    let mut moved = BTreeSet::new();
    for one in over() {
        let (_, circuit) = parties_and_circuit(one);
        let lines: Vec<&[u32]> = circuit.chunks_exact(4).collect();
        if one.answer.refusal().is_some() {
            continue;
        }
        if one.request.entry() == Joint {
            for (gate, line) in lines.iter().enumerate().filter(|(_, line)| line[0] == OVER) {
                constants.insert(line[3]);
                let wire = lines[line[1] as usize];
                wires.insert(wire[0]);
                before.insert(lines[gate + 1][0]);
                after.insert(lines[gate - 1][0]);
                if wire[0] == TIMES && wire[3] == line[3] {
                    undone.insert((TIMES, line[3]));
                }
            }
            for line in lines.iter().filter(|line| line[0] == TIMES) {
                let wire = lines[line[1] as usize];
                if wire[0] == OVER && wire[3] == line[3] {
                    undone.insert((OVER, line[3]));
                }
            }
        }
        if let Request::Receive { lent, position, .. } = &one.request {
            let next = lines.get(position.gate as usize + 1);
            let wrote = match &one.answer {
                Answer::Receive {
                    result: Ok(Received::Moved(next) | Received::Released { position: next, .. }),
                    ..
                } => next.gate > position.gate,
                _ => false,
            };
            if wrote && next.is_some_and(|line| line[0] == OVER) {
                let kind = lines[position.gate as usize][0];
                moved.insert((kind, lent.party));
            }
        }
    }
    for constant in [1, 2, 3, P - 2, P - 1] {
        assert!(constants.contains(&constant), "{constant}");
        for kind in [TIMES, OVER] {
            assert!(undone.contains(&(kind, constant)), "{kind} {constant}");
        }
    }
    assert!(constants.len() > 15, "{constants:?}");
    for kind in [1, 2, 3, 4, 5, 6, 8, 10] {
        assert!(wires.contains(&kind), "{kind}");
    }
    for kind in [OUT, GIVE, 6, SQ, OVER] {
        assert!(before.contains(&kind), "{kind}");
    }
    for kind in 1..=10 {
        assert!(after.contains(&kind), "{kind}");
    }
    for kind in [1, 6, SQ, OUT, GIVE] {
        for party in 0..2 {
            assert!(moved.contains(&(kind, party)), "{kind} {party}");
        }
    }
}

/// Whole runs of one party and of all, with words tampered with around overs, and with bad preprocessing.
#[test]
fn over_has_whole_runs() {
    let found = single_runs(over());
    for wanted in [
        run(true, None, false, None),
        run(false, None, false, None),
        run(true, Some(Round::RevealOutput), false, None),
        tampered(Round::Input),
        tampered(Round::Multiply),
        tampered(Round::Square),
        tampered(Round::OpenOutput),
        tampered(Round::RevealOutput),
    ] {
        assert!(found.contains_key(&wanted), "{wanted:?}");
    }
    let worked = over().iter().any(
        |one| matches!(&one.answer, Answer::Joint { outputs, .. } if *outputs == [1_073_741_826]),
    );
    assert!(worked);
}

#[test]
fn the_large_set_of_overs_has_most_overs_and_every_refusal() {
    let large = overs_large();
    let counts = measured(large);
    for number in questions() {
        let refused = &counts[&format!("refused {number:02}")];
        for entry in asking(number) {
            assert!(refused[entry as usize] > 1, "{number} {entry:?}");
        }
    }
    for feature in [
        "accepted, with a gate of kind over",
        "accepted, 256 gates and 8 parties",
        "bad MAC of a mask, another key: aborted at the second check",
        "bad MAC in a pair, another key: aborted at the second check",
    ] {
        assert!(counts[feature][Joint as usize] > 0, "{feature}");
    }
    let mut most = BTreeSet::new();
    let mut highest = BTreeSet::new();
    let mut found: BTreeSet<(u32, u32)> = BTreeSet::new();
    for one in large {
        let (parties, circuit) = parties_and_circuit(one);
        if let Some(refusal) = one.answer.refusal() {
            assert!(asking(refusal.number).contains(&one.request.entry()));
            assert_refusal_is_right(one, refusal);
            if refusal.number == 6 && circuit[4 * refusal.index] == OVER {
                highest.insert(refusal.index);
            }
        } else {
            let overs = circuit.chunks_exact(4).filter(|line| line[0] == OVER);
            found.extend(overs.clone().map(|line| (line[0], line[3])));
            if overs.count() >= 250 {
                most.insert((one.request.entry(), parties));
            }
        }
        assert_written_as_due(one);
        for line in text::request(&one.request).lines() {
            assert!(line.len() <= 1_048_576);
        }
    }
    for parties in [2, 3, 5, 8] {
        for entry in [Send, Receive, Joint] {
            assert!(most.contains(&(entry, parties)), "{parties} {entry:?}");
        }
    }
    assert!(highest.contains(&254), "{highest:?}");
    assert!(found.len() > 2000, "{}", found.len());
}
