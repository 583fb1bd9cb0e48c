//! The sets of requests about sheets: what they cover, measured from requests and answers alone.

use std::collections::{BTreeMap, BTreeSet};

use reference::requests::{SheetRequest, SheetSet};
use reference::sheet::examples::{self, Example, Told};
use reference::sheet::examples::{EXAMPLES, GIVE_EXAMPLES, OVER_EXAMPLES, SQUARE_EXAMPLES};
use reference::{text, P};

/// The seed of the vectors that are kept, and of the larger set in the gate.
const SEED: u64 = 1;

/// The first line of an answer.
fn first(request: &SheetRequest) -> String {
    request.answer(0).lines().next().unwrap().to_string()
}

/// How often each entry gives each answer: its first word, with the number of a refusal.
fn counted(requests: &[SheetRequest]) -> BTreeMap<(&'static str, String), usize> {
    let mut counts = BTreeMap::new();
    for request in requests {
        let first = first(request);
        let mut words = first.split(' ');
        let answer = match (words.next(), words.next()) {
            (Some("refusal"), Some(number)) => format!("refusal {number}"),
            (Some("line"), _) => first.split_once(": ").unwrap().1.to_string(),
            (word, _) => word.unwrap().to_string(),
        };
        *counts.entry((request.name(), answer)).or_default() += 1;
    }
    counts
}

fn assert_answers(requests: &[SheetRequest], entry: &str, accepted: &[&str], refused: &[u32]) {
    let counts = counted(requests);
    let found: BTreeSet<String> = counts
        .into_keys()
        .filter(|(name, _)| *name == entry)
        .map(|(_, answer)| answer)
        .collect();
    let refused = refused.iter().map(|number| format!("refusal {number}"));
    let wanted: BTreeSet<String> = accepted
        .iter()
        .map(|word| word.to_string())
        .chain(refused)
        .collect();
    // Exactly these: no entry refuses with a number that it does not ask.
    assert_eq!(found, wanted, "{entry}");
}

const READ: [u32; 9] = [1, 3, 5, 6, 7, 18, 22, 23, 24];
const WRITE: [u32; 7] = [1, 3, 4, 5, 6, 7, 18];

#[test]
fn the_kept_set_has_every_answer_of_every_entry() {
    let kept = SheetSet::Kept.make(SEED);
    assert_answers(&kept, "read", &["lines"], &READ);
    assert_answers(&kept, "write", &["bytes"], &WRITE);
    let score = [1, 3, 5, 6, 7, 8, 9, 11, 12, 17, 18, 22, 23, 25];
    assert_answers(&kept, "score", &["done", "stopped"], &score);
    let faults = [
        "a byte above 255",
        "not a number",
        "a number above 4294967295",
        "more than 65536 numbers",
        "one number is wanted",
        "nothing may follow the name of an entry",
        "text is wanted",
        "circuit is wanted",
        "nonce is wanted",
        "nonces is wanted",
    ];
    assert_answers(&kept, "fault", &faults, &[]);
}

#[test]
fn the_set_of_squares_has_the_answers_that_squares_can_have() {
    let squares = SheetSet::Square.make(SEED);
    assert_answers(&squares, "read", &["lines"], &[3, 5, 6, 7, 18, 22, 23, 24]);
    assert_answers(&squares, "write", &["bytes"], &[1, 4, 5, 6, 7, 18]);
    assert_answers(&squares, "score", &["done", "stopped"], &[5, 7, 8, 22, 23]);
}

#[test]
fn the_set_of_gives_has_the_answers_that_gives_can_have() {
    let gives = SheetSet::Give.make(SEED);
    assert_answers(&gives, "read", &["lines"], &[3, 5, 6, 7, 18, 22, 23, 24]);
    assert_answers(&gives, "write", &["bytes"], &[1, 4, 5, 6, 7, 18]);
    assert_answers(&gives, "score", &["done", "stopped"], &[5, 7, 8, 22, 23]);
}

#[test]
fn the_set_of_overs_has_the_answers_that_overs_can_have() {
    let overs = SheetSet::Over.make(SEED);
    let read = [1, 3, 5, 6, 7, 18, 22, 23, 24];
    assert_answers(&overs, "read", &["lines"], &read);
    assert_answers(&overs, "write", &["bytes"], &[1, 4, 5, 6, 7, 18]);
    let score = [5, 6, 7, 12, 22, 23];
    assert_answers(&overs, "score", &["done", "stopped"], &score);
}

/// Texts that begin with an `o` after a bracket: where each is refused by its letters, outermost and inside.
#[test]
fn the_set_of_overs_has_every_beginning_of_its_word() {
    let mut found = BTreeSet::new();
    for request in SheetSet::Over.make(SEED) {
        let SheetRequest::Read { text, .. } = &request else {
            continue;
        };
        let first = first(&request);
        let Some(index) = first.strip_prefix("refusal 22 ") else {
            continue;
        };
        let index: usize = index.parse().unwrap();
        let row = text[..index].rsplit(|&byte| byte == b'\n').next().unwrap();
        let Some(bracket) = row.iter().rposition(|&byte| byte == b'(') else {
            continue;
        };
        let begun = String::from_utf8(row[bracket..].to_vec()).unwrap();
        let next = text.get(index).map(|&byte| byte as char);
        found.insert((bracket == 0, begun, next));
    }
    for outermost in [true, false] {
        for begun in ["(o", "(ov", "(ove", "(over", "(over "] {
            let key = (outermost, begun.to_string(), None);
            assert!(found.contains(&key), "{key:?}");
        }
        for (begun, next) in [("(o", 'e'), ("(ov", 'r')] {
            let key = (outermost, begun.to_string(), Some(next));
            assert!(found.contains(&key), "{key:?}");
        }
    }
    for (begun, next) in [("(", 'O'), ("(o", ' '), ("(ove", 'n'), ("(over", ')')] {
        let key = (true, begun.to_string(), Some(next));
        assert!(found.contains(&key), "{key:?}");
    }
    // An out may stand outermost alone.
    let out = |outermost, begun: &str, next| (outermost, begun.to_string(), next);
    assert!(found.contains(&out(true, "(ou", None)));
    assert!(found.contains(&out(true, "(out", None)));
    assert!(found.contains(&out(false, "(o", Some('u'))));
    assert!(!found.contains(&out(true, "(o", Some('u'))));
    assert!(!found
        .iter()
        .any(|(outermost, begun, _)| !outermost && begun.starts_with("(ou")));
}

/// Over by 0 and by 1, by p - 1 and by p, beside times by 0, read and written.
#[test]
fn the_set_of_overs_has_both_ends_of_its_constants() {
    let mut read = BTreeSet::new();
    let mut written = BTreeSet::new();
    for request in SheetSet::Over.make(SEED) {
        let first = first(&request);
        let told = first.split(' ').take(2).collect::<Vec<_>>().join(" ");
        match &request {
            SheetRequest::Read { text, .. } => {
                let text = String::from_utf8_lossy(text);
                if let Some(constant) = text
                    .strip_prefix("(over (in 0) ")
                    .and_then(|rest| rest.strip_suffix(")\n(out (line 0))\n"))
                {
                    read.insert((constant.to_string(), told));
                }
            }
            SheetRequest::Write { circuit, text, .. } if !text.is_empty() => {
                if let [1, 0, 0, 0, kind, 0, 0, constant, 7, 1, 0, 0] = circuit[..] {
                    written.insert((kind, constant, told));
                }
            }
            _ => {}
        }
    }
    for (constant, told) in [
        ("0", "refusal 6"),
        ("1", "lines 3"),
        ("2147483646", "lines 3"),
        ("2147483647", "refusal 6"),
        ("4294967295", "refusal 6"),
        ("4294967296", "refusal 22"),
    ] {
        let key = (constant.to_string(), told.to_string());
        assert!(read.contains(&key), "{key:?}");
    }
    for (kind, constant, refused) in [
        (10, 0, true),
        (10, 1, false),
        (10, P - 1, false),
        (10, P, true),
        (5, 0, false),
    ] {
        let mut found = written
            .iter()
            .filter(|one| (one.0, one.1) == (kind, constant));
        assert!(
            found.any(|one| (one.2 == "refusal 6") == refused),
            "{kind} {constant}"
        );
    }
}

/// Refusals of gives on both sides: at the `g` within a form, at its number, of its receiver, and at its bracket.
#[test]
fn the_set_of_gives_has_them_refused_in_every_place() {
    let mut places = BTreeSet::new();
    for request in SheetSet::Give.make(SEED) {
        let SheetRequest::Read { text, .. } = &request else {
            continue;
        };
        let first = first(&request);
        let words: Vec<&str> = first.split(' ').collect();
        let ["refusal", number @ ("22" | "24"), index] = words[..] else {
            continue;
        };
        let index: usize = index.parse().unwrap();
        let row = text[..index].rsplit(|&byte| byte == b'\n').next().unwrap();
        if row.starts_with(b"(give ") || text[index..].starts_with(b"give ") {
            let byte = text.get(index).map(|&byte| byte as char);
            places.insert((number.to_string(), byte));
        }
    }
    for byte in ['g', 'l', ' ', ')', '(', '0', '6', '\n'] {
        assert!(places.contains(&("22".to_string(), Some(byte))), "{byte:?}");
    }
    assert!(places.contains(&("22".to_string(), None)));
    assert!(places.contains(&("24".to_string(), Some(')'))));
}

#[test]
fn the_large_set_has_the_answers_of_reader_and_writer() {
    let large = SheetSet::Large.make(SEED);
    assert_eq!(large.len(), 3000);
    let counts = counted(&large);
    for answer in [
        "lines",
        "refusal 5",
        "refusal 6",
        "refusal 18",
        "refusal 22",
        "refusal 23",
        "refusal 24",
    ] {
        assert!(counts[&("read", answer.to_string())] > 2, "{answer}");
    }
    for answer in ["bytes", "refusal 4", "refusal 5", "refusal 6", "refusal 18"] {
        assert!(counts[&("write", answer.to_string())] > 2, "{answer}");
    }
    assert!(counts[&("score", "done".to_string())] > 10);
}

#[test]
fn the_kept_sets_have_the_examples() {
    assert_has(SheetSet::Kept, &EXAMPLES);
    assert_has(SheetSet::Square, &SQUARE_EXAMPLES);
    assert_has(SheetSet::Give, &GIVE_EXAMPLES);
    assert_has(SheetSet::Over, &OVER_EXAMPLES);
}

fn assert_has(set: SheetSet, examples: &[Example]) {
    let kept = set.make(SEED);
    for &(parties, parts, told) in examples {
        let wanted = examples::text(parts);
        let found = kept.iter().find(|request| matches!(request, SheetRequest::Read { parties: n, text, .. } if *n == parties && *text == wanted));
        let first = first(found.expect("every example is asked"));
        assert_eq!(
            first,
            match told {
                Told::Refused(number, index) => format!("refusal {number} {index}"),
                Told::Circuit(gates) => format!("lines {}", gates.len()),
                Told::Gates(count) => format!("lines {count}"),
            }
        );
    }
}

/// Room for exactly what is written, for one less, and for more, of reader and writer.
#[test]
fn the_kept_set_has_both_sides_of_the_room() {
    let kept = SheetSet::Kept.make(SEED);
    let mut found = BTreeSet::new();
    for request in &kept {
        let (name, room) = match request {
            SheetRequest::Read { circuit, .. } => ("read", circuit.len()),
            SheetRequest::Write { text, .. } => ("write", text.len()),
            _ => continue,
        };
        let mut longer = request.clone();
        match &mut longer {
            SheetRequest::Read { circuit, .. } => circuit.resize(1024, 9),
            SheetRequest::Write { text, .. } => text.resize(16_384, 7),
            _ => unreachable!("only these have a room"),
        }
        let needed = match first(&longer).split_once(' ') {
            Some(("lines", gates)) => 4 * gates.parse::<usize>().unwrap(),
            Some(("bytes", count)) => count.parse().unwrap(),
            _ => continue,
        };
        let word = first(request).split(' ').next().unwrap().to_string();
        found.insert((name, word, room as i64 - needed as i64));
    }
    for (name, word) in [("read", "lines"), ("write", "bytes")] {
        for (word, more) in [("refusal", -1), (word, 0), (word, 1)] {
            assert!(
                found.contains(&(name, word.to_string(), more)),
                "{name} {word} {more}"
            );
        }
    }
}

/// On a refusal the list is as before; otherwise what lies beyond.
#[test]
fn nothing_else_is_written() {
    for request in SheetSet::ALL.into_iter().flat_map(|set| set.make(SEED)) {
        let (before, unit) = match &request {
            SheetRequest::Read { circuit, .. } => (circuit.clone(), 4),
            SheetRequest::Write { text, .. } => (text.iter().map(|&byte| byte.into()).collect(), 1),
            _ => continue,
        };
        let answer = request.answer(0);
        let (first, list) = answer.split_once('\n').unwrap();
        let after: Vec<u32> = list
            .split_whitespace()
            .skip(1)
            .map(|number| number.parse().unwrap())
            .collect();
        let written = match first.split_once(' ').unwrap() {
            ("refusal", _) => 0,
            (_, count) => unit * count.parse::<usize>().unwrap(),
        };
        assert_eq!(before.len(), after.len());
        assert_eq!(before[written..], after[written..]);
    }
}

#[test]
fn the_text_keeps_within_the_limits_of_the_format() {
    for set in SheetSet::ALL {
        let (requests, _) = text::sheets(set, SEED);
        for line in requests.lines() {
            assert!(line.len() <= 1_048_576);
        }
        let long = requests
            .lines()
            .filter(|line| line.split(' ').count() > 1 + 65_536);
        // The one that is a fault.
        assert_eq!(long.count(), usize::from(set == SheetSet::Kept));
    }
}

#[test]
fn the_same_seed_gives_the_same_requests() {
    for set in SheetSet::ALL {
        assert_eq!(set.make(SEED), set.make(SEED));
        assert_ne!(set.make(SEED), set.make(SEED + 1));
    }
}

/// The counts that vectors/README.md tells.
#[test]
fn the_counts_are_the_printed_ones() {
    let readme = include_str!("../../vectors/README.md");
    for set in SheetSet::ALL {
        let all = set.make(SEED);
        assert!(
            readme.contains(&format!("{} requests", all.len())),
            "{}: {}",
            set.name(),
            all.len()
        );
    }
}
