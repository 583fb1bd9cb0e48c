//! Requests and answers as text, in the format of `docs/REPLAY.md`.

use crate::circuit;
use crate::joint::{Ending, JointResult};
use crate::party::{Position, Received, Round, Sort, Stage};
use crate::refusal::Refusal;
use crate::requests::{Answer, Answered, Field, Request, Set};
use crate::requests::{FitRequest, FitSet, SheetRequest, SheetSet};

/// Comments that say what the requests of a set are.
fn head(count: usize, about: &str, name: &str, seed: u64) -> String {
    format!(
        "# {count} requests from seed {seed}: {about}.\n# Made by: reference vectors {name} {seed} requests\n"
    )
}

/// The requests of a set, after comments that say what they are.
pub fn requests(set: Set, seed: u64) -> String {
    let all = set.make(seed);
    let mut text = head(all.len(), set.about(), set.name(), seed);
    for one in &all {
        text.push_str(&request(&one.request));
    }
    text
}

/// The answers to the requests of a set.
pub fn answers(set: Set, seed: u64) -> String {
    let all = set.make(seed);
    all.iter().map(|one| answer(&one.answer)).collect()
}

/// The requests of a set about sheets with their answers.
pub fn sheets(set: SheetSet, seed: u64) -> (String, String) {
    let all = set.make(seed);
    let head = head(all.len(), set.about(), set.name(), seed);
    with_answers(head, &all, SheetRequest::request, SheetRequest::answer)
}

/// The requests of a set to the tool of ranges with their answers.
pub fn fits(set: FitSet, seed: u64) -> (String, String) {
    let all = set.make(seed);
    let head = head(all.len(), set.about(), set.name(), seed);
    with_answers(head, &all, FitRequest::request, FitRequest::answer)
}

/// The requests after their head, and the answers. The number of a faulty line is that in the requests.
fn with_answers<T>(
    head: String,
    all: &[T],
    request_of: fn(&T) -> String,
    answer_of: fn(&T, usize) -> String,
) -> (String, String) {
    let mut requests = head;
    let mut answers = String::new();
    let mut before = requests.lines().count();
    for one in all {
        let request = request_of(one);
        answers.push_str(&answer_of(one, before));
        before += request.lines().count();
        requests.push_str(&request);
    }
    (requests, answers)
}

/// A request to the entry that it is made for.
pub fn request(request: &Request) -> String {
    request_to(request.entry().name(), request)
}

/// A request under another entry's name: a joint run may be asked of `show` too.
pub fn request_to(entry: &str, request: &Request) -> String {
    let mut text = format!("{entry}\n");
    for (name, field) in request.fields() {
        match field {
            Field::Numbers(numbers) => text.push_str(&line(name, numbers)),
            Field::Bytes(bytes) => text.push_str(&bytes_line(name, bytes)),
            Field::Position(at) => text.push_str(&format!("{name} {}\n", position(at))),
        }
    }
    text
}

/// The result, and the later contents of every list that the entry may write.
pub fn answer(answer: &Answer) -> String {
    let mut text = first_line(answer);
    for (name, numbers) in answer.lists() {
        text.push_str(&line(name, numbers));
    }
    text
}

/// The answer of `show` to a joint run.
pub fn show(one: &Answered) -> String {
    first_line(&one.answer) + &rounds(one)
}

/// A line for each round that a joint run made, and after a finished run the outputs; nothing for a
/// refused one.
pub fn rounds(one: &Answered) -> String {
    let mut text = String::new();
    if let (
        Request::Joint {
            parties, circuit, ..
        },
        Answer::Joint {
            result: Ok(result),
            transcript,
            outputs,
            ..
        },
    ) = (&one.request, &one.answer)
    {
        let mut rest = &transcript[..result.words];
        for (_, round) in circuit::rounds(circuit).into_iter().take(result.rounds) {
            let (words, later) = rest.split_at(*parties as usize * round.words());
            rest = later;
            text.push_str(&line(round.name(), words));
        }
        if result.ending == Ending::Finished {
            text.push_str(&line("out", &outputs[..result.outputs]));
        }
    }
    text
}

/// A list with its name.
pub fn line(name: &str, numbers: &[u32]) -> String {
    let mut text = String::from(name);
    for number in numbers {
        text.push(' ');
        text.push_str(&number.to_string());
    }
    text.push('\n');
    text
}

/// A list of bytes with its name.
pub fn bytes_line(name: &str, bytes: &[u8]) -> String {
    let numbers: Vec<u32> = bytes.iter().map(|&byte| byte.into()).collect();
    line(name, &numbers)
}

/// The party that is named beside a gate.
fn named(party: Option<u32>) -> String {
    party.map_or(String::new(), |party| format!(" party {party}"))
}

fn first_line(answer: &Answer) -> String {
    let text = match answer {
        Answer::Open { result } | Answer::Send { result, .. } => {
            result.map(|next| format!("next {}", position(next)))
        }
        Answer::Receive { result, .. } => result.map(|received| match received {
            Received::Moved(next) => format!("next {}", position(next)),
            Received::Released {
                output,
                position: next,
            } => format!("output {output} {}", position(next)),
            Received::Aborted {
                position: next,
                party,
            } => format!("abort {}{}", position(next), named(party)),
        }),
        Answer::Joint { result, .. } => {
            result.map(|JointResult { ending, rounds, .. }| match ending {
                Ending::Finished => format!("done {rounds}"),
                Ending::Aborted { gate, party } => {
                    format!("stopped {gate} {rounds}{}", named(party))
                }
            })
        }
    };
    match text {
        Ok(text) => text + "\n",
        Err(refused) => refusal(refused),
    }
}

pub fn refusal(Refusal { number, index }: Refusal) -> String {
    format!("refusal {number} {index}\n")
}

fn position(at: Position) -> String {
    format!("{} {} {}", at.gate, stage(at.stage), at.held)
}

pub fn stage(stage: Stage) -> String {
    match stage {
        Stage::Send(sort) => format!("send-{}", self::sort(sort)),
        Stage::Receive(sort) => format!("receive-{}", self::sort(sort)),
        Stage::Finished => String::from("finished"),
        Stage::Aborted => String::from("aborted"),
    }
}

fn sort(sort: Sort) -> &'static str {
    match sort {
        Sort::Own => "own",
        Sort::CommitOpened => "seal",
        Sort::RevealOpened => "reveal",
        Sort::OpenOutput => "show",
        Sort::CommitOutput => "output-seal",
        Sort::RevealOutput => "output-reveal",
    }
}

/// The name that tells an output's two checks apart.
pub fn round(round: Round) -> String {
    match round {
        Round::CommitOutput | Round::RevealOutput => format!("output-{}", round.name()),
        _ => String::from(round.name()),
    }
}

#[cfg(test)]
mod tests {
    use super::*;
    use crate::docket;
    use crate::fit::Change;
    use crate::requests::Lent;

    const REPLAY: &str = include_str!("../../docs/REPLAY.md");
    const VECTORS: &str = include_str!("../../vectors/README.md");

    /// An example in docs/REPLAY.md or vectors/README.md: the indented lines of its section, before and after "is answered by".
    fn example(title: &str) -> (String, String) {
        let title = format!("## {title}\n");
        let found = [REPLAY, VECTORS].map(|page| page.split_once(&title));
        let (_, example) = found.into_iter().flatten().next().unwrap();
        let example = example.split("\n## ").next().unwrap();
        let (request, answer) = example.split_once("is answered by\n").unwrap();
        let indented = |text: &str| {
            let lines = text.lines().filter_map(|line| line.strip_prefix("    "));
            lines.map(|line| format!("{line}\n")).collect()
        };
        (indented(request), indented(answer))
    }

    #[test]
    fn writes_the_documented_example() {
        let one = Request::Send {
            lent: Lent {
                parties: docket::PARTIES,
                party: 0,
                circuit: docket::CIRCUIT.to_vec(),
                prep: docket::PREPS[..13].to_vec(),
                inputs: vec![5],
                scratch: vec![0; 38],
            },
            position: Position {
                gate: 0,
                stage: Stage::Send(Sort::Own),
                held: 0,
            },
            coefficients: Vec::new(),
            nonce: Vec::new(),
            out: vec![9, 9],
        }
        .answered();
        assert_eq!(
            (request(&one.request), answer(&one.answer)),
            example("An example")
        );
    }

    #[test]
    fn writes_the_documented_example_with_a_sheet() {
        let one = SheetRequest::Read {
            parties: 2,
            text: b"(out (in 1))\n".to_vec(),
            circuit: vec![9; 9],
        };
        let written = (one.request(), one.answer(0));
        assert_eq!(written, example("An example with a sheet"));
    }

    #[test]
    fn writes_the_documented_example_with_ranges() {
        let one = FitRequest::Fit {
            parties: docket::PARTIES,
            circuit: docket::CIRCUIT.to_vec(),
            ranges: vec![0, 100, 0, 1000],
            change: Some(Change { gate: 0, amount: 5 }),
            intervals: vec![9; 9],
            moves: vec![9; 2],
        };
        let written = (one.request(), one.answer(0));
        assert_eq!(written, example("An example with ranges"));
    }

    #[test]
    fn stages_are_the_documented_ones() {
        let table = REPLAY.split_once("The stages:").unwrap().1;
        let table = table.split_once("## Answers").unwrap().0;
        let documented = table.lines().filter(|line| line.starts_with("| `"));
        let documented: Vec<&str> = documented
            .flat_map(|line| line.split('|').nth(1).unwrap().split(','))
            .map(|name| name.trim().trim_matches('`'))
            .collect();
        let written: Vec<String> = Sort::ALL
            .into_iter()
            .flat_map(|sort| [Stage::Send(sort), Stage::Receive(sort)])
            .chain([Stage::Finished, Stage::Aborted])
            .map(stage)
            .collect();
        assert_eq!(documented, written);
    }

    #[test]
    fn shows_the_docket() {
        let one = docket::request().unwrap().answered();
        let shown = format!("done 8\n{}", docket::print().unwrap());
        assert_eq!(show(&one), shown);
        assert_eq!(answer(&one.answer).lines().next(), shown.lines().next());
    }

    #[test]
    fn a_refusal_shows_its_line_alone() {
        let mut refused = docket::request().unwrap();
        if let Request::Joint { parties, .. } = &mut refused {
            *parties = 9;
        }
        assert_eq!(show(&refused.answered()), "refusal 1 0\n");
    }
}
