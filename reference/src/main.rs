use std::io::Read;
use std::process::ExitCode;

use reference::counts::Ranged;
use reference::example::Example;
use reference::requests::{self, Answered, FitSet, Set, SheetSet, Size};
use reference::{docket, replay, text, theorems};

const USAGE: &str = "usage:
    reference docket
    reference coverage SEED COUNT
    reference theorems SEED COUNT
    reference vectors small|large|square|mark|give|over|squares-large|products|marks-large|gives-large|overs-large SEED requests|answers
    reference vectors sheet|square-sheet|give-sheet|over-sheet|sheets-large SEED requests|answers
    reference vectors fit|fits-large SEED requests|answers
    reference vectors SEED coverage
    reference example|rank SEED request|sheet|answer
    reference counts|wrap
    reference replay < REQUESTS";

fn main() -> ExitCode {
    let arguments: Vec<String> = std::env::args().skip(1).collect();
    let arguments: Vec<&str> = arguments.iter().map(String::as_str).collect();
    match output(&arguments) {
        Some(text) => {
            print!("{text}");
            ExitCode::SUCCESS
        }
        None => {
            eprintln!("{USAGE}");
            ExitCode::from(2)
        }
    }
}

/// What the command prints. None if there is no such command.
fn output(arguments: &[&str]) -> Option<String> {
    Some(match *arguments {
        ["docket"] => docket::print().expect("the docket is not refused"),
        ["counts"] => Ranged::Counts.file(),
        ["wrap"] => Ranged::Wrap.file(),
        ["coverage", seed, count] => {
            let counts = requests::coverage(&generate(seed, count)?);
            let line = |(label, times)| format!("{times:6} {label}\n");
            counts.into_iter().map(line).collect()
        }
        ["theorems", seed, count] => {
            let ranges = FitSet::Kept.make(seed.parse().ok()?);
            theorems::theorems(&generate(seed, count)?, &ranges)
        }
        ["vectors", seed, "coverage"] => {
            let seed = seed.parse().ok()?;
            let sets = Set::KEPT.map(|set| set.make(seed));
            requests::table(sets.each_ref().map(|set| &set[..]))
        }
        ["vectors", name, seed, part] => {
            let seed = seed.parse().ok()?;
            let sheets = SheetSet::ALL.into_iter().find(|set| set.name() == name);
            let fits = FitSet::ALL.into_iter().find(|set| set.name() == name);
            let sheets = sheets.map(|set| text::sheets(set, seed));
            if let Some((requests, answers)) = sheets.or_else(|| Some(text::fits(fits?, seed))) {
                return match part {
                    "requests" => Some(requests),
                    "answers" => Some(answers),
                    _ => None,
                };
            }
            let set = Set::ALL.into_iter().find(|set| set.name() == name)?;
            match part {
                "requests" => text::requests(set, seed),
                "answers" => text::answers(set, seed),
                _ => return None,
            }
        }
        [command, seed, part] => {
            let example = Example::ALL
                .into_iter()
                .find(|example| example.command() == command)?;
            let seed = seed.parse().ok()?;
            match part {
                "request" => example.make(seed).request(seed),
                "sheet" => example.sheet(),
                "answer" => example.make(seed).answer(),
                _ => return None,
            }
        }
        ["replay"] => {
            let mut input = Vec::new();
            std::io::stdin().read_to_end(&mut input).ok()?;
            replay::replay(&input)
        }
        _ => return None,
    })
}

fn generate(seed: &str, count: &str) -> Option<Vec<Answered>> {
    let (seed, count) = (seed.parse().ok()?, count.parse().ok()?);
    Some(requests::generate(seed, count, Size::SMALL))
}
