//! Reads requests as text and answers them, in the format of `docs/REPLAY.md`.

use crate::fit::Change;
use crate::party::{Position, Sort, Stage};
use crate::requests::{FitRequest, Lent, Request, SheetRequest};
use crate::text;

const MAX_LINE: usize = 1_048_576;
const MAX_NUMBERS: usize = 65_536;

const ONE_PARTY: [&str; 6] = ["parties", "party", "circuit", "prep", "inputs", "scratch"];
const RUN: [&str; 7] = [
    "preps",
    "inputs",
    "scratch",
    "coefficients",
    "nonces",
    "transcript",
    "outputs",
];

/// The fields of an entry, in their order. None if there is no such entry.
fn fields(entry: &str) -> Option<Vec<&'static str>> {
    Some(match entry {
        "open" => ONE_PARTY.to_vec(),
        "send" => [
            &ONE_PARTY[..],
            &["position", "coefficients", "nonce", "out"],
        ]
        .concat(),
        "receive" => [&ONE_PARTY[..], &["position", "heard"]].concat(),
        "joint" | "show" => [&["parties", "circuit"], &RUN[..]].concat(),
        "score" => [&["parties", "text"], &RUN[..]].concat(),
        "read" => vec!["parties", "text", "circuit"],
        "write" => vec!["parties", "circuit", "text"],
        "fit" => vec![
            "parties",
            "circuit",
            "ranges",
            "change",
            "intervals",
            "moves",
        ],
        _ => return None,
    })
}

/// The lists whose numbers are bytes.
const BYTES: [&str; 3] = ["text", "nonce", "nonces"];

/// What stands after a field's name.
enum Value {
    Numbers(Vec<u32>),
    Position(Position),
}

enum State {
    /// Between requests.
    Outside,
    /// After a request that was dropped.
    Dropped,
    Within {
        entry: String,
        /// The fields that are still to come.
        wanted: std::vec::IntoIter<&'static str>,
        values: Vec<Value>,
    },
}

type Words<'a> = dyn Iterator<Item = &'a [u8]> + 'a;

fn words(line: &[u8]) -> impl Iterator<Item = &[u8]> {
    line.split(|byte| b" \t\r".contains(byte))
        .filter(|word| !word.is_empty())
}

fn number(word: &[u8]) -> Result<u32, &'static str> {
    let mut value = 0u32;
    for byte in word {
        if !byte.is_ascii_digit() {
            return Err("not a number");
        }
        let longer = value.checked_mul(10);
        let longer = longer.and_then(|ten| ten.checked_add(u32::from(byte - b'0')));
        value = longer.ok_or("a number above 4294967295")?;
    }
    Ok(value)
}

fn numbers(
    words: &mut Words<'_>,
    most: usize,
    more: &'static str,
) -> Result<Vec<u32>, &'static str> {
    let mut numbers = Vec::new();
    for word in words {
        // One number too many is told where it begins.
        if numbers.len() == most && word[0].is_ascii_digit() {
            return Err(more);
        }
        numbers.push(number(word)?);
    }
    Ok(numbers)
}

fn stage(name: &[u8]) -> Option<Stage> {
    let halves = Sort::ALL.into_iter();
    let halves = halves.flat_map(|sort| [Stage::Send(sort), Stage::Receive(sort)]);
    let mut all = halves.chain([Stage::Finished, Stage::Aborted]);
    all.find(|&stage| text::stage(stage).as_bytes() == name)
}

fn position(words: &mut Words<'_>) -> Option<Position> {
    let position = Position {
        gate: number(words.next()?).ok()?,
        stage: stage(words.next()?)?,
        held: number(words.next()?).ok()?,
    };
    words.next().is_none().then_some(position)
}

fn value(field: &str, words: &mut Words<'_>) -> Result<Value, &'static str> {
    const ONE: &str = "one number is wanted";
    Ok(match field {
        "parties" | "party" => match numbers(words, 1, ONE)? {
            none if none.is_empty() => return Err(ONE),
            one => Value::Numbers(one),
        },
        "position" => {
            let position = position(words).ok_or("a gate, a stage and a check share are wanted")?;
            Value::Position(position)
        }
        _ => {
            let list = numbers(words, MAX_NUMBERS, "more than 65536 numbers")?;
            if BYTES.contains(&field) && list.iter().any(|&number| number > u8::MAX.into()) {
                return Err("a byte above 255");
            }
            if field == "change" && ![0, 2].contains(&list.len()) {
                return Err("a gate and an amount are wanted, or nothing");
            }
            Value::Numbers(list)
        }
    })
}

/// The fields of one request as they are taken out again.
struct Taken(std::vec::IntoIter<Value>);

impl Taken {
    fn list(&mut self) -> Vec<u32> {
        match self.0.next() {
            Some(Value::Numbers(list)) => list,
            _ => unreachable!("fields are read in their order"),
        }
    }

    fn number(&mut self) -> u32 {
        self.list()[0]
    }

    fn bytes(&mut self) -> Vec<u8> {
        self.list().into_iter().map(|number| number as u8).collect()
    }

    fn position(&mut self) -> Position {
        match self.0.next() {
            Some(Value::Position(position)) => position,
            _ => unreachable!("fields are read in their order"),
        }
    }

    /// A gate and an amount, or nothing.
    fn change(&mut self) -> Option<Change> {
        match self.list()[..] {
            [gate, amount] => Some(Change { gate, amount }),
            _ => None,
        }
    }

    fn lent(&mut self) -> Lent {
        Lent {
            parties: self.number(),
            party: self.number(),
            circuit: self.list(),
            prep: self.list(),
            inputs: self.list(),
            scratch: self.list(),
        }
    }

    /// The lists of a joint run that follow its circuit.
    fn joint(&mut self, parties: u32, circuit: Vec<u32>) -> Request {
        Request::Joint {
            parties,
            circuit,
            preps: self.list(),
            inputs: self.list(),
            scratch: self.list(),
            coefficients: self.list(),
            nonces: self.bytes(),
            transcript: self.list(),
            outputs: self.list(),
        }
    }
}

fn answer(entry: &str, values: Vec<Value>) -> String {
    let taken = &mut Taken(values.into_iter());
    let request = match entry {
        "read" => {
            let (parties, text, circuit) = (taken.number(), taken.bytes(), taken.list());
            return SheetRequest::Read {
                parties,
                text,
                circuit,
            }
            .answer(0);
        }
        "write" => {
            let (parties, circuit, text) = (taken.number(), taken.list(), taken.bytes());
            return SheetRequest::Write {
                parties,
                circuit,
                text,
            }
            .answer(0);
        }
        "score" => {
            let (parties, text) = (taken.number(), taken.bytes());
            let joint = taken.joint(parties, Vec::new());
            return SheetRequest::Score { text, joint }.answer(0);
        }
        "fit" => {
            return FitRequest::Fit {
                parties: taken.number(),
                circuit: taken.list(),
                ranges: taken.list(),
                change: taken.change(),
                intervals: taken.list(),
                moves: taken.list(),
            }
            .answer(0);
        }
        "open" => Request::Open { lent: taken.lent() },
        "send" => Request::Send {
            lent: taken.lent(),
            position: taken.position(),
            coefficients: taken.list(),
            nonce: taken.bytes(),
            out: taken.list(),
        },
        "receive" => Request::Receive {
            lent: taken.lent(),
            position: taken.position(),
            heard: taken.list(),
        },
        _ => {
            let (parties, circuit) = (taken.number(), taken.list());
            taken.joint(parties, circuit)
        }
    };
    let answered = request.answered();
    match entry {
        "show" => text::show(&answered),
        _ => text::answer(&answered.answer),
    }
}

/// The answers to all requests of a text.
pub fn replay(input: &[u8]) -> String {
    let mut answers = String::new();
    let mut state = State::Outside;
    let mut lines: Vec<&[u8]> = input.split(|&byte| byte == b'\n').collect();
    // What ends with a line feed has no line after it.
    if lines.last().is_some_and(|line| line.is_empty()) {
        lines.pop();
    }
    for (index, line) in lines.iter().enumerate() {
        let mut fault =
            |message: &str| answers.push_str(&format!("line {}: {message}\n", index + 1));
        if line.len() > MAX_LINE {
            fault("more than 1048576 bytes");
            state = State::Dropped;
            continue;
        }
        let mut words = words(line);
        let Some(first) = words.next().filter(|_| line[0] != b'#') else {
            continue;
        };
        if let State::Within {
            entry,
            wanted,
            values,
        } = &mut state
        {
            let field = wanted.as_slice()[0];
            if first == field.as_bytes() {
                wanted.next();
                match value(field, &mut words) {
                    Err(message) => {
                        fault(message);
                        state = State::Dropped;
                    }
                    Ok(value) => {
                        values.push(value);
                        if wanted.as_slice().is_empty() {
                            answers.push_str(&answer(entry, std::mem::take(values)));
                            state = State::Outside;
                        }
                    }
                }
                continue;
            }
            fault(&format!("{field} is wanted"));
            state = State::Dropped;
        }
        let name = String::from_utf8_lossy(first).into_owned();
        match (fields(&name), words.next()) {
            (Some(fields), None) => {
                state = State::Within {
                    entry: name,
                    wanted: fields.into_iter(),
                    values: Vec::new(),
                }
            }
            (Some(_), Some(_)) => {
                fault("nothing may follow the name of an entry");
                state = State::Dropped;
            }
            (None, _) => {
                if matches!(state, State::Outside) {
                    fault("the name of an entry is wanted");
                }
                state = State::Dropped;
            }
        }
    }
    if let State::Within { wanted, .. } = &state {
        let (line, field) = (lines.len() + 1, wanted.as_slice()[0]);
        answers.push_str(&format!("line {line}: {field} is wanted\n"));
    }
    answers
}

#[cfg(test)]
mod tests {
    use super::*;
    use crate::example::Example;
    use crate::requests::{FitSet, Set, SheetSet};

    fn assert_answered(name: &str, (requests, answers): (String, String)) {
        let found = replay(requests.as_bytes());
        for (line, (found, answer)) in found.lines().zip(answers.lines()).enumerate() {
            assert_eq!(found, answer, "{name}: line {line}");
        }
        assert!(found == answers);
    }

    #[test]
    fn the_sets_are_answered_as_they_were_made() {
        for set in Set::ALL {
            let answers = replay(text::requests(set, 1).as_bytes());
            assert!(answers == text::answers(set, 1), "{}", set.name());
        }
        for set in SheetSet::ALL {
            assert_answered(set.name(), text::sheets(set, 1));
        }
        for set in FitSet::ALL {
            assert_answered(set.name(), text::fits(set, 1));
        }
    }

    /// The worked examples with their sheets put in.
    #[test]
    fn the_examples_are_answered_as_they_were_made() {
        for example in Example::ALL {
            let worked = example.make(1);
            let sheet = text::bytes_line("text", example.sheet().as_bytes());
            let request = worked.request(1).replace(&example.sheet_line(), &sheet);
            assert_eq!(replay(request.as_bytes()), worked.answer());
        }
    }

    /// The messages of docs/REPLAY.md, where NAME is one of the fields.
    #[test]
    fn faults_are_the_documented_ones() {
        let long = "#".repeat(MAX_LINE);
        let many = |count: usize| format!("read\nparties 2\ntext{}\ncircuit\n", " 0".repeat(count));
        for (input, answer) in [
            ("", ""),
            ("\n# x\n \t\r\n", ""),
            ("x\ny\n", "line 1: the name of an entry is wanted\n"),
            ("read\nx\ny\n", "line 2: parties is wanted\n"),
            ("read\n\n", "line 3: parties is wanted\n"),
            ("read", "line 2: parties is wanted\n"),
            ("read\nparties 1 2 x\n", "line 2: one number is wanted\n"),
            ("read\nparties 1 x\n", "line 2: not a number\n"),
            ("read\nparties\n", "line 2: one number is wanted\n"),
            (
                "read\nparties 4294967296x\n",
                "line 2: a number above 4294967295\n",
            ),
            (
                "read\nparties 2\ntext 256\ncircuit\n",
                "line 3: a byte above 255\n",
            ),
            (
                "read\nparties 2\ntext 255\r\n#\ncircuit\n",
                "refusal 22 0\ncircuit\n",
            ),
            (
                "read\nwrite\nparties 2\n",
                "line 2: parties is wanted\nline 4: circuit is wanted\n",
            ),
            (
                "read\nwrite x\nparties 2\n",
                "line 2: parties is wanted\nline 2: nothing may follow the name of an entry\n",
            ),
            (
                "fit\nparties 2\ncircuit\nranges\nchange 0\n",
                "line 5: a gate and an amount are wanted, or nothing\n",
            ),
            (
                "fit\nparties 2\ncircuit\nranges\nchange 0 1 x\n",
                "line 5: not a number\n",
            ),
            (
                "fit\nparties 2\ncircuit\nranges\nchange\nintervals 7\nmoves\n",
                "refusal 3 0\nintervals 7\nmoves\n",
            ),
            (
                "read\nfit\nparties 2\n",
                "line 2: parties is wanted\nline 4: circuit is wanted\n",
            ),
            (&format!("{long}\n"), ""),
            (&format!("{long}#\n"), "line 1: more than 1048576 bytes\n"),
            (&many(MAX_NUMBERS), "refusal 22 0\ncircuit\n"),
            (&many(MAX_NUMBERS + 1), "line 3: more than 65536 numbers\n"),
        ] {
            assert_eq!(
                replay(input.as_bytes()),
                answer,
                "{}",
                &input[..input.len().min(60)]
            );
        }
    }
}
