//! A slow model of the reader that shares nothing with it: the grammar as lists of symbols, and a search for a
//! sheet that begins with a text.

use crate::circuit;
use crate::refusal::Refusal;

#[derive(Clone, Copy)]
enum Symbol {
    Literal(&'static str),
    /// A number of 32 bits.
    Number,
    /// A form that may stand inside another.
    Form,
    /// The number of an earlier row that has a value.
    Name,
}

use Symbol::{Form, Literal, Name, Number};

struct Rule {
    word: &'static str,
    symbols: &'static [Symbol],
    inside: bool,
    outermost: bool,
}

const fn rule(
    word: &'static str,
    symbols: &'static [Symbol],
    inside: bool,
    outermost: bool,
) -> Rule {
    Rule {
        word,
        symbols,
        inside,
        outermost,
    }
}

const SPACE: Symbol = Literal(" ");
const CLOSE: Symbol = Literal(")");

/// In the order of the kinds' numbers, and the name of a row last.
const RULES: [Rule; 11] = [
    rule("in", &[Literal("(in "), Number, CLOSE], true, true),
    rule(
        "add",
        &[Literal("(add "), Form, SPACE, Form, CLOSE],
        true,
        true,
    ),
    rule(
        "sub",
        &[Literal("(sub "), Form, SPACE, Form, CLOSE],
        true,
        true,
    ),
    rule(
        "plus",
        &[Literal("(plus "), Form, SPACE, Number, CLOSE],
        true,
        true,
    ),
    rule(
        "times",
        &[Literal("(times "), Form, SPACE, Number, CLOSE],
        true,
        true,
    ),
    rule(
        "mul",
        &[Literal("(mul "), Form, SPACE, Form, CLOSE],
        true,
        true,
    ),
    rule("out", &[Literal("(out "), Form, CLOSE], false, true),
    rule("sq", &[Literal("(sq "), Form, CLOSE], true, true),
    rule(
        "give",
        &[Literal("(give "), Form, SPACE, Number, CLOSE],
        false,
        true,
    ),
    rule(
        "over",
        &[Literal("(over "), Form, SPACE, Number, CLOSE],
        true,
        true,
    ),
    rule("line", &[Literal("(line "), Name, CLOSE], true, false),
];

/// A form as it is read.
#[derive(Clone, Debug, PartialEq, Eq)]
pub struct Tree {
    word: &'static str,
    forms: Vec<Tree>,
    number: Option<u32>,
}

/// What comes of matching a text: every way in which a part at its start is matched whole, with the rest; and, where
/// the text ends first, what would complete it.
struct Matched<'a, T> {
    whole: Vec<(T, &'a str)>,
    completion: Option<String>,
}

/// The earlier rows: whether each has a value.
type Rows = [bool];

fn one_of<'a>(texts: impl Iterator<Item = String>, text: &'a str) -> Matched<'a, String> {
    let mut matched = Matched {
        whole: Vec::new(),
        completion: None,
    };
    for wanted in texts {
        if let Some(rest) = text.strip_prefix(&wanted[..]) {
            matched.whole.push((wanted, rest));
        } else if let Some(more) = wanted.strip_prefix(text) {
            matched.completion = Some(more.to_string());
        }
    }
    matched
}

/// Every decimal that the text begins with, or 0 where there is no text.
fn number(text: &str) -> Matched<'_, String> {
    let decimal = |len: &usize| {
        let number: u32 = text.get(..*len)?.parse().ok()?;
        (number.to_string() == text[..*len]).then(|| text[..*len].to_string())
    };
    if text.is_empty() {
        return one_of(["0".to_string()].into_iter(), text);
    }
    one_of((1..=10).filter_map(|len| decimal(&len)), text)
}

fn name<'a>(rows: &Rows, text: &'a str) -> Matched<'a, String> {
    let valued = (0..rows.len()).filter(|&row| rows[row]);
    one_of(valued.map(|row| row.to_string()), text)
}

/// Whether some text of the symbol is there at all.
fn possible(rows: &Rows, symbol: &Symbol) -> bool {
    !matches!(symbol, Name) || rows.contains(&true)
}

/// The shortest text of a symbol that some text has.
fn any(rows: &Rows, symbol: &Symbol) -> String {
    match symbol {
        Literal(literal) => literal.to_string(),
        Number => "0".to_string(),
        Form => "(in 0)".to_string(),
        Name => rows.iter().position(|&valued| valued).unwrap().to_string(),
    }
}

fn symbols<'a>(rows: &Rows, rule: &'static Rule, text: &'a str) -> Matched<'a, Tree> {
    let empty = Tree {
        word: rule.word,
        forms: Vec::new(),
        number: None,
    };
    let mut matched = Matched {
        whole: vec![(empty, text)],
        completion: None,
    };
    for (index, symbol) in rule.symbols.iter().enumerate() {
        let mut whole = Vec::new();
        for (tree, rest) in std::mem::take(&mut matched.whole) {
            let mut completion = None;
            let mut take = |found: Matched<'a, String>, counts: bool| {
                for (digits, rest) in found.whole {
                    let mut tree = tree.clone();
                    if counts {
                        tree.number = digits.parse().ok();
                    }
                    whole.push((tree, rest));
                }
                completion = found.completion;
            };
            match symbol {
                Literal(literal) => take(one_of([literal.to_string()].into_iter(), rest), false),
                Number => take(number(rest), true),
                Name => take(name(rows, rest), true),
                Form => {
                    let found = form(rows, false, rest);
                    for (inner, rest) in found.whole {
                        let mut tree = tree.clone();
                        tree.forms.push(inner);
                        whole.push((tree, rest));
                    }
                    completion = found.completion;
                }
            }
            let later = &rule.symbols[index + 1..];
            if let Some(mut completion) = completion {
                if later.iter().all(|symbol| possible(rows, symbol)) {
                    completion.extend(later.iter().map(|symbol| any(rows, symbol)));
                    matched.completion = Some(completion);
                }
            }
        }
        matched.whole = whole;
    }
    matched
}

fn form<'a>(rows: &Rows, outermost: bool, text: &'a str) -> Matched<'a, Tree> {
    let mut matched = Matched {
        whole: Vec::new(),
        completion: None,
    };
    for rule in &RULES {
        if if outermost {
            rule.outermost
        } else {
            rule.inside
        } {
            let found = symbols(rows, rule, text);
            matched.whole.extend(found.whole);
            matched.completion = found.completion.or(matched.completion);
        }
    }
    matched
}

/// The rows of a text, and what would complete it to a sheet: nothing more if it is one. None if no sheet begins with it.
/// A line feed only ever stands at the end of a row.
pub fn completed(text: &[u8]) -> Option<(Vec<Tree>, String)> {
    let text = std::str::from_utf8(text)
        .ok()
        .filter(|text| text.is_ascii())?;
    let mut lines: Vec<&str> = text.split('\n').collect();
    let last = lines.pop()?;
    let mut trees: Vec<Tree> = Vec::new();
    let mut rows = Vec::new();
    for line in lines {
        let whole = form(&rows, true, line).whole.into_iter();
        let mut readings: Vec<Tree> = whole
            .filter(|(_, rest)| rest.is_empty())
            .map(|(tree, _)| tree)
            .collect();
        assert!(readings.len() < 2, "a sheet has one reading");
        let tree = readings.pop()?;
        rows.push(!["out", "give"].contains(&tree.word));
        trees.push(tree);
    }
    if last.is_empty() {
        return Some((trees, String::new()));
    }
    let found = form(&rows, true, last);
    let ended = found.whole.iter().any(|(_, rest)| rest.is_empty());
    let more = if ended {
        Some(String::new())
    } else {
        found.completion
    };
    more.map(|more| (trees, more + "\n"))
}

fn flatten(tree: &Tree, wires: &[u32], gates: &mut Vec<[u32; 4]>) -> u32 {
    let number = tree.number.unwrap_or(0);
    if tree.word == "line" {
        return wires[number as usize];
    }
    let operands: Vec<u32> = tree
        .forms
        .iter()
        .map(|form| flatten(form, wires, gates))
        .collect();
    let kind = 1 + RULES
        .iter()
        .position(|rule| rule.word == tree.word)
        .unwrap() as u32;
    gates.push(match operands[..] {
        [] => [kind, number, 0, 0],
        [first] if tree.word == "give" => [kind, first, number, 0],
        [first] => [kind, first, 0, number],
        [first, second] => [kind, first, second, 0],
        _ => unreachable!("a form holds at most two"),
    });
    gates.len() as u32 - 1
}

fn circuit(trees: &[Tree]) -> Vec<u32> {
    let mut gates = Vec::new();
    let mut wires = Vec::new();
    for tree in trees {
        let wire = flatten(tree, &wires, &mut gates);
        wires.push(wire);
    }
    gates.concat()
}

/// What a reader with enough room tells: the circuit or the refusal.
pub fn read(parties: u32, text: &[u8]) -> Result<Vec<u32>, Refusal> {
    if !(2..=8).contains(&parties) {
        return Err(Refusal {
            number: 1,
            index: 0,
        });
    }
    let refused = |number, index| Some(Refusal { number, index });
    let sheet = completed(text).filter(|(_, more)| more.is_empty());
    let shape = match sheet {
        Some(_) => None,
        None => {
            // What begins a text that lives, lives.
            let (mut lives, mut dies) = (0, text.len() + 1);
            while dies - lives > 1 {
                let middle = (lives + dies) / 2;
                match completed(&text[..middle]) {
                    Some(_) => lives = middle,
                    None => dies = middle,
                }
            }
            refused(22, lives)
        }
    };
    // Every bracket is counted; a form that names a row makes no gate.
    let (mut open, mut closed, mut names) = (0, 0, 0);
    let mut limits = None;
    for (index, &byte) in text.iter().enumerate() {
        match byte {
            b'(' => open += 1,
            b')' => closed += 1,
            b'l' if text[..index].ends_with(b"(") => names += 1,
            _ => {}
        }
        if byte == b'(' && open - closed == 17 {
            limits = limits.or(refused(23, index));
        }
        if byte == b')' && closed - names == 257 {
            limits = limits.or(refused(24, index));
        }
    }
    let first = shape
        .into_iter()
        .chain(limits)
        .min_by_key(|refusal| (refusal.index, refusal.number));
    if let Some(refusal) = first {
        return Err(refusal);
    }
    let circuit = circuit(&sheet.unwrap().0);
    circuit::shape(parties, &circuit)?;
    Ok(circuit)
}
