//! The worked examples: five firms score four gates of a harbour.
//!
//! Each firm enters its late rounds at each harbour gate; the hidden risk of a harbour gate is entered
//! by one firm. The score is the sum over the harbour gates of the firms' late rounds times the risk. A
//! firm is ranked by its points, the same sum with its own late rounds only.

use std::fmt::Write;
use std::ops::Range;

use crate::circuit::{self, Gate, MAX_GATES};
use crate::prep;
use crate::random::Random;
use crate::requests::{blank_joint, score_request, Answered};
use crate::sheet::read_sheet;
use crate::text;

pub(crate) const FIRMS: usize = 5;
pub(crate) const HARBOUR_GATES: usize = 4;
const GATES: Range<usize> = 0..HARBOUR_GATES;

/// The firm that is told its points.
const RANKED: usize = 2;

#[derive(Clone, Copy, Debug, PartialEq, Eq)]
pub enum Example {
    /// All firms are told the score.
    Harbour,
    /// All firms are told the score, and one its points.
    Rank,
}

impl Example {
    pub const ALL: [Example; 2] = [Example::Harbour, Example::Rank];

    /// The command that makes its files.
    pub fn command(self) -> &'static str {
        match self {
            Example::Harbour => "example",
            Example::Rank => "rank",
        }
    }

    /// The file that has the sheet, beside the request.
    fn sheet_file(self) -> &'static str {
        match self {
            Example::Harbour => "harbour.sheet",
            Example::Rank => "rank.sheet",
        }
    }

    /// The line of the request that names that file.
    pub fn sheet_line(self) -> String {
        format!("sheet {}\n", self.sheet_file())
    }

    /// A row for each harbour gate, and one that adds them up. Before those of the rank, rows of what is named twice.
    pub fn sheet(self) -> String {
        let risk = |gate| entry(holder(gate));
        let rows: Vec<String> = match self {
            Example::Harbour => {
                let rows = GATES.map(|gate| part(&entry(RANKED), &risk(gate)));
                let score = sum(GATES.map(row));
                rows.chain([format!("(out {score})")]).collect()
            }
            Example::Rank => {
                let own = row;
                let named_risk = |gate| row(HARBOUR_GATES + gate);
                let parts = GATES.map(|gate| part(&own(gate), &named_risk(gate)));
                let points = GATES.map(|gate| format!("(mul {} {})", own(gate), named_risk(gate)));
                let score = sum(GATES.map(|gate| row(2 * HARBOUR_GATES + gate)));
                let given = row(3 * HARBOUR_GATES);
                let last = [
                    sum(points),
                    format!("(out {score})"),
                    format!("(give {given} {RANKED})"),
                ];
                let named = GATES.map(|_| entry(RANKED));
                let named = named.chain(GATES.map(risk));
                named.chain(parts).chain(last).collect()
            }
        };
        rows.join("\n") + "\n"
    }

    pub fn circuit(self) -> Vec<u32> {
        let mut circuit = vec![0; 4 * MAX_GATES];
        let gates = read_sheet(FIRMS as u32, self.sheet().as_bytes(), &mut circuit);
        circuit.truncate(4 * gates.expect("an accepted sheet"));
        circuit
    }

    /// What is entered and by which firm, as the sheet's in forms come.
    fn entered(self, numbers: &Numbers) -> Vec<(usize, u32)> {
        let risk = |gate| (holder(gate), numbers.risks[gate]);
        let count = |gate: usize, firm: usize| (firm, numbers.late[gate][firm]);
        match self {
            Example::Harbour => GATES
                .flat_map(|gate| {
                    let counts = (0..FIRMS).map(move |firm| count(gate, firm));
                    counts.chain([risk(gate)])
                })
                .collect(),
            Example::Rank => {
                let own = GATES.map(|gate| count(gate, RANKED));
                let others = GATES.flat_map(|gate| {
                    let others = (0..FIRMS).filter(|&firm| firm != RANKED);
                    others.map(move |firm| count(gate, firm))
                });
                own.chain(GATES.map(risk)).chain(others).collect()
            }
        }
    }

    pub fn make(self, seed: u64) -> Worked {
        let mut random = Random::new(seed);
        let numbers = Numbers::draw(&mut random);
        let circuit = self.circuit();
        let shape = circuit::shape(FIRMS as u32, &circuit).expect("an accepted circuit");
        let key = random.nonzero();
        let preps = prep::make(&mut random, FIRMS as u32, &circuit, key);
        let mut entered = self.entered(&numbers);
        // What one firm enters stays in the sheet's order.
        entered.sort_by_key(|&(firm, _)| firm);
        let inputs: Vec<u32> = entered.into_iter().map(|(_, number)| number).collect();
        let coefficients = random.elements(shape.coefficients());
        let nonces: Vec<u8> = (0..shape.nonces())
            .map(|_| random.below(256) as u8)
            .collect();
        let request = blank_joint(
            FIRMS as u32,
            &circuit,
            &preps,
            &inputs,
            &coefficients,
            &nonces,
        );
        Worked {
            example: self,
            numbers,
            run: request.expect("an accepted circuit").answered(),
        }
    }

    /// What is said of the rank only.
    fn rank_only(self, text: &'static str) -> &'static str {
        match self {
            Example::Harbour => "",
            Example::Rank => text,
        }
    }

    /// The first line of the request.
    fn title(self) -> &'static str {
        match self {
            Example::Harbour => {
                "# Five firms score the four gates of a harbour, and show each other nothing but the score."
            }
            Example::Rank => {
                "# Five firms score the four gates of a harbour, and firm 2 alone is told the points by which it is ranked."
            }
        }
    }

    /// What is said before a line of the request.
    fn comment(self, line: &str) -> String {
        match line.split(' ').next() {
            Some("sheet") => self.about_sheet(),
            Some("preps") => {
                let shape = circuit::shape(FIRMS as u32, &self.circuit());
                format!(
                    "\
# The preprocessing of parties 0 to 4 in turn, {} numbers each: a share of the key, three numbers for each input,
# six for each multiplication{}. Made at random, so that shares and MACs fit.
",
                    shape.expect("an accepted circuit").prep_len(),
                    self.rank_only(", three for the give")
                )
            }
            Some("inputs") => {
                let order = match self {
                    Example::Harbour => {
                        "\
its late rounds at harbour gates 0 to 3, and after those at the gate
# whose risk it holds, that risk.
"
                    }
                    Example::Rank => {
                        "\
the risk it holds, if any, and then its late rounds at harbour
# gates 0 to 3; firm 2 first those, and then the risk.
"
                    }
                };
                format!("# What each party enters, parties 0 to 4 in turn: {order}")
            }
            Some("coefficients") => format!(
                "\
# The coefficients of the MAC checks: two for each multiplication, one for the output{}.
",
                self.rank_only(", one for the give")
            ),
            Some("nonces") => format!(
                "\
# The nonces of the commitments, 32 bytes each: of parties 0 to 4 at the first check, and at the second{}.
",
                self.rank_only(", and at the third")
            ),
            Some("scratch") => "\
# Room for each party's shares and opened values, its nonce and the marks of all.
"
            .to_string(),
            Some("transcript") => format!(
                "\
# Room for all words sent, and for the score{}.
",
                self.rank_only(" and firm 2's points")
            ),
            _ => String::new(),
        }
    }

    /// What is said of the sheet.
    fn about_sheet(self) -> String {
        let rows = match self {
            Example::Harbour => {
                "\
A line of the sheet for each harbour gate, 0 to 3:
# the five firms' late rounds there are added up and multiplied by the risk; (in 3) is a number that firm 3 enters.
# The last line adds the values of lines 0 to 3 and gives out the sum. "
            }
            Example::Rank => {
                "\
Lines 0 to 3 of the sheet are firm 2's late
# rounds at harbour gates 0 to 3, lines 4 to 7 the risks of those gates; (in 3) is a number that firm 3 enters. They are
# lines of their own because each is named twice; (line 4) is the value of line 4. Lines 8 to 11, one for each harbour
# gate: the five firms' late rounds there are added up and multiplied by the risk. Line 12 is firm 2's points: its late
# rounds, each multiplied by the risk, are added up. Line 13 adds the values of lines 8 to 11 and gives out the sum, line 14
# gives the value of line 12 to firm 2. "
            }
        };
        let circuit = self.circuit();
        let count = |kind: fn(&Gate) -> bool| circuit::gates(&circuit).filter(kind).count();
        format!(
            "\
# The circuit stands in a file of its own beside this one, as a sheet. {rows}The sheet has {} gates: {} inputs, {} additions,
# {} multiplications, {} output{}. tools/expand puts the sheet's bytes in the place of the next line.
",
            count(|_| true),
            count(|gate| matches!(gate, Gate::Input { .. })),
            count(|gate| matches!(gate, Gate::Add { .. })),
            count(|gate| matches!(gate, Gate::Multiply { .. })),
            count(|gate| matches!(gate, Gate::Output { .. })),
            self.rank_only(", 1 give"),
        )
    }
}

/// The private numbers.
struct Numbers {
    /// For each harbour gate the late rounds of each firm.
    late: [[u32; FIRMS]; HARBOUR_GATES],
    risks: [u32; HARBOUR_GATES],
}

impl Numbers {
    fn draw(random: &mut Random) -> Numbers {
        Numbers {
            late: [(); HARBOUR_GATES].map(|_| [(); FIRMS].map(|_| random.below(10) as u32)),
            risks: [(); HARBOUR_GATES].map(|_| random.between(1, 9) as u32),
        }
    }

    /// The sum of the firms' late rounds at a harbour gate, times its risk.
    fn part(&self, gate: usize) -> u32 {
        self.late[gate].iter().sum::<u32>() * self.risks[gate]
    }

    fn score(&self) -> u32 {
        GATES.map(|gate| self.part(gate)).sum()
    }

    /// The points of the firm that is told them.
    fn points(&self) -> u32 {
        let counts = self.late.iter().map(|counts| counts[RANKED]);
        counts
            .zip(self.risks)
            .map(|(count, risk)| count * risk)
            .sum()
    }

    /// The numbers, and the score worked by hand.
    fn table(&self) -> String {
        let mut text = String::from(
            "\
#   harbour gate   firm 0  firm 1  firm 2  firm 3  firm 4   sum   risk (held by)   sum x risk
",
        );
        for (gate, counts) in self.late.iter().enumerate() {
            let _ = write!(text, "#   {gate:12} ");
            for count in counts {
                let _ = write!(text, " {count:7}");
            }
            let sum: u32 = counts.iter().sum();
            let (risk, firm, part) = (self.risks[gate], holder(gate), self.part(gate));
            let _ = writeln!(text, " {sum:5}   {risk:4} (firm {firm})  {part:11}");
        }
        let parts = GATES.map(|gate| self.part(gate).to_string());
        let parts = parts.collect::<Vec<_>>().join(" + ");
        let _ = writeln!(text, "#\n#   score = {parts} = {}", self.score());
        text
    }

    /// The points worked by hand.
    fn points_line(&self) -> String {
        let counts = self.late.iter().map(|counts| counts[RANKED]);
        let parts = counts.zip(self.risks);
        let parts = parts.map(|(count, risk)| format!("{count} x {risk}"));
        let parts = parts.collect::<Vec<_>>().join(" + ");
        format!(
            "#   points of firm {RANKED} = {parts} = {}\n",
            self.points()
        )
    }
}

/// An example made from a seed.
pub struct Worked {
    example: Example,
    numbers: Numbers,
    pub run: Answered,
}

impl Worked {
    /// The outputs on the plain numbers.
    pub fn outputs(&self) -> Vec<u32> {
        match self.example {
            Example::Harbour => vec![self.numbers.score()],
            Example::Rank => vec![self.numbers.score(), self.numbers.points()],
        }
    }

    /// The answer of `score`.
    pub fn answer(&self) -> String {
        text::show(&self.run)
    }

    /// The request to `score`, with comments; a line names the file that has the sheet.
    pub fn request(&self, seed: u64) -> String {
        let example = self.example;
        let points = match example {
            Example::Harbour => String::new(),
            Example::Rank => self.numbers.points_line(),
        };
        let mut text = format!(
            "\
{}
#
# Each firm has counted its late rounds at each harbour gate. Each harbour gate has a hidden risk, known to
# one firm. The score is the sum over the harbour gates of (all firms' late rounds there) x (its risk).{}
# Firms are parties 0 to 4. Made by: reference {} {seed} request
#
# The private numbers, which no party sees of another, and the score{} worked by hand:
#
{}{points}#
# The answer has a line for each round with the words that all parties send, and last the score{}.
",
            example.title(),
            example.rank_only(
                "
# The points of firm 2 are the sum over the harbour gates of (firm 2's late rounds there) x (the risk).
# The private numbers and the score are those of harbour.txt."
            ),
            example.command(),
            example.rank_only(" and the points"),
            self.numbers.table(),
            example.rank_only(
                "
# and then what firm 2 is given. It lists both numbers because this is a joint run: one program has the lists of all
# parties. A run by single calls (docs/REPLAY.md) tells the score to every firm and the second number to firm 2 alone:
# the words of the last show, which all hear, sum to the points less a mask that only firm 2 knows"
            ),
        );
        for line in score_request(&example.sheet_line(), &self.run.request).lines() {
            text.push_str(&example.comment(line));
            text.push_str(line);
            text.push('\n');
        }
        text
    }
}

/// The firm that knows a harbour gate's risk.
fn holder(gate: usize) -> usize {
    gate % FIRMS
}

/// The form of a number that a firm enters.
fn entry(firm: usize) -> String {
    format!("(in {firm})")
}

/// The form that names a row.
fn row(number: usize) -> String {
    format!("(line {number})")
}

/// The form of a harbour gate's part of the score, given the forms of the ranked firm's late rounds and of the risk.
fn part(own: &str, risk: &str) -> String {
    let counts = (0..FIRMS).map(|firm| match firm {
        RANKED => own.to_string(),
        _ => entry(firm),
    });
    format!("(mul {} {risk})", sum(counts))
}

/// A form that adds up forms from the left.
fn sum(forms: impl Iterator<Item = String>) -> String {
    let sum = forms.reduce(|sum, form| format!("(add {sum} {form})"));
    sum.expect("at least one form")
}

#[cfg(test)]
mod tests {
    use super::*;
    use crate::requests::{Answer, Request};

    #[test]
    fn the_run_gives_the_outputs() {
        // Gates, numbers of a party's preprocessing, rounds.
        for (example, gates, len, rounds) in [
            (Example::Harbour, 48, 97, 24 + 4 + 5),
            (Example::Rank, 56, 124, 24 + 8 + 5 + 3),
        ] {
            for seed in 0..20 {
                let worked = example.make(seed);
                let (
                    Request::Joint {
                        parties,
                        circuit,
                        preps,
                        ..
                    },
                    Answer::Joint {
                        result, outputs, ..
                    },
                ) = (&worked.run.request, &worked.run.answer)
                else {
                    panic!("the example is a joint run");
                };
                assert!(prep::is_good(*parties, circuit, preps));
                assert_eq!(preps.len(), FIRMS * len);
                assert_eq!(circuit.len(), 4 * gates);
                assert_eq!(result.unwrap().rounds, rounds);
                assert_eq!(*outputs, worked.outputs());
            }
        }
    }

    /// The files are those of seed 1, and the numbers worked by hand in the comments are those in the answer.
    #[test]
    fn the_kept_files_are_these() {
        for (example, request, sheet, answer, by_hand) in [
            (
                Example::Harbour,
                include_str!("../../examples/harbour.txt"),
                include_str!("../../examples/harbour.sheet"),
                include_str!("../../examples/harbour.answer"),
                &["score = "][..],
            ),
            (
                Example::Rank,
                include_str!("../../examples/rank.txt"),
                include_str!("../../examples/rank.sheet"),
                include_str!("../../examples/rank.answer"),
                &["score = ", "points of firm 2 = "],
            ),
        ] {
            assert_eq!(sheet, example.sheet());
            let worked = example.make(1);
            assert_eq!(request, worked.request(1));
            assert_eq!(answer, worked.answer());
            let mut out = String::from("out");
            for name in by_hand {
                let line = request.lines().find(|line| line.contains(name)).unwrap();
                let _ = write!(out, " {}", line.rsplit(' ').next().unwrap());
            }
            assert_eq!(answer.lines().last(), Some(&out[..]));
        }
    }

    /// A reader may compare the two: the private numbers are the same, and so is the score.
    #[test]
    fn the_examples_have_the_same_numbers() {
        for seed in 0..20 {
            let [harbour, rank] = Example::ALL.map(|example| example.make(seed));
            assert_eq!(harbour.numbers.table(), rank.numbers.table());
            assert_eq!(harbour.outputs()[0], rank.outputs()[0]);
        }
    }
}
