//! The worked examples of ranges: will the harbour's score fit? One file whose numbers do, and one whose numbers do not.
//!
//! A file has comments, the number of parties, the name of the harbour's sheet, a range for each number that a firm
//! enters, and a change of one of them.

use crate::example::{Example, FIRMS, HARBOUR_GATES};
use crate::field::P;
use crate::text;

#[derive(Clone, Copy, Debug, PartialEq, Eq)]
pub enum Ranged {
    /// Late rounds are counted, and risks are small.
    Counts,
    /// Lateness is counted in seconds, and risks are large.
    Wrap,
}

/// By how much the first number that firm 0 enters may be off.
pub const AMOUNT: u32 = 3;

impl Ranged {
    pub const ALL: [Ranged; 2] = [Ranged::Counts, Ranged::Wrap];

    /// What a firm may enter for its lateness at a harbour gate.
    fn late(self) -> [u32; 2] {
        match self {
            Ranged::Counts => [0, 60],
            // The seconds of 31 days.
            Ranged::Wrap => [0, 31 * 24 * 60 * 60],
        }
    }

    /// What the risk of a harbour gate may be.
    fn risk(self) -> [u32; 2] {
        match self {
            Ranged::Counts => [1, 10],
            Ranged::Wrap => [1, 1000],
        }
    }

    /// As the sheet's in forms come: for each harbour gate the lateness of each firm, and the risk.
    pub fn ranges(self) -> Vec<u32> {
        let of_gate = [[self.late()].repeat(FIRMS), vec![self.risk()]].concat();
        of_gate.repeat(HARBOUR_GATES).concat()
    }

    /// All lateness at one harbour gate, its product with the risk, and the score, each at its highest.
    pub fn highest(self) -> [u64; 3] {
        let sum = FIRMS as u64 * u64::from(self.late()[1]);
        let part = sum * u64::from(self.risk()[1]);
        [sum, part, HARBOUR_GATES as u64 * part]
    }

    /// How far the score can move.
    pub fn farthest(self) -> u64 {
        u64::from(AMOUNT) * u64::from(self.risk()[1])
    }

    fn comments(self) -> String {
        let ([_, late], [_, risk]) = (self.late(), self.risk());
        let ([sum, part, score], farthest) = (self.highest(), self.farthest());
        let largest = P - 1;
        match self {
            Ranged::Counts => format!(
                "\
# Will the score of harbour.txt fit? Five firms score the four gates of a harbour.
#
# The score is worked out modulo the prime p = {P}: a number that passes {largest} begins again at 0, and
# nobody sees it. So the firms say beforehand what their numbers can be, and the tool tells for each step of the
# score the lowest and the highest number there, or the first step that may pass {largest} or fall below 0.
#
# Here each firm has 0 to {late} late rounds a month at each harbour gate, and risks are 1 to {risk}. Worked by hand:
#
#   late rounds of all firms at a harbour gate: at most {FIRMS} x {late} = {sum}
#   the same times the risk: at most {sum} x {risk} = {part}
#   score: at most {HARBOUR_GATES} x {part} = {score}
#
# All of these are below p, and nothing is taken away, so it fits: whatever the firms enter within these ranges, the
# score is the true one.
#
# How far can the score move if firm 0's late rounds at harbour gate 0 are off by up to {AMOUNT}, too many or too few? They
# are multiplied by one risk, and added:
#
#   move: at most {AMOUNT} x {risk} = {farthest}
#
"
            ),
            Ranged::Wrap => {
                let times = part / u64::from(P);
                let shown = part % u64::from(P);
                format!(
                    "\
# A score that does not fit: the same five firms and four harbour gates as in counts.txt, but somebody counts in seconds.
#
# The score is worked out modulo the prime p = {P}: a number that passes {largest} begins again at 0, and
# nobody sees it. Here each firm is late 0 to {late} seconds a month at each harbour gate (31 days), and risks are 1 to
# {risk}. Worked by hand:
#
#   late seconds of all firms at a harbour gate: at most {FIRMS} x {late} = {sum}
#   the same times the risk: at most {sum} x {risk} = {part}
#
# The first is below p, the second is not. The tool names the step where that can happen first: gate 10 of the circuit, the
# multiplication of harbour gate 0. Gates 0 to 9 are what it needs: the five firms' seconds, four additions, the risk.
# Were every firm late all month at harbour gate 0, never elsewhere, and the risk {risk}, then the run would give out
#
#   {part} - {times} x {P} = {shown}
#
# and no check would fail. Count in hours or in rounds, or take smaller risks, until the tool says that it fits.
#
"
                )
            }
        }
    }

    /// The file.
    pub fn file(self) -> String {
        let command = match self {
            Ranged::Counts => "counts",
            Ranged::Wrap => "wrap",
        };
        format!(
            "\
{}# The lines below: how many firms; the file that has the sheet; for each number that a firm enters its lowest and its
# highest, in the sheet's order, so for each harbour gate those of firms 0 to 4 and then the risk; and the change: of
# gate 0 of the circuit, which is the first number that firm 0 enters, by up to {AMOUNT}. Made by: reference {command}
parties {FIRMS}
{}{}change 0 {AMOUNT}
",
            self.comments(),
            Example::Harbour.sheet_line(),
            text::line("ranges", &self.ranges()),
        )
    }
}

#[cfg(test)]
mod tests {
    use super::*;
    use crate::circuit::{self, Gate};
    use crate::fit::{fit, Change, Fit};
    use crate::plain;

    #[test]
    fn the_kept_files_are_these() {
        let kept = [
            include_str!("../../examples/counts.txt"),
            include_str!("../../examples/wrap.txt"),
        ];
        for (ranged, kept) in Ranged::ALL.into_iter().zip(kept) {
            assert_eq!(kept, ranged.file());
        }
    }

    /// The numbers after a name in a file.
    fn numbers(file: &str, name: &str) -> Vec<u32> {
        let mut lines = file.lines().map(|line| line.split(' '));
        let found = lines.find(|words| words.clone().next() == Some(name));
        let words = found.expect("a line of that name").skip(1);
        words.map(|word| word.parse().unwrap()).collect()
    }

    /// What the tool says of a file, and the two lists.
    fn asked(file: &str) -> (Fit, Vec<u32>, Vec<u32>) {
        let circuit = Example::Harbour.circuit();
        let change = match numbers(file, "change")[..] {
            [gate, amount] => Change { gate, amount },
            _ => panic!("a gate and an amount"),
        };
        let (mut intervals, mut moves) = (vec![9; circuit.len() / 2], vec![9]);
        let parties = numbers(file, "parties")[0];
        let ranges = numbers(file, "ranges");
        let result = fit(
            parties,
            &circuit,
            &ranges,
            Some(change),
            &mut intervals,
            &mut moves,
        );
        (result.unwrap(), intervals, moves)
    }

    /// The number at the end of the comment that begins so.
    fn by_hand(file: &str, name: &str) -> u32 {
        let start = format!("#   {name}: at most ");
        let line = file.lines().find(|line| line.starts_with(&start));
        line.unwrap().rsplit(' ').next().unwrap().parse().unwrap()
    }

    #[test]
    fn the_counts_fit_as_worked_by_hand() {
        let file = include_str!("../../examples/counts.txt");
        assert!(file.contains("\nsheet harbour.sheet\n"));
        let (result, intervals, moves) = asked(file);
        assert_eq!(result, Fit::Fits);
        let sum = by_hand(file, "late rounds of all firms at a harbour gate");
        let part = by_hand(file, "the same times the risk");
        let score = by_hand(file, "score");
        assert_eq!([sum, part, score], [300, 3000, 12_000]);
        // The five firms, four additions, the risk, the multiplication; eleven gates for each harbour gate.
        for gate in 0..HARBOUR_GATES {
            let of = |index: usize| &intervals[2 * (11 * gate + index)..][..2];
            for late in [0, 1, 3, 5, 7] {
                assert_eq!(of(late), [0, 60]);
            }
            assert_eq!(of(8), [0, sum]);
            assert_eq!(of(9), [1, 10]);
            assert_eq!(of(10), [0, part]);
        }
        assert_eq!(intervals[2 * 46..], [0, score, 0, 0]);
        assert_eq!(moves, [by_hand(file, "move")]);
        assert_eq!(moves, [30]);
    }

    /// The ranges are those of what the comments say: the in gates are, for each harbour gate, of firms 0 to 4 and of the
    /// firm that holds the risk; gate 0 is the first.
    #[test]
    fn the_ranges_stand_in_the_order_of_the_circuit() {
        let circuit = Example::Harbour.circuit();
        let owners: Vec<u32> = circuit::gates(&circuit)
            .filter_map(|gate| match gate {
                Gate::Input { owner } => Some(owner),
                _ => None,
            })
            .collect();
        let wanted: Vec<u32> = (0..4).flat_map(|risk| [0, 1, 2, 3, 4, risk]).collect();
        assert_eq!(owners, wanted);
        for (ranged, ends) in [
            (Ranged::Counts, (60, 10)),
            (Ranged::Wrap, (2_678_400, 1000)),
        ] {
            let ranges = ranged.ranges();
            assert_eq!(ranges.len(), 2 * owners.len());
            for (place, range) in ranges.chunks_exact(2).enumerate() {
                match place % 6 {
                    5 => assert_eq!(range, [1, ends.1]),
                    _ => assert_eq!(range, [0, ends.0]),
                }
            }
        }
    }

    #[test]
    fn the_seconds_leave_where_the_comments_say() {
        let file = include_str!("../../examples/wrap.txt");
        let (result, intervals, moves) = asked(file);
        assert_eq!(result, Fit::Leaves { gate: 10 });
        assert!(intervals.iter().chain(&moves).all(|&number| number == 9));
        assert!(file.contains("gate 10 of the circuit"));
        let circuit = Example::Harbour.circuit();
        let named = circuit::gate(&circuit, 10);
        assert_eq!(named, Some(Gate::Multiply { left: 8, right: 9 }));
        let sum = by_hand(file, "late seconds of all firms at a harbour gate");
        assert_eq!(u64::from(sum), Ranged::Wrap.highest()[0]);
        assert!(sum < P && Ranged::Wrap.highest()[1] > P.into());

        // What the run would give out: inputs of firms 0 to 4 in turn, the risk that a firm holds after its lateness there.
        let [late, risk] = [Ranged::Wrap.late()[1], Ranged::Wrap.risk()[1]];
        let mut inputs = Vec::new();
        for firm in 0..FIRMS {
            let mut entered = vec![late, 0, 0, 0];
            if firm < HARBOUR_GATES {
                entered.insert(firm + 1, if firm == 0 { risk } else { 1 });
            }
            inputs.extend(entered);
        }
        let shown = plain::outputs(FIRMS as u32, &circuit, &inputs).unwrap();
        let line = file.lines().find(|line| line.contains(" - 6 x ")).unwrap();
        assert_eq!(line, format!("#   13392000000 - 6 x {P} = {}", shown[0]));
        assert_eq!(shown, [507_098_118]);
    }
}
