//! Random sheets, most of which are accepted.

use crate::field::P;
use crate::random::Random;
use crate::sheet::MAX_DEPTH;

struct Maker<'a> {
    random: &'a mut Random,
    /// The rows so far that have a value.
    names: Vec<usize>,
    text: String,
}

/// A sheet of so many rows. Now and then one has a depth of 17, a seat above 1, a constant above p - 1, an over by
/// 0, or no output at the end, which is refused.
pub fn random_sheet(random: &mut Random, rows: usize) -> Vec<u8> {
    let mut maker = Maker {
        random,
        names: Vec::new(),
        text: String::new(),
    };
    for row in 0..rows {
        let last = row + 1 == rows;
        let out = maker.random.once_in(if last { 1 } else { 6 }) && !maker.random.once_in(30);
        let depth = match maker.random.below(40) {
            0 => MAX_DEPTH + 1,
            1 | 2 => MAX_DEPTH,
            3..12 => maker.random.between(3, MAX_DEPTH),
            _ => maker.random.between(1, 3),
        };
        if out {
            let give = maker.random.once_in(3);
            maker.text.push_str(if give { "(give " } else { "(out " });
            maker.form(2, depth.max(2));
            if give {
                let seat = maker.seat();
                maker.text.push_str(&format!(" {seat}"));
            }
            maker.text.push(')');
        } else {
            maker.form(1, depth);
            maker.names.push(row);
        }
        maker.text.push('\n');
    }
    maker.text.into_bytes()
}

impl Maker<'_> {
    /// A form at a depth, within which one goes down to the deepest.
    fn form(&mut self, depth: usize, deepest: usize) {
        if depth >= deepest {
            return self.leaf(depth == 1);
        }
        let kind = self
            .random
            .pick(&["add", "sub", "plus", "times", "mul", "sq", "over"]);
        self.text.push_str(&format!("({kind} "));
        let shallow = depth + self.random.between(1, 2);
        let (first, second) = if self.random.once_in(2) {
            (deepest, shallow.min(deepest))
        } else {
            (shallow.min(deepest), deepest)
        };
        match kind {
            "plus" | "times" | "over" => {
                self.form(depth + 1, deepest);
                let mut constant = self.constant();
                if kind == "over" && !self.random.once_in(60) {
                    constant = constant.max(1);
                }
                self.text.push_str(&format!(" {constant})"));
            }
            "sq" => {
                self.form(depth + 1, deepest);
                self.text.push(')');
            }
            _ => {
                self.form(depth + 1, first);
                self.text.push(' ');
                self.form(depth + 1, second);
                self.text.push(')');
            }
        }
    }

    fn leaf(&mut self, outermost: bool) {
        let leaf = if !outermost && !self.names.is_empty() && !self.random.once_in(3) {
            format!("(line {})", self.random.pick(&self.names))
        } else {
            format!("(in {})", self.seat())
        };
        self.text.push_str(&leaf);
    }

    fn seat(&mut self) -> u32 {
        if self.random.once_in(300) {
            self.random.number()
        } else {
            self.random.below(2) as u32
        }
    }

    fn constant(&mut self) -> u32 {
        match self.random.below(100) {
            0 => self.random.number(),
            1 => P,
            2 => u32::MAX,
            3..20 => self.random.edge_element(),
            digits => (self.random.element() >> (digits % 31)).min(P - 1),
        }
    }
}
