//! Circuits as text: a sheet has a form on each line, and forms stand within forms.
//!
//! A form is `(in S)`, `(add F F)`, `(sub F F)`, `(plus F K)`, `(times F K)`, `(mul F F)`, `(sq F)`, `(over F K)`,
//! inside another one `(line J)`, and outermost only `(out F)` and `(give F S)`. A row here is a line of the sheet.

pub mod examples;
#[cfg(test)]
mod model;
#[cfg(test)]
mod tests;

use crate::circuit::{self, ADD, GIVE, IN, MAX_GATES, MUL, OUT, OVER, PLUS, SQ, SUB, TIMES};
use crate::refusal::{ask, ask_parties, Refusal};

/// The greatest depth of a form; the outermost has depth 1.
pub const MAX_DEPTH: usize = 16;

/// The longest row that the writer makes: `(times (line 254) 2147483646)` and a line feed.
const MAX_ROW: usize = 30;

/// Text that breaks the shape.
const BROKEN: u32 = 22;
/// A bracket that opens a form too deep.
const DEEP: u32 = 23;
/// A bracket that closes one gate too many.
const MANY: u32 = 24;

/// Reads a sheet. Tells the number of gates, which are written to the start of `circuit`.
pub fn read_sheet(parties: u32, text: &[u8], circuit: &mut [u32]) -> Result<usize, Refusal> {
    ask_parties(parties)?;
    let mut reader = Reader {
        text,
        at: 0,
        gates: [[0; 4]; MAX_GATES],
        count: 0,
        rows: [NO_VALUE; MAX_GATES],
        row: 0,
        named: false,
    };
    reader.sheet().map_err(|number| Refusal {
        number,
        index: reader.at,
    })?;
    let read = reader.gates[..reader.count].as_flattened();
    circuit::ask_circuit(parties, read)?;
    ask(18, circuit.len() >= read.len())?;
    circuit[..read.len()].copy_from_slice(read);
    Ok(reader.count)
}

/// The wire of a form or a number, or the number of the question that refuses the byte where the reader stands.
type Read<T> = Result<T, u32>;

/// In place of a wire: a row without a value.
const NO_VALUE: u16 = u16::MAX;

struct Reader<'a> {
    text: &'a [u8],
    /// The index of the next byte; all before it has been read.
    at: usize,
    gates: [[u32; 4]; MAX_GATES],
    count: usize,
    /// The wire of each row before this one. Every row makes a gate, so there are no more rows than gates.
    rows: [u16; MAX_GATES],
    row: usize,
    /// Whether a row before this one has a value.
    named: bool,
}

impl Reader<'_> {
    fn sheet(&mut self) -> Read<()> {
        while self.at < self.text.len() {
            self.expect(b'(')?;
            let wire = self.outermost()?;
            self.expect(b'\n')?;
            if circuit::has_value(&self.gates[wire as usize]) {
                self.rows[self.row] = wire as u16;
                self.named = true;
            }
            self.row += 1;
        }
        Ok(())
    }

    fn peek(&self) -> Option<u8> {
        self.text.get(self.at).copied()
    }

    fn expect(&mut self, byte: u8) -> Read<()> {
        self.expect_within(byte, true, BROKEN)
    }

    /// A byte that also keeps within a limit. What breaks the shape is told first.
    fn expect_within(&mut self, byte: u8, within: bool, limit: u32) -> Read<()> {
        if self.peek() != Some(byte) {
            return Err(BROKEN);
        }
        if !within {
            return Err(limit);
        }
        self.at += 1;
        Ok(())
    }

    /// A word with the space after it. No other word that may stand here goes along with the text farther.
    fn word<const N: usize>(&mut self, word: &[u8; N]) -> Read<()> {
        let rest = &self.text[self.at..];
        if rest.starts_with(word) {
            self.at += N;
            return Ok(());
        }
        self.at += rest.iter().zip(word).take_while(|(a, b)| a == b).count();
        Err(BROKEN)
    }

    /// The rest of an outermost form, whose bracket has been read.
    fn outermost(&mut self) -> Read<u32> {
        match self.peek() {
            // What begins with the `o` alone may become either.
            Some(b'o') if self.text.get(self.at + 1) != Some(&b'v') => {
                self.word(b"out ").and_then(|()| self.one(OUT, 1))
            }
            Some(b'g') => self.word(b"give ").and_then(|()| self.give()),
            _ => self.gate(1),
        }
    }

    /// A form within one of the given depth. Inlined, so that a level of nesting is fewer calls.
    #[inline(always)]
    fn operand(&mut self, depth: usize) -> Read<u32> {
        self.expect_within(b'(', depth < MAX_DEPTH, DEEP)?;
        if self.named && self.peek() == Some(b'l') {
            self.word(b"line ")?;
            let wire = self.name()?;
            self.expect(b')')?;
            return Ok(wire);
        }
        self.gate(depth + 1)
    }

    /// The rest of a form of the given depth that makes a gate with a value.
    fn gate(&mut self, depth: usize) -> Read<u32> {
        match self.peek() {
            Some(b'i') => {
                self.word(b"in ")?;
                let owner = self.number()?;
                self.close([IN, owner, 0, 0])
            }
            Some(b'a') => self.word(b"add ").and_then(|()| self.two(ADD, depth)),
            // What begins with the `s` alone may become either.
            Some(b's') if self.text.get(self.at + 1) == Some(&b'q') => {
                self.word(b"sq ").and_then(|()| self.one(SQ, depth))
            }
            Some(b's') => self.word(b"sub ").and_then(|()| self.two(SUB, depth)),
            Some(b'm') => self.word(b"mul ").and_then(|()| self.two(MUL, depth)),
            Some(b'p') => self.word(b"plus ").and_then(|()| self.scaled(PLUS, depth)),
            Some(b't') => self
                .word(b"times ")
                .and_then(|()| self.scaled(TIMES, depth)),
            Some(b'o') => self.word(b"over ").and_then(|()| self.scaled(OVER, depth)),
            _ => Err(BROKEN),
        }
    }

    /// The rest of a form that holds one.
    fn one(&mut self, kind: u32, depth: usize) -> Read<u32> {
        let wire = self.operand(depth)?;
        self.close([kind, wire, 0, 0])
    }

    /// The rest of a form that holds two.
    fn two(&mut self, kind: u32, depth: usize) -> Read<u32> {
        let first = self.operand(depth)?;
        self.expect(b' ')?;
        let second = self.operand(depth)?;
        self.close([kind, first, second, 0])
    }

    /// The rest of a form that holds one and a constant.
    fn scaled(&mut self, kind: u32, depth: usize) -> Read<u32> {
        let wire = self.operand(depth)?;
        self.expect(b' ')?;
        let constant = self.number()?;
        self.close([kind, wire, 0, constant])
    }

    /// The rest of a give, which holds a form and the receiver.
    fn give(&mut self) -> Read<u32> {
        let wire = self.operand(1)?;
        self.expect(b' ')?;
        let receiver = self.number()?;
        self.close([GIVE, wire, receiver, 0])
    }

    /// The closing bracket of a form that makes a gate.
    fn close(&mut self, gate: [u32; 4]) -> Read<u32> {
        self.expect_within(b')', self.count < MAX_GATES, MANY)?;
        self.gates[self.count] = gate;
        self.count += 1;
        Ok(self.count as u32 - 1)
    }

    /// The value of the next byte if it is a digit.
    fn digit(&self) -> Option<u32> {
        let digit = self.peek()?.wrapping_sub(b'0');
        (digit < 10).then_some(digit.into())
    }

    /// The digits of a number of 32 bits, without leading zeros. What follows them is asked by the caller.
    fn number(&mut self) -> Read<u32> {
        let mut value = self.digit().ok_or(BROKEN)?;
        self.at += 1;
        if value == 0 {
            return Ok(0);
        }
        while let Some(digit) = self.digit() {
            let ten = value.checked_mul(10).ok_or(BROKEN)?;
            value = ten.checked_add(digit).ok_or(BROKEN)?;
            self.at += 1;
        }
        Ok(value)
    }

    /// The digits of a row before this one that has a value: its wire.
    fn name(&mut self) -> Read<u32> {
        let mut value = 0;
        let start = self.at;
        while let Some(digit) = self.digit() {
            let leading_zero = value == 0 && self.at > start;
            value = 10 * value + digit as usize;
            if leading_zero || !self.begins_name(value) {
                return Err(BROKEN);
            }
            self.at += 1;
        }
        if self.at == start || self.rows[value] == NO_VALUE {
            return Err(BROKEN);
        }
        Ok(self.rows[value].into())
    }

    /// Whether the decimal of some row with a value begins with these digits.
    fn begins_name(&self, digits: usize) -> bool {
        let rows = &self.rows[..self.row];
        // Most names are of rows that have a value, and nothing more need be looked at.
        if rows.get(digits).is_some_and(|&wire| wire != NO_VALUE) {
            return true;
        }
        // No decimal but 0 begins with 0. Rows have at most three digits.
        digits > 0
            && [10, 100].into_iter().any(|more| {
                let (low, high) = (digits * more, digits * more + more);
                let longer = rows.get(low..high.min(rows.len()));
                longer.is_some_and(|rows| rows.iter().any(|&wire| wire != NO_VALUE))
            })
    }
}

/// Writes a circuit as a sheet that reads back as the same circuit: a row for each gate, whose operands are
/// `(line J)`. Tells the number of bytes, which are written to the start of `text`.
pub fn write_sheet(parties: u32, circuit: &[u32], text: &mut [u8]) -> Result<usize, Refusal> {
    circuit::shape(parties, circuit)?;
    let mut writer = Writer {
        bytes: [0; MAX_ROW * MAX_GATES],
        len: 0,
    };
    for gate in circuit.chunks_exact(4) {
        writer.row([gate[0], gate[1], gate[2], gate[3]]);
    }
    let sheet = &writer.bytes[..writer.len];
    ask(18, text.len() >= sheet.len())?;
    text[..sheet.len()].copy_from_slice(sheet);
    Ok(sheet.len())
}

struct Writer {
    bytes: [u8; MAX_ROW * MAX_GATES],
    len: usize,
}

impl Writer {
    fn put<const N: usize>(&mut self, bytes: &[u8; N]) {
        self.bytes[self.len..][..N].copy_from_slice(bytes);
        self.len += N;
    }

    /// A number's decimal.
    fn number(&mut self, mut number: u32) {
        let len = number.checked_ilog10().unwrap_or(0) as usize + 1;
        for place in self.bytes[self.len..][..len].iter_mut().rev() {
            *place = b'0' + (number % 10) as u8;
            number /= 10;
        }
        self.len += len;
    }

    /// The row of a gate of an accepted circuit.
    fn row(&mut self, [kind, first, second, constant]: [u32; 4]) {
        match kind {
            IN => self.put(b"(in "),
            ADD => self.put(b"(add (line "),
            SUB => self.put(b"(sub (line "),
            PLUS => self.put(b"(plus (line "),
            TIMES => self.put(b"(times (line "),
            MUL => self.put(b"(mul (line "),
            SQ => self.put(b"(sq (line "),
            GIVE => self.put(b"(give (line "),
            OVER => self.put(b"(over (line "),
            _ => self.put(b"(out (line "),
        }
        self.number(first);
        match kind {
            IN => self.put(b")\n"),
            PLUS | TIMES | OVER | GIVE => {
                self.put(b") ");
                self.number(if kind == GIVE { second } else { constant });
                self.put(b")\n");
            }
            OUT | SQ => self.put(b"))\n"),
            _ => {
                self.put(b") (line ");
                self.number(second);
                self.put(b"))\n");
            }
        }
    }
}
