//! Sheets with the answers that must be given to them, each worked out by hand from the documents.

/// The text as parts, each repeated so many times.
pub type Parts = &'static [(&'static [u8], usize)];

#[derive(Clone, Copy, Debug)]
pub enum Told {
    /// A refusal's number and index.
    Refused(u32, usize),
    Circuit(&'static [[u32; 4]]),
    /// A circuit of so many gates.
    Gates(usize),
}

/// The number of parties, the text, and what is told.
pub type Example = (u32, Parts, Told);

pub fn text(parts: Parts) -> Vec<u8> {
    parts
        .iter()
        .flat_map(|(bytes, times)| bytes.repeat(*times))
        .collect()
}

#[rustfmt::skip]
pub const EXAMPLES: [Example; 62] = [
    // Shape.
    (2, &[(b"", 1)], Told::Refused(3, 0)), // the empty text does not end within a row; a circuit of no gates
    (2, &[(b"(", 1)], Told::Refused(22, 1)), // ends within a row
    (2, &[(b"((in 0))\n", 1)], Told::Refused(22, 1)),
    (2, &[(b"(in 0)\n", 1)], Told::Refused(3, 0)), // one gate
    (2, &[(b"(out (in 0))\n", 1)], Told::Circuit(&[[1, 0, 0, 0], [7, 0, 0, 0]])), // one row, two gates
    (2, &[(b"(in 0) \n", 1)], Told::Refused(22, 6)),
    (2, &[(b"(in 0)\n(out (line 0))\n ", 1)], Told::Refused(22, 22)), // bytes after the last line feed
    (2, &[(b"( in 0)\n", 1)], Told::Refused(22, 1)),
    (2, &[(b"(in  0)\n", 1)], Told::Refused(22, 4)), // second space
    (2, &[(b"(in 0 )\n", 1)], Told::Refused(22, 5)),
    (2, &[(b"(IN 0)\n", 1)], Told::Refused(22, 1)),
    (2, &[(b"(i 0)\n", 1)], Told::Refused(22, 2)), // `(i` may become `(in`; the space ends that
    (2, &[(b"(inn 0)\n", 1)], Told::Refused(22, 3)),
    (2, &[(b"(in )\n", 1)], Told::Refused(22, 4)),
    (2, &[(b"(in 0))\n", 1)], Told::Refused(22, 6)),
    (2, &[(b"(in \xb2)\n", 1)], Told::Refused(22, 4)), // byte 178 is no digit
    (2, &[(b"(add(in 0) (in 0))\n", 1)], Told::Refused(22, 4)),
    (2, &[(b"(add (in 0))\n", 1)], Told::Refused(22, 11)),
    (2, &[(b"(plus (in 0) (in 0))\n", 1)], Told::Refused(22, 13)),
    (2, &[(b"(out (in 0) (in 0))\n", 1)], Told::Refused(22, 11)),
    // Numbers.
    (2, &[(b"(in 05", 1)], Told::Refused(22, 5)),
    (2, &[(b"(in 4294967296)\n", 1)], Told::Refused(22, 13)), // tenth digit
    (2, &[(b"(in 42949672950)\n", 1)], Told::Refused(22, 14)), // eleventh digit
    (2, &[(b"(plus (in 0) 2147483646)\n(out (line 0))\n", 1)], Told::Circuit(&[[1, 0, 0, 0], [4, 0, 0, 2147483646], [7, 1, 0, 0]])),
    (2, &[(b"(plus (in 0) 2147483647)\n(out (line 0))\n", 1)], Told::Refused(6, 1)), // gate 1, row 0
    (2, &[(b"(times (in 0) 0)\n(out (line 0))\n", 1)], Told::Circuit(&[[1, 0, 0, 0], [5, 0, 0, 0], [7, 1, 0, 0]])),
    (2, &[(b"(plus (in 0) 4294967296)\n", 1)], Told::Refused(22, 22)),
    (3, &[(b"(in 2)\n(out (line 0))\n", 1)], Told::Circuit(&[[1, 2, 0, 0], [7, 0, 0, 0]])),
    // Where a word may stand.
    (2, &[(b"(in 0)\n(line 0)\n", 1)], Told::Refused(22, 8)),
    (2, &[(b"(add (out (in 0)) (in 0))\n", 1)], Told::Refused(22, 7)), // never inside, where `(o` may become `(over`: the `u`
    (2, &[(b"(out (out (in 0)))\n", 1)], Told::Refused(22, 7)),
    (2, &[(b"(ov", 1)], Told::Refused(22, 3)), // ends within a row; may become `(over`
    (2, &[(b"(g", 1)], Told::Refused(22, 2)), // ends within a row; may become `(give`
    // Names.
    (2, &[(b"(add (line 0) (in 0))\n", 1)], Told::Refused(22, 6)), // no earlier row: the `l`
    (2, &[(b"(out (in 0))\n(out (line 0))\n", 1)], Told::Refused(22, 19)), // no earlier row with a value: the `l`
    (2, &[(b"(in 0)\n(out (in 0))\n(out (line 1))\n", 1)], Told::Refused(22, 31)), // an out row
    (2, &[(b"(in 0)\n(out (line ))\n", 1)], Told::Refused(22, 18)),
    (2, &[(b"(in 0)\n", 12), (b"(out (line 11))\n", 1)], Told::Gates(13)),
    (2, &[(b"(in 0)\n", 12), (b"(out (line 12))\n", 1)], Told::Refused(22, 96)), // `1` may become 10 or 11; the `2`
    (2, &[(b"(in 0)\n", 12), (b"(out (line 25))\n", 1)], Told::Refused(22, 96)), // `2` is itself a name; the `5`
    (2, &[(b"(in 0)\n(out (in 0))\n", 1), (b"(in 0)\n", 8), (b"(out (line 1))\n", 1)], Told::Refused(22, 87)), // 1 has no value and there is no 10: the `1`
    (2, &[(b"(in 0)\n(out (in 0))\n", 1), (b"(in 0)\n", 9), (b"(out (line 1))\n", 1)], Told::Refused(22, 95)), // 10 has a value: the `)`
    (2, &[(b"(in 0)\n(out (in 0))\n", 1), (b"(in 0)\n", 9), (b"(out (line 10))\n", 1)], Told::Gates(13)),
    (2, &[(b"(out (mul (add (in 0) (in 1)) (sub (in 0) (in 1))))\n", 1)], Told::Circuit(&[[1, 0, 0, 0], [1, 1, 0, 0], [2, 0, 1, 0], [1, 0, 0, 0], [1, 1, 0, 0], [3, 3, 4, 0], [6, 2, 5, 0], [7, 6, 0, 0]])), // inner first, left before right
    // Depth.
    (2, &[(b"(plus ", 16), (b"(in 0)", 1), (b" 1)", 16), (b"\n(out (line 0))\n", 1)], Told::Refused(23, 96)),
    (2, &[(b"(in 0)\n", 1), (b"(plus ", 16), (b"(line 0)", 1)], Told::Refused(23, 103)), // a (line J) counts
    (2, &[(b"(plus ", 16), (b"(", 1)], Told::Refused(23, 96)), // before the end of the text, 97
    (2, &[(b"(plus ", 16), (b"x", 1)], Told::Refused(22, 96)),
    (2, &[(b"(plus ", 15), (b"(in (", 1)], Told::Refused(22, 94)), // 22 and 23 on one byte
    (2, &[(b"(plus ", 15), (b"((", 1)], Told::Refused(22, 91)), // 22 and 23 on one byte
    // Count.
    (2, &[(b"(in 0)\n", 255), (b"(out (line 0))\n", 1)], Told::Gates(256)),
    (2, &[(b"(in 0)\n", 256), (b"(out (line 0))\n", 1)], Told::Refused(24, 1805)), // the bracket of out; that of (line 0), 1804, closes no gate
    (2, &[(b"(in 0)\n", 256), (b"(in 0", 1)], Told::Refused(22, 1797)), // ends within a row
    (2, &[(b"(in 0)\n", 256), (b"(in )", 1)], Told::Refused(22, 1796)), // 22 and 24 on one byte
    (2, &[(b"(in 0)\n", 256), (b"(add (in 0) (line 999))\n", 1)], Told::Refused(24, 1802)),
    (2, &[(b"(in 0)\n", 256), (b"(add (line 0) (line 999))\n", 1)], Told::Refused(22, 1814)), // 9 and 99 are names
    (2, &[(b"(out (in 0))\n", 128)], Told::Gates(256)), // 128 rows
    (2, &[(b"(out (in 0))\n", 128), (b"(out (in 0))\n", 1)], Told::Refused(24, 1674)),
    // Order of the questions.
    (1, &[(b"x", 1)], Told::Refused(1, 0)), // 1 before the text
    (2, &[(b"(in 9)\n(plus (line 0) 4294967295)\nx", 1)], Told::Refused(22, 34)), // the text before 3 to 7
    (2, &[(b"(in 0)\n(in 9)\n(times (line 0) 2147483647)\n", 1)], Told::Refused(5, 1)),
    (2, &[(b"(in 0)\n(in 1)\n", 1)], Told::Refused(7, 0)),
];

/// Sheets with squares.
#[rustfmt::skip]
pub const SQUARE_EXAMPLES: [Example; 36] = [
    // What is read.
    (2, &[(b"(out (sq (in 0)))\n", 1)], Told::Circuit(&[[1, 0, 0, 0], [8, 0, 0, 0], [7, 1, 0, 0]])),
    (2, &[(b"(in 1)\n(sq (line 0))\n(out (line 1))\n", 1)], Told::Circuit(&[[1, 1, 0, 0], [8, 0, 0, 0], [7, 1, 0, 0]])),
    (2, &[(b"(out (sq (sq (plus (in 0) 1))))\n", 1)], Told::Circuit(&[[1, 0, 0, 0], [4, 0, 0, 1], [8, 1, 0, 0], [8, 2, 0, 0], [7, 3, 0, 0]])),
    (2, &[(b"(in 0)\n(out (mul (sq (in 1)) (sub (line 0) (sq (line 0)))))\n", 1)], Told::Circuit(&[[1, 0, 0, 0], [1, 1, 0, 0], [8, 1, 0, 0], [8, 0, 0, 0], [3, 0, 3, 0], [6, 2, 4, 0], [7, 5, 0, 0]])),
    // Words that begin with `s`.
    (2, &[(b"(s", 1)], Told::Refused(22, 2)), // ends within a row; may become `(sq` or `(sub`
    (2, &[(b"(sx", 1)], Told::Refused(22, 2)),
    (2, &[(b"(s ", 1)], Told::Refused(22, 2)),
    (2, &[(b"(sQ", 1)], Told::Refused(22, 2)),
    (2, &[(b"(Sq", 1)], Told::Refused(22, 1)),
    (2, &[(b"(sq", 1)], Told::Refused(22, 3)), // ends within a row
    (2, &[(b"(squ", 1)], Told::Refused(22, 3)),
    (2, &[(b"(sqb ", 1)], Told::Refused(22, 3)),
    (2, &[(b"(su", 1)], Told::Refused(22, 3)),
    (2, &[(b"(suq", 1)], Told::Refused(22, 3)),
    (2, &[(b"(sub", 1)], Told::Refused(22, 4)),
    (2, &[(b"(sq)", 1)], Told::Refused(22, 3)),
    (2, &[(b"(sq(in 0))\n", 1)], Told::Refused(22, 3)),
    // What it holds: one form.
    (2, &[(b"(sq ", 1)], Told::Refused(22, 4)),
    (2, &[(b"(sq  (in 0))\n", 1)], Told::Refused(22, 4)), // second space
    (2, &[(b"(sq 0)\n", 1)], Told::Refused(22, 4)),
    (2, &[(b"(sq (in 0) (in 0))\n", 1)], Told::Refused(22, 10)),
    (2, &[(b"(sq (in 0) 1)\n", 1)], Told::Refused(22, 10)),
    (2, &[(b"(sq (line 0))\n", 1)], Told::Refused(22, 5)), // no earlier row: the `l`
    (2, &[(b"(sq (out (in 0)))\n", 1)], Told::Refused(22, 6)), // never inside: the `u`
    (2, &[(b"(in 0)\n(out (sq (line 0)))\n(out (line 1))\n", 1)], Told::Refused(22, 38)), // an out row
    // The circuit.
    (2, &[(b"(sq (in 0))\n", 1)], Told::Refused(7, 0)), // two gates, no output
    (2, &[(b"(sq (in 2))\n(out (line 0))\n", 1)], Told::Refused(5, 0)),
    (2, &[(b"(sq (plus (in 0) 2147483647))\n(out (line 0))\n", 1)], Told::Refused(6, 1)),
    // Depth.
    (2, &[(b"(sq ", 15), (b"(in 0)", 1), (b")", 15), (b"\n(out (line 0))\n", 1)], Told::Gates(17)),
    (2, &[(b"(sq ", 16), (b"(in 0)", 1), (b")", 16), (b"\n(out (line 0))\n", 1)], Told::Refused(23, 64)),
    (2, &[(b"(sq ", 16), (b"x", 1)], Told::Refused(22, 64)),
    // Count.
    (2, &[(b"(in 0)\n", 254), (b"(out (sq (line 0)))\n", 1)], Told::Gates(256)),
    (2, &[(b"(in 0)\n", 255), (b"(out (sq (line 0)))\n", 1)], Told::Refused(24, 1803)), // the bracket of out
    (2, &[(b"(in 0)\n", 256), (b"(sq (line 0))\n", 1)], Told::Refused(24, 1804)), // the bracket of sq
    (2, &[(b"(in 0)\n", 256), (b"(sq (line 0)", 1)], Told::Refused(22, 1804)), // ends within a row
    (2, &[(b"(in 0)\n", 256), (b"(sq )", 1)], Told::Refused(22, 1796)),
];

/// Sheets with gives.
#[rustfmt::skip]
pub const GIVE_EXAMPLES: [Example; 63] = [
    // What is read.
    (2, &[(b"(in 0)\n(give (line 0) 1)\n", 1)], Told::Circuit(&[[1, 0, 0, 0], [9, 0, 1, 0]])), // may be last
    (2, &[(b"(give (in 0) 1)\n", 1)], Told::Circuit(&[[1, 0, 0, 0], [9, 0, 1, 0]])), // one row, two gates
    (2, &[(b"(give (in 1) 0)\n", 1)], Told::Circuit(&[[1, 1, 0, 0], [9, 0, 0, 0]])),
    (8, &[(b"(give (in 0) 7)\n(out (in 1))\n", 1)], Told::Circuit(&[[1, 0, 0, 0], [9, 0, 7, 0], [1, 1, 0, 0], [7, 2, 0, 0]])),
    (2, &[(b"(in 0)\n(give (mul (in 1) (sq (line 0))) 1)\n(give (line 0) 0)\n", 1)], Told::Circuit(&[[1, 0, 0, 0], [1, 1, 0, 0], [8, 0, 0, 0], [6, 1, 2, 0], [9, 3, 1, 0], [9, 0, 0, 0]])),
    // The word.
    (2, &[(b"(g", 1)], Told::Refused(22, 2)), // ends within a row
    (2, &[(b"(gi", 1)], Told::Refused(22, 3)),
    (2, &[(b"(giv", 1)], Told::Refused(22, 4)),
    (2, &[(b"(give", 1)], Told::Refused(22, 5)),
    (2, &[(b"(give ", 1)], Told::Refused(22, 6)),
    (2, &[(b"(G", 1)], Told::Refused(22, 1)),
    (2, &[(b"(g ", 1)], Told::Refused(22, 2)),
    (2, &[(b"(gx", 1)], Told::Refused(22, 2)),
    (2, &[(b"(gave", 1)], Told::Refused(22, 2)),
    (2, &[(b"(givE", 1)], Told::Refused(22, 4)),
    (2, &[(b"(giver", 1)], Told::Refused(22, 5)),
    (2, &[(b"(give)", 1)], Told::Refused(22, 5)),
    (2, &[(b"(give(in 0) 1)\n", 1)], Told::Refused(22, 5)),
    // What it holds: one form and a number.
    (2, &[(b"(give  (in 0) 1)\n", 1)], Told::Refused(22, 6)), // second space
    (2, &[(b"(give 0 1)\n", 1)], Told::Refused(22, 6)),
    (2, &[(b"(give (in 0))\n", 1)], Told::Refused(22, 12)),
    (2, &[(b"(give (in 0) )\n", 1)], Told::Refused(22, 13)),
    (2, &[(b"(give (in 0) (in 1))\n", 1)], Told::Refused(22, 13)),
    (2, &[(b"(give (in 0) 01)\n", 1)], Told::Refused(22, 14)),
    (2, &[(b"(give (in 0) 1 )\n", 1)], Told::Refused(22, 14)),
    (2, &[(b"(give (in 0) 1", 1)], Told::Refused(22, 14)), // ends within a row
    (2, &[(b"(give (in 0) 1)", 1)], Told::Refused(22, 15)), // without its line feed
    (2, &[(b"(give (in 0) 1) \n", 1)], Told::Refused(22, 15)),
    // The receiver.
    (2, &[(b"(in 0)\n(give (line 0) 4294967296)\n", 1)], Told::Refused(22, 31)), // tenth digit
    (2, &[(b"(in 0)\n(give (line 0) 42949672950)\n", 1)], Told::Refused(22, 32)), // eleventh digit
    (2, &[(b"(in 0)\n(give (line 0) 4294967295)\n", 1)], Told::Refused(5, 1)),
    (2, &[(b"(give (in 0) 2)\n", 1)], Told::Refused(5, 1)),
    (3, &[(b"(give (in 0) 2)\n", 1)], Told::Circuit(&[[1, 0, 0, 0], [9, 0, 2, 0]])),
    // Where it may stand: outermost only.
    (2, &[(b"(add (give (in 0) 1) (in 0))\n", 1)], Told::Refused(22, 6)), // never inside: the `g`
    (2, &[(b"(give (give (in 0) 1) 1)\n", 1)], Told::Refused(22, 7)),
    (2, &[(b"(out (give (in 0) 1))\n", 1)], Told::Refused(22, 6)),
    (2, &[(b"(give (out (in 0)) 1)\n", 1)], Told::Refused(22, 8)),
    (2, &[(b"(sq (g", 1)], Told::Refused(22, 5)),
    // Names: a give has no value, and its row counts.
    (2, &[(b"(in 0)\n(give (in 0) 1)\n(out (line 1))\n", 1)], Told::Refused(22, 34)), // a give has no value
    (2, &[(b"(give (line 0) 1)\n", 1)], Told::Refused(22, 7)), // no earlier row: the `l`
    (2, &[(b"(give (in 0) 1)\n(out (line 0))\n", 1)], Told::Refused(22, 22)), // no earlier row with a value: the `l`
    (2, &[(b"(in 0)\n(give (line 0) 1)\n(give (line 1) 0)\n", 1)], Told::Refused(22, 37)),
    (2, &[(b"(in 0)\n(give (line 0) 1)\n(give (line 2) 0)\n", 1)], Told::Refused(22, 37)),
    (2, &[(b"(give (in 0) 1)\n(in 1)\n(give (line 1) 0)\n", 1)], Told::Circuit(&[[1, 0, 0, 0], [9, 0, 1, 0], [1, 1, 0, 0], [9, 2, 0, 0]])),
    (2, &[(b"(in 0)\n(give (in 0) 1)\n", 1), (b"(in 0)\n", 8), (b"(out (line 1))\n", 1)], Told::Refused(22, 90)), // there is no 10: the `1`
    (2, &[(b"(in 0)\n(give (in 0) 1)\n", 1), (b"(in 0)\n", 9), (b"(out (line 1))\n", 1)], Told::Refused(22, 98)), // 10 has a value: the `)`
    (2, &[(b"(in 0)\n(give (in 0) 1)\n", 1), (b"(in 0)\n", 9), (b"(give (line 10) 0)\n", 1)], Told::Gates(13)),
    // The circuit.
    (2, &[(b"(give (in 0) 1)\n(in 0)\n", 1)], Told::Refused(7, 0)), // no output at the end
    (2, &[(b"(give (in 2) 2)\n", 1)], Told::Refused(5, 0)), // gate 0 before gate 1
    (2, &[(b"(give (in 0) 1)\n(give (in 9) 0)\n", 1)], Told::Refused(5, 2)),
    (2, &[(b"(give (plus (in 0) 2147483647) 2)\n", 1)], Told::Refused(6, 1)),
    // Depth.
    (2, &[(b"(give ", 1), (b"(plus ", 14), (b"(in 0)", 1), (b" 1)", 15), (b"\n", 1)], Told::Gates(16)),
    (2, &[(b"(give ", 1), (b"(plus ", 15), (b"(in 0)", 1), (b" 1)", 16), (b"\n", 1)], Told::Refused(23, 96)),
    (2, &[(b"(give ", 1), (b"(plus ", 15), (b"x", 1)], Told::Refused(22, 96)),
    (2, &[(b"(in 0)\n(give ", 1), (b"(plus ", 15), (b"(line 0)", 1)], Told::Refused(23, 103)), // a (line J) counts
    // Count.
    (2, &[(b"(in 0)\n", 255), (b"(give (line 0) 1)\n", 1)], Told::Gates(256)),
    (2, &[(b"(in 0)\n", 256), (b"(give (line 0) 1)\n", 1)], Told::Refused(24, 1808)), // the bracket of give; that of (line 0), 1805, closes no gate
    (2, &[(b"(in 0)\n", 255), (b"(give (in 0) 1)\n", 1)], Told::Refused(24, 1799)),
    (2, &[(b"(in 0)\n", 256), (b"(give (line 0) 1", 1)], Told::Refused(22, 1808)), // ends within a row
    (2, &[(b"(in 0)\n", 256), (b"(give (line 0) )", 1)], Told::Refused(22, 1807)), // 22 and 24 on one byte
    (2, &[(b"(give (in 0) 1)\n", 128)], Told::Gates(256)), // 128 rows
    (2, &[(b"(give (in 0) 1)\n", 129)], Told::Refused(24, 2059)),
    // The text before the circuit.
    (2, &[(b"(give (in 9) 9)\nx", 1)], Told::Refused(22, 16)),
];

/// Sheets with overs.
#[rustfmt::skip]
pub const OVER_EXAMPLES: [Example; 68] = [
    // What is read: outermost and inside.
    (2, &[(b"(out (over (in 0) 3))\n", 1)], Told::Circuit(&[[1, 0, 0, 0], [10, 0, 0, 3], [7, 1, 0, 0]])),
    (2, &[(b"(over (in 0) 2)\n(out (line 0))\n", 1)], Told::Circuit(&[[1, 0, 0, 0], [10, 0, 0, 2], [7, 1, 0, 0]])),
    (2, &[(b"(in 1)\n(over (line 0) 1)\n(give (line 1) 0)\n", 1)], Told::Circuit(&[[1, 1, 0, 0], [10, 0, 0, 1], [9, 1, 0, 0]])),
    (2, &[(b"(out (over (times (over (in 0) 7) 7) 2147483646))\n", 1)], Told::Circuit(&[[1, 0, 0, 0], [10, 0, 0, 7], [5, 1, 0, 7], [10, 2, 0, 2147483646], [7, 3, 0, 0]])),
    (2, &[(b"(in 0)\n(out (mul (over (in 1) 5) (sub (line 0) (over (line 0) 2147483645))))\n", 1)], Told::Circuit(&[[1, 0, 0, 0], [1, 1, 0, 0], [10, 1, 0, 5], [10, 0, 0, 2147483645], [3, 0, 3, 0], [6, 2, 4, 0], [7, 5, 0, 0]])), // inner first, left before right
    (2, &[(b"(give (over (sq (in 0)) 9) 1)\n", 1)], Told::Circuit(&[[1, 0, 0, 0], [8, 0, 0, 0], [10, 1, 0, 9], [9, 2, 1, 0]])),
    // Outermost, `(o` may become `(out` or `(over`.
    (2, &[(b"(o", 1)], Told::Refused(22, 2)), // ends within a row
    (2, &[(b"(ou", 1)], Told::Refused(22, 3)),
    (2, &[(b"(ov", 1)], Told::Refused(22, 3)),
    (2, &[(b"(ove", 1)], Told::Refused(22, 4)),
    (2, &[(b"(over", 1)], Told::Refused(22, 5)),
    (2, &[(b"(over ", 1)], Told::Refused(22, 6)),
    (2, &[(b"(O", 1)], Told::Refused(22, 1)),
    (2, &[(b"(o ", 1)], Told::Refused(22, 2)),
    (2, &[(b"(ox", 1)], Told::Refused(22, 2)),
    (2, &[(b"(oV", 1)], Told::Refused(22, 2)),
    (2, &[(b"(ov ", 1)], Told::Refused(22, 3)),
    (2, &[(b"(ovu", 1)], Told::Refused(22, 3)),
    (2, &[(b"(ouv", 1)], Told::Refused(22, 3)),
    (2, &[(b"(oven", 1)], Told::Refused(22, 4)),
    (2, &[(b"(overt", 1)], Told::Refused(22, 5)),
    (2, &[(b"(over)", 1)], Told::Refused(22, 5)),
    (2, &[(b"(over(in 0) 1)\n", 1)], Told::Refused(22, 5)),
    // Inside, it may become `(over` alone.
    (2, &[(b"(add (o", 1)], Told::Refused(22, 7)), // ends within a row
    (2, &[(b"(add (ou", 1)], Told::Refused(22, 7)), // the `u`
    (2, &[(b"(add (out (in 0)) (in 0))\n", 1)], Told::Refused(22, 7)),
    (2, &[(b"(add (in 0) (out (in 0)))\n", 1)], Told::Refused(22, 14)),
    (2, &[(b"(over (out (in 0)) 1)\n", 1)], Told::Refused(22, 8)),
    (2, &[(b"(over (o", 1)], Told::Refused(22, 8)),
    (2, &[(b"(over (ov", 1)], Told::Refused(22, 9)),
    (2, &[(b"(add (ov", 1)], Told::Refused(22, 8)),
    (2, &[(b"(add (ove", 1)], Told::Refused(22, 9)),
    (2, &[(b"(add (over", 1)], Told::Refused(22, 10)),
    (2, &[(b"(add (over ", 1)], Told::Refused(22, 11)),
    (2, &[(b"(add (o ", 1)], Told::Refused(22, 7)),
    (2, &[(b"(over (give (in 0) 1) 1)\n", 1)], Told::Refused(22, 7)), // never inside: the `g`
    // What it holds: one form and a constant.
    (2, &[(b"(over  (in 0) 1)\n", 1)], Told::Refused(22, 6)), // second space
    (2, &[(b"(over 1 (in 0))\n", 1)], Told::Refused(22, 6)),
    (2, &[(b"(over (in 0))\n", 1)], Told::Refused(22, 12)),
    (2, &[(b"(over (in 0) )\n", 1)], Told::Refused(22, 13)),
    (2, &[(b"(over (in 0) (in 1))\n", 1)], Told::Refused(22, 13)),
    (2, &[(b"(over (in 0) 02)\n", 1)], Told::Refused(22, 14)),
    (2, &[(b"(over (in 0) -1)\n", 1)], Told::Refused(22, 13)),
    (2, &[(b"(over (in 0) 2", 1)], Told::Refused(22, 14)), // ends within a row
    (2, &[(b"(over (in 0) 2)", 1)], Told::Refused(22, 15)), // without its line feed
    // The constant: from 1 to p - 1.
    (2, &[(b"(over (in 0) 0)\n(out (line 0))\n", 1)], Told::Refused(6, 1)),
    (2, &[(b"(over (in 0) 1)\n(out (line 0))\n", 1)], Told::Circuit(&[[1, 0, 0, 0], [10, 0, 0, 1], [7, 1, 0, 0]])),
    (2, &[(b"(over (in 0) 2147483646)\n(out (line 0))\n", 1)], Told::Circuit(&[[1, 0, 0, 0], [10, 0, 0, 2147483646], [7, 1, 0, 0]])),
    (2, &[(b"(over (in 0) 2147483647)\n(out (line 0))\n", 1)], Told::Refused(6, 1)),
    (2, &[(b"(over (in 0) 4294967295)\n(out (line 0))\n", 1)], Told::Refused(6, 1)),
    (2, &[(b"(over (in 0) 4294967296)\n(out (line 0))\n", 1)], Told::Refused(22, 22)), // tenth digit
    (2, &[(b"(over (in 0) 42949672950)\n", 1)], Told::Refused(22, 23)), // eleventh digit
    (2, &[(b"(times (in 0) 0)\n(out (over (line 0) 3))\n", 1)], Told::Circuit(&[[1, 0, 0, 0], [5, 0, 0, 0], [10, 1, 0, 3], [7, 2, 0, 0]])), // times by 0 is allowed
    // The circuit.
    (2, &[(b"(over (in 0) 1)\n", 1)], Told::Refused(7, 0)), // two gates, no output
    (2, &[(b"(over (in 2) 0)\n(out (line 0))\n", 1)], Told::Refused(5, 0)), // gate 0 before gate 1
    (2, &[(b"(out (over (over (in 0) 0) 2147483647))\n", 1)], Told::Refused(6, 1)),
    (2, &[(b"(out (over (over (in 0) 1) 0))\n", 1)], Told::Refused(6, 2)),
    // Names: an over has a value.
    (2, &[(b"(over (line 0) 1)\n", 1)], Told::Refused(22, 7)), // no earlier row: the `l`
    (2, &[(b"(over (in 0) 2)\n(over (line 1) 2)\n", 1)], Told::Refused(22, 28)),
    // Depth.
    (2, &[(b"(over ", 15), (b"(in 0)", 1), (b" 2)", 15), (b"\n(out (line 0))\n", 1)], Told::Gates(17)),
    (2, &[(b"(over ", 16), (b"(in 0)", 1), (b" 2)", 16), (b"\n(out (line 0))\n", 1)], Told::Refused(23, 96)),
    (2, &[(b"(over ", 16), (b"o", 1)], Told::Refused(22, 96)),
    (2, &[(b"(over ", 15), (b"(o(", 1)], Told::Refused(22, 92)), // 22 and 23 on one byte
    // Count.
    (2, &[(b"(in 0)\n", 254), (b"(out (over (line 0) 2))\n", 1)], Told::Gates(256)),
    (2, &[(b"(in 0)\n", 255), (b"(out (over (line 0) 2))\n", 1)], Told::Refused(24, 1807)), // the bracket of out
    (2, &[(b"(in 0)\n", 256), (b"(over (line 0) 2)\n", 1)], Told::Refused(24, 1808)), // the bracket of over; that of (line 0), 1805, closes no gate
    (2, &[(b"(in 0)\n", 256), (b"(over (line 0) )", 1)], Told::Refused(22, 1807)), // 22 and 24 on one byte
    // The text before the circuit.
    (2, &[(b"(over (in 9) 0)\nx", 1)], Told::Refused(22, 16)),
];
