//! Texts for the reader: both sides of its questions, the limits of depth and count, names, prefixes, changed bytes.

use super::sheet_sets::{read, read_into};
use super::SheetRequest;
use crate::field::P;
use crate::sheet::MAX_DEPTH;

/// Both sides of the questions that are asked of the text's circuit and of the room.
pub(super) fn read_boundaries() -> Vec<SheetRequest> {
    let two = b"(in 0)\n(out (line 0))\n";
    let mut requests: Vec<SheetRequest> = [0, 1, 2, 8, 9, u32::MAX]
        .into_iter()
        .map(|parties| read(parties, two))
        .collect();
    requests.extend([0, 4, 7, 8, 9, 11].map(|room| read_into(2, two, room)));
    let nested = b"(out (mul (add (in 0) (in 1)) (sub (in 0) (in 1))))\n";
    requests.extend([31, 32, 33].map(|room| read_into(2, nested, room)));
    for (parties, seat) in [
        (2, 1),
        (2, 2),
        (2, 7),
        (8, 7),
        (8, 8),
        (8, 10),
        (8, u32::MAX),
    ] {
        let text = format!("(in 0)\n(out (add (line 0) (in {seat})))\n");
        requests.push(read(parties, text.as_bytes()));
        requests.push(read(parties, format!("(out (in {seat}))\n").as_bytes()));
    }
    for kind in ["plus", "times"] {
        for constant in [0, 1, 9, 10, P - 2, P - 1, P, P + 1, u32::MAX] {
            let text = format!("(in 1)\n(out ({kind} (line 0) {constant}))\n");
            requests.push(read(2, text.as_bytes()));
        }
    }
    for text in [
        // One gate or two, an output at the end or not.
        "(in 1)\n",
        "(in 9)\n",
        "(in 0)\n(in 1)\n",
        "(in 0)\n(out (in 1))\n",
        "(out (in 1))\n(in 0)\n",
        "(out (in 1))\n(in 0)\n(out (line 1))\n",
        "(in 0)\n(add (line 0) (line 0))\n",
        // Several questions say no: the first gate decides, and the first question of it.
        "(in 9)\n(plus (line 0) 2147483647)\n",
        "(plus (in 0) 2147483647)\n(in 9)\n",
        "(plus (in 9) 2147483647)\n(out (line 0))\n",
        "(plus (times (in 0) 4294967295) 2147483647)\n(in 9)\n",
        "(in 0)\n(in 2)\n(in 3)\n",
        // The text goes before the circuit, and the circuit before the room.
        "(in 9)\n(in 0",
        "(in 9)\n(out (line 1))\n",
        "(plus (in 9) 2147483647)\n(out (line 00))\n",
        "(in 0)\n(in 1)\n\n",
    ] {
        requests.push(read(2, text.as_bytes()));
        requests.push(read_into(2, text.as_bytes(), 0));
        requests.push(read_into(9, text.as_bytes(), 0));
    }
    for number in [
        "4294967294",
        "4294967295",
        "4294967296",
        "4294967300",
        "4294968000",
        "5000000000",
        "9999999999",
        "10000000000",
        "42949672949",
        "99999999999999999999",
        "00",
        "01",
        "-1",
        "+1",
        "1.0",
        "",
    ] {
        requests.push(read(
            2,
            format!("(in 0)\n(out (plus (line 0) {number}))\n").as_bytes(),
        ));
        requests.push(read(
            2,
            format!("(in {number})\n(out (line 0))\n").as_bytes(),
        ));
    }
    requests
}

/// A form of so many levels, of which the outermost stands at depth 1.
pub(super) fn nested(depth: usize, word: &str, innermost: &str) -> String {
    let (open, close) = match word {
        "plus" | "times" | "over" => (format!("({word} "), " 3)"),
        "left" => (String::from("(add "), " (in 1))"),
        "sq" => (String::from("(sq "), ")"),
        _ => (format!("({word} (in 1) "), ")"),
    };
    open.repeat(depth - 1) + innermost + &close.repeat(depth - 1)
}

/// Depth 16 and 17, 255 to 257 gates, and 22 on the byte of each.
pub(super) fn limits() -> Vec<SheetRequest> {
    let mut requests = Vec::new();
    let mut ask = |text: &str| requests.push(read(2, text.as_bytes()));
    for depth in [MAX_DEPTH - 1, MAX_DEPTH, MAX_DEPTH + 1, MAX_DEPTH + 2] {
        for word in ["plus", "left", "mul"] {
            let form = nested(depth, word, "(in 0)");
            ask(&format!("{form}\n(out (line 0))\n"));
        }
        let form = nested(depth, "times", "(line 0)");
        ask(&format!("(in 0)\n{form}\n(out (line 1))\n"));
        // An output counts too, and the rows before do not.
        let form = nested(depth - 1, "sub", "(line 0)");
        ask(&format!("(in 0)\n(out {form})\n"));
        for innermost in [
            "(",
            "((",
            "(x",
            "(in (",
            "x",
            "(line 0)",
            "(out (in 0))",
            ")",
        ] {
            ask(&nested(depth, "plus", innermost));
        }
    }
    let rows = |count: usize| "(in 0)\n".repeat(count);
    ask(&format!("{}(out (line 253))\n", rows(254)));
    let full = rows(256);
    for last in ["(", "(out (line 256", "(plus (line 255) )"] {
        ask(&format!("{full}{last}"));
    }
    let text = format!("{}(out (line 25))\n", rows(255));
    requests.extend([1023, 1024].map(|room| read_into(2, text.as_bytes(), room)));
    requests
}

/// Names of one, two and three digits, with rows that have no value between.
pub(super) fn names() -> Vec<SheetRequest> {
    let sheet = |rows: usize, without: &dyn Fn(usize) -> bool, name: &str| {
        let row = |row: usize| match without(row) {
            true => "(out (in 0))\n",
            false => "(in 1)\n",
        };
        let rows: String = (0..rows).map(row).collect();
        read(2, format!("{rows}(out (line {name}))\n").as_bytes())
    };
    let mut requests = Vec::new();
    for name in [
        "0", "1", "2", "3", "4", "00", "01", "10", "1 ", "", "x", "-0",
    ] {
        requests.push(sheet(4, &|row| row == 1, name));
    }
    for name in [
        "0", "1", "9", "10", "11", "12", "13", "2", "20", "100", "010",
    ] {
        requests.push(sheet(13, &|row| row == 11 || row == 2, name));
    }
    // 1 may only become 10 or 104, 10 only 104.
    let sparse = |row: usize| matches!(row, 1 | 10..20 | 100..104);
    for name in [
        "1", "10", "104", "103", "105", "11", "12", "1040", "99", "2",
    ] {
        requests.push(sheet(105, &sparse, name));
    }
    requests.push(sheet(104, &sparse, "104"));
    requests.push(sheet(101, &|row| row != 100, "100"));
    requests.push(sheet(101, &|row| row != 100, "0"));
    requests.push(sheet(101, &|row| row != 100, "101"));
    requests.push(sheet(101, &|_| true, "1"));
    requests
}

pub(super) fn prefixes() -> Vec<SheetRequest> {
    let sheets: [&[u8]; 3] = [
        b"(in 0)\n(in 1)\n(out (mul (line 0) (line 1)))\n",
        b"(out (times (plus (sub (in 1) (in 0)) 40) 2147483646))\n",
        b"(in 1)\n(out (line 0))\n(add (line 0) (in 0))\n(out (line 2))\n",
    ];
    sheets.into_iter().flat_map(each_prefix).collect()
}

/// Every prefix of a sheet, the whole one too.
pub(super) fn each_prefix(sheet: &[u8]) -> impl Iterator<Item = SheetRequest> + '_ {
    (0..=sheet.len()).map(|len| read(2, &sheet[..len]))
}

pub(super) fn changed_bytes() -> Vec<SheetRequest> {
    const BYTES: &[u8] = b"\x00\t\n\r ()09\xffiasptmol";
    let sheets: [&[u8]; 2] = [
        b"(in 1)\n(out (add (line 0) (in 0)))\n",
        b"(out (plus (in 0) 10))\n",
    ];
    let each = |sheet| changed(sheet, BYTES);
    sheets.into_iter().flat_map(each).collect()
}

/// A sheet with one byte changed, at every place, to each of the bytes.
pub(super) fn changed(sheet: &[u8], bytes: &[u8]) -> Vec<SheetRequest> {
    let mut requests = Vec::new();
    for place in 0..sheet.len() {
        for &byte in bytes.iter().filter(|&&byte| byte != sheet[place]) {
            let mut changed = sheet.to_vec();
            changed[place] = byte;
            requests.push(read(2, &changed));
        }
    }
    requests
}
