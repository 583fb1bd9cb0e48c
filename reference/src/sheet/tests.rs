use super::examples::{self, Told, EXAMPLES, GIVE_EXAMPLES, OVER_EXAMPLES, SQUARE_EXAMPLES};
use super::{model, read_sheet, write_sheet};
use crate::circuit::MAX_GATES;
use crate::random::{self, Kinds, Random};
use crate::refusal::Refusal;
use crate::requests::{random_sheet, SheetRequest, SheetSet};

/// The circuit that is read. Nothing is written on a refusal, and nothing beyond the circuit.
fn read(parties: u32, text: &[u8]) -> Result<Vec<u32>, Refusal> {
    let mut list = [u32::MAX; 4 * MAX_GATES + 1];
    let result = read_sheet(parties, text, &mut list);
    let len = result.map_or(0, |gates| 4 * gates);
    assert!(list[len..].iter().all(|&number| number == u32::MAX));
    result.map(|_| list[..len].to_vec())
}

fn refused<T>(number: u32, index: usize) -> Result<T, Refusal> {
    Err(Refusal { number, index })
}

#[test]
fn examples_are_answered_as_told() {
    let later = SQUARE_EXAMPLES
        .into_iter()
        .chain(GIVE_EXAMPLES)
        .chain(OVER_EXAMPLES);
    for (parties, parts, told) in EXAMPLES.into_iter().chain(later) {
        let text = examples::text(parts);
        let found = read(parties, &text);
        match told {
            Told::Refused(number, index) => assert_eq!(found, refused(number, index), "{parts:?}"),
            Told::Circuit(gates) => assert_eq!(found.unwrap(), gates.concat(), "{parts:?}"),
            Told::Gates(count) => assert_eq!(found.unwrap().len(), 4 * count, "{parts:?}"),
        }
        assert_eq!(
            read(parties, &text),
            model::read(parties, &text),
            "{parts:?}"
        );
    }
}

#[test]
fn room() {
    let text = b"(in 0)\n(out (line 0))\n";
    let circuit = [1, 0, 0, 0, 7, 0, 0, 0];
    for len in 0..8 {
        let mut list = vec![9; len];
        assert_eq!(read_sheet(2, text, &mut list), refused(18, 0));
        assert_eq!(list, vec![9; len]);
    }
    let mut list = [9; 9];
    assert_eq!(read_sheet(2, text, &mut list[..8]), Ok(2));
    assert_eq!(list, [1, 0, 0, 0, 7, 0, 0, 0, 9]);
    list[..8].fill(9);
    assert_eq!(read_sheet(2, text, &mut list), Ok(2));
    assert_eq!(list, [1, 0, 0, 0, 7, 0, 0, 0, 9]);

    for len in 0..22 {
        let mut bytes = vec![b'x'; len];
        assert_eq!(write_sheet(2, &circuit, &mut bytes), refused(18, 0));
        assert_eq!(bytes, vec![b'x'; len]);
    }
    let mut bytes = [b'x'; 23];
    assert_eq!(write_sheet(2, &circuit, &mut bytes), Ok(22));
    assert_eq!(&bytes, b"(in 0)\n(out (line 0))\nx");
    assert_eq!(write_sheet(2, &circuit, &mut bytes[..22]), Ok(22));
}

/// 3 to 7 come before 18.
#[test]
fn the_circuit_is_asked_before_the_room() {
    for (text, number, index) in [
        (&b"(in 0)\n"[..], 3, 0),
        (b"(in 0)\n(in 2)\n(out (line 1))\n", 5, 1),
        (b"(plus (in 0) 2147483647)\n(out (line 0))\n", 6, 1),
        (b"(in 0)\n(in 1)\n", 7, 0),
        (b"(in 0)\n(out (in 1))\n", 18, 0),
    ] {
        assert_eq!(read_sheet(2, text, &mut []), refused(number, index));
    }
    for (circuit, number, index) in [
        (&[1, 0, 0, 0][..], 3, 0),
        (&[1, 0, 0, 0, 0, 0, 0, 0], 4, 1),
        (&[1, 2, 0, 0, 7, 0, 0, 0], 5, 0),
        (&[1, 0, 1, 0, 7, 0, 0, 0], 6, 0),
        (&[1, 0, 0, 0, 1, 0, 0, 0], 7, 0),
        (&[1, 0, 0, 0, 7, 0, 0, 0], 18, 0),
    ] {
        assert_eq!(write_sheet(2, circuit, &mut []), refused(number, index));
        assert_eq!(write_sheet(9, circuit, &mut []), refused(1, 0));
    }
}

/// What the reader makes of a text that lives is what it makes of any sheet that begins so.
fn assert_lives(text: &[u8], more: &str) {
    let whole = [text, more.as_bytes()].concat();
    if let Err(Refusal { number, index }) = read(2, &whole) {
        assert!(
            number != 22,
            "{:?}: {index}",
            String::from_utf8_lossy(&whole)
        );
    }
    if !more.is_empty() {
        assert_eq!(
            read(2, text),
            refused(22, text.len()),
            "{:?}",
            String::from_utf8_lossy(text)
        );
    }
}

/// Every text that begins as told and has at most so many bytes more, of those in the alphabet. A text whose start
/// does not live has the start's answer, so only living ones are lengthened. Tells how many live.
fn all_texts(start: &[u8], alphabet: &[u8], longer: usize) -> usize {
    let mut living = vec![start.to_vec()];
    let mut count = 0;
    for _ in 0..longer {
        for text in std::mem::take(&mut living) {
            for &byte in alphabet {
                let mut next = text.clone();
                next.push(byte);
                match model::completed(&next) {
                    None => assert_eq!(
                        read(2, &next),
                        refused(22, text.len()),
                        "{:?}",
                        String::from_utf8_lossy(&next)
                    ),
                    Some((_, more)) => {
                        assert_lives(&next, &more);
                        living.push(next);
                    }
                }
            }
        }
        count += living.len();
    }
    count
}

#[test]
fn short_texts_live_as_in_the_model() {
    let every: Vec<u8> = (0..=255).collect();
    let few = b"()\n 019abdegilmnopqrstuv";
    assert!(all_texts(b"", &every, 6) > 50);
    assert!(all_texts(b"", few, 13) > 5000);
    for start in [
        "(in 0)\n",
        "(out (in 0))\n",
        "(in 0)\n(out (in 0))\n",
        "(out (in 0))\n(in 0)\n(out (",
        "(add (in 0)",
        "(mul (add (in 0) (in 0)) ",
        "(in 0)\n(sub (s",
        "(sq (in 0)",
        "(give (in 0)",
        "(give (in 0) 1)\n(give (i",
        "(in 0)\n(give (in 0) 1)\n(give (",
        "(ov",
        "(over (o",
        "(in 0)\n(add (o",
        "(out (over (in 0) 1",
        "(plus (in 0) ",
        "(out (times (in 0) 1",
    ] {
        assert!(all_texts(start.as_bytes(), &every, 2) > 1, "{start}");
        assert!(all_texts(start.as_bytes(), few, 8) > 20, "{start}");
    }
}

#[test]
fn large_numbers_live_as_in_the_model() {
    for start in [
        "(in 429496729",
        "(in 42949672",
        "(in 9",
        "(times (in 0) 429496729",
        "(give (in 0) 429496729",
        "(over (in 0) 429496729",
    ] {
        all_texts(start.as_bytes(), b"0123456789) ", 3);
    }
}

/// Rows with and without a value in every pattern that one, two and three digits can tell apart.
#[test]
fn names_live_as_in_the_model() {
    let random = &mut Random::new(3);
    for rows in [1, 2, 9, 10, 11, 12, 19, 20, 21, 99, 100, 101, 110, 127, 128] {
        for outs in [0, 1, 2, 20] {
            let mut text = Vec::new();
            for _ in 0..rows {
                let without = outs > 0 && random.once_in(outs);
                text.extend(match (without, random.once_in(2)) {
                    (true, true) => &b"(out (in 0))\n"[..],
                    (true, false) => b"(give (in 0) 1)\n",
                    (false, _) => b"(in 0)\n",
                });
            }
            text.extend(b"(out (line ");
            if model::completed(&text).is_some() {
                all_texts(&text, b"0123456789) ", if rows < 30 { 4 } else { 3 });
            }
        }
    }
}

/// Sheets nested up to depth 17, with random damage.
#[test]
fn random_sheets_are_read_as_in_the_model() {
    let random = &mut Random::new(1);
    let mut answers = std::collections::BTreeMap::new();
    for turn in 0..800 {
        let mut text = random_sheet(random, 1 + turn % 40);
        for _ in 0..3 {
            let found = read(2, &text);
            assert_eq!(
                found,
                model::read(2, &text),
                "{:?}",
                String::from_utf8_lossy(&text)
            );
            let number = found.map_or_else(|refusal| refusal.number, |_| 0);
            *answers.entry(number).or_insert(0) += 1;
            if text.is_empty() {
                break;
            }
            let at = random.below(text.len());
            match random.below(3) {
                0 => text.truncate(at),
                1 => text[at] = random.pick(b"() \nadgilmopqrstv0129x"),
                _ => drop(text.remove(at)),
            }
        }
    }
    for number in [0, 3, 5, 6, 7, 22, 23] {
        assert!(answers.contains_key(&number), "{number}: {answers:?}");
    }
}

#[test]
fn the_kept_requests_are_read_as_in_the_model() {
    let kept = [
        SheetSet::Kept,
        SheetSet::Square,
        SheetSet::Give,
        SheetSet::Over,
    ]
    .map(|set| set.make(1));
    for request in kept.into_iter().flatten() {
        if let SheetRequest::Read { parties, text, .. } = request {
            // The model is slow, and a text that breaks at once is as good shorter.
            let text = &text[..text.len().min(4000)];
            assert_eq!(
                read(parties, text),
                model::read(parties, text),
                "{:?}",
                String::from_utf8_lossy(text)
            );
        }
    }
}

#[test]
fn what_is_written_reads_back() {
    let random = &mut Random::new(2);
    for turn in 0..2000 {
        let parties = random.between(2, 8) as u32;
        let lines = if turn % 10 == 0 {
            random.between(2, MAX_GATES)
        } else {
            random.between(2, 30)
        };
        let circuit = random::circuit(random, Kinds::Overs, parties, lines);
        let mut text = vec![b'x'; 30 * lines];
        let len = write_sheet(parties, &circuit, &mut text).unwrap();
        assert!(text[len..].iter().all(|&byte| byte == b'x'));
        let text = &text[..len];
        assert_eq!(read(parties, text), Ok(circuit.clone()));
        assert_eq!(text.iter().filter(|&&byte| byte == b'\n').count(), lines);
        if turn % 20 == 1 {
            assert_eq!(model::read(parties, text), Ok(circuit));
        }
    }
}

/// The longest rows there are.
#[test]
fn the_longest_sheet_is_written() {
    let mut circuit = vec![1, 0, 0, 0];
    circuit.extend((1..255).flat_map(|gate| [5, gate - 1, 0, 2_147_483_646]));
    circuit.extend([7, 254, 0, 0]);
    let mut text = vec![0; 30 * MAX_GATES];
    let len = write_sheet(2, &circuit, &mut text).unwrap();
    assert_eq!(read(2, &text[..len]), Ok(circuit));
}

/// A circuit of 256 gates by nesting and by rows; the 257th is refused at its bracket.
#[test]
fn the_count_is_that_of_gates() {
    for inner in 1..=15 {
        let row = "(plus ".repeat(inner) + "(in 0)" + &" 1)".repeat(inner) + "\n";
        let rows = 255 / (inner + 1);
        let mut text = row.repeat(rows);
        for _ in rows * (inner + 1)..255 {
            text += "(in 1)\n";
        }
        let whole = text.clone() + "(out (line 0))\n";
        assert_eq!(
            read(2, whole.as_bytes()).map(|circuit| circuit.len()),
            Ok(4 * MAX_GATES)
        );
        let longer = text + "(in 1)\n(out (line 0))\n";
        let bracket = longer.len() - 2;
        assert_eq!(read(2, longer.as_bytes()), refused(24, bracket));
        assert_eq!(model::read(2, longer.as_bytes()), refused(24, bracket));
    }
}
