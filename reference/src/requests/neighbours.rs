//! Measures which boundaries a list of requests has on both sides: refused requests with a neighbour
//! that differs in one place and that the question does not refuse.

use std::collections::BTreeMap;

use super::{Answered, Field, Request};
use crate::circuit::{self, GIVE, IN, OUT};
use crate::field::P;
use crate::text;

/// How many requests before a refused one its neighbour is looked for.
const REACH: usize = 5;

/// For each entry, refusal number and change from the neighbour to the refused request, how often it
/// occurs: `open 01 parties 8->9`.
pub fn neighbours(answered: &[Answered]) -> BTreeMap<(&'static str, u32, String), usize> {
    let mut counts = BTreeMap::new();
    for (index, one) in answered.iter().enumerate() {
        let Some(refusal) = one.answer.refusal() else {
            continue;
        };
        let passes = |other: &&Answered| {
            let number = other.answer.refusal().map(|refusal| refusal.number);
            number != Some(refusal.number)
        };
        let before = &answered[index.saturating_sub(REACH)..index];
        let change = before
            .iter()
            .rev()
            .filter(passes)
            .find_map(|other| change(&other.request, &one.request));
        if let Some(change) = change {
            let key = (one.request.entry().name(), refusal.number, change);
            *counts.entry(key).or_default() += 1;
        }
    }
    counts
}

/// The one place in which the requests differ, and how. None if they differ in more.
fn change(before: &Request, after: &Request) -> Option<String> {
    if before.entry() != after.entry() {
        return None;
    }
    let (before_fields, after_fields) = (before.fields(), after.fields());
    let pairs = before_fields.iter().zip(&after_fields);
    let mut differing = pairs.filter(|(before, after)| before != after);
    let (&(name, old), &(_, new)) = differing.next()?;
    if differing.next().is_some() {
        return None;
    }
    match (old, new) {
        (Field::Position(old), Field::Position(new)) => {
            let gate = (old.gate != new.gate).then(|| String::from("gate"));
            let (from, to) = (text::stage(old.stage), text::stage(new.stage));
            let stage = (from != to).then(|| format!("stage {from}->{to}"));
            let held = (old.held != new.held)
                .then(|| format!("held {}->{} at {from}", shown(old.held), shown(new.held)));
            let mut changes = gate.into_iter().chain(stage).chain(held);
            changes.next().filter(|_| changes.next().is_none())
        }
        (Field::Numbers(old), Field::Numbers(new)) if old.len() == new.len() => {
            let mut indices = (0..old.len()).filter(|&index| old[index] != new[index]);
            let index = indices.next()?;
            if indices.next().is_some() {
                return None;
            }
            Some(match name {
                "circuit" => gate_change(after, old, new, index),
                "party" => format!(
                    "party {}",
                    relative(new[0], old[0] + 1, "the number of parties")
                ),
                _ => format!("{name} {}->{}", shown(old[index]), shown(new[index])),
            })
        }
        (Field::Numbers(old), Field::Numbers(new)) => length_change(name, old, new),
        (Field::Bytes(old), Field::Bytes(new)) => length_change(name, old, new),
        _ => None,
    }
}

/// A change of the length of a list that is otherwise the same.
fn length_change<T: PartialEq>(name: &str, old: &[T], new: &[T]) -> Option<String> {
    let shorter = old.len().min(new.len());
    (old[..shorter] == new[..shorter]).then(|| match (old.len(), new.len()) {
        (_, 0) => format!("{name} of no number"),
        (from, to) if to + 1 == from => format!("{name} one shorter"),
        (from, to) if from + 1 == to => format!("{name} one longer"),
        (from, to) => format!("{name} {from}->{to} long"),
    })
}

/// A change of one number of a gate.
fn gate_change(request: &Request, old: &[u32], new: &[u32], index: usize) -> String {
    let (gate, field) = (index / 4, index % 4);
    let (kind, from, to) = (old[4 * gate], old[index], new[index]);
    if field == 0 {
        return format!("kind {from}->{to}");
    }
    let place = format!(
        "{} {}",
        circuit::KIND_NAMES[kind as usize - 1],
        ["first", "second", "constant"][field - 1]
    );
    let is_party = (kind, field) == (IN, 1) || (kind, field) == (GIVE, 2);
    let is_name = is_party || field == 1 || (field == 2 && circuit::has_two_names(kind));
    if !is_name {
        return format!("{place} {}->{}", shown(from), shown(to));
    }
    let named = if is_party {
        let Field::Numbers(parties) = request.fields()[0].1 else {
            unreachable!("the first field is the number of parties")
        };
        relative(to, parties[0], "the number of parties")
    } else if to as usize == gate + 1 {
        String::from("the next gate")
    } else if (to as usize) < gate && old[4 * to as usize] == OUT {
        String::from("an out gate")
    } else if (to as usize) < gate && old[4 * to as usize] == GIVE {
        String::from("a give gate")
    } else {
        relative(to, gate as u32, "itself")
    };
    format!("{place} names {named}")
}

fn relative(number: u32, bound: u32, name: &str) -> String {
    if number == bound {
        String::from(name)
    } else {
        shown(number)
    }
}

/// A number, by its name if it is near p.
fn shown(number: u32) -> String {
    match number {
        P => String::from("p"),
        _ if number == P - 1 => String::from("p-1"),
        _ => number.to_string(),
    }
}
