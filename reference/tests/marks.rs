//! The sets of requests about commitments: what they cover, measured from requests and answers alone.

use std::collections::{BTreeMap, BTreeSet};
use std::sync::OnceLock;

use reference::circuit::{self, Layout};
use reference::requests::{measured, single_runs, Answer, Answered, Entry, Request, Set};
use reference::{commitment, Ending, Received, Round, P};

/// The seed of the vectors that are kept.
const SEED: u64 = 1;

fn kept() -> &'static [Answered] {
    static KEPT: OnceLock<Vec<Answered>> = OnceLock::new();
    KEPT.get_or_init(|| Set::Mark.make(SEED))
}

fn large() -> &'static [Answered] {
    static LARGE: OnceLock<Vec<Answered>> = OnceLock::new();
    LARGE.get_or_init(|| Set::MarksLarge.make(SEED))
}

/// A reveal that is heard and not refused.
struct Heard<'a> {
    party: u32,
    parties: u32,
    round: Round,
    layout: Layout,
    scratch: &'a [u32],
    words: &'a [[u32; 9]],
    received: Received,
}

impl Heard<'_> {
    /// The parties whose words are not those of their marks.
    fn unfit(&self) -> Vec<u32> {
        let unfit = |party: &u32| {
            let place = self.layout.mark(*party as usize);
            commitment::mark(&self.words[*party as usize]) != self.scratch[place..place + 8]
        };
        (0..self.parties).filter(unfit).collect()
    }

    fn sum_is_zero(&self) -> bool {
        let shares = self.words.iter().map(|words| u64::from(words[0]));
        shares.sum::<u64>().is_multiple_of(P.into())
    }
}

fn reveals(answered: &[Answered]) -> impl Iterator<Item = Heard<'_>> {
    answered.iter().filter_map(|one| {
        let (
            Request::Receive {
                lent,
                position,
                heard,
            },
            Answer::Receive {
                result: Ok(received),
                ..
            },
        ) = (&one.request, &one.answer)
        else {
            return None;
        };
        let round = position.round(&lent.circuit)?;
        let shape = circuit::shape(lent.parties, &lent.circuit).ok()?;
        round.is_reveal().then_some(Heard {
            party: lent.party,
            parties: lent.parties,
            round,
            layout: shape.layout(),
            scratch: &lent.scratch,
            words: heard.as_chunks().0,
            received: *received,
        })
    })
}

/// "A reveal whose hash is not the mark written for its seat stops the run before the sum is asked, naming the lowest such
/// seat beside the line; else the sum alone decides."
#[test]
fn reveals_are_answered_by_marks_and_sum() {
    for heard in reveals(kept()).chain(reveals(large())) {
        let expected = match (heard.unfit().first(), heard.sum_is_zero()) {
            (None, true) => None,
            (None, false) => Some(None),
            (named, _) => Some(named.copied()),
        };
        let found = match heard.received {
            Received::Aborted { party, .. } => Some(party),
            _ => None,
        };
        assert_eq!(found, expected);
    }
}

/// Each party is named, by itself and by another; several that do not fit; none that does not fit, with a sum that is zero
/// and one that is not; both checks.
#[test]
fn every_party_is_named() {
    let mut named = BTreeSet::new();
    let mut kinds: BTreeMap<(Round, usize, bool), usize> = BTreeMap::new();
    for heard in reveals(kept()) {
        let unfit = heard.unfit();
        if let Some(&lowest) = unfit.first() {
            named.insert((heard.parties, lowest, lowest == heard.party));
        }
        *kinds
            .entry((heard.round, unfit.len().min(2), heard.sum_is_zero()))
            .or_default() += 1;
    }
    for party in 0..8 {
        assert!(named.contains(&(8, party, party == 5)), "{party}");
    }
    for party in 0..2 {
        assert!(named.contains(&(2, party, true)), "{party}");
        assert!(named.contains(&(2, party, false)), "{party}");
    }
    for round in [Round::RevealOpened, Round::RevealOutput] {
        for unfit in 0..3 {
            for zero in [true, false] {
                let found = kinds.get(&(round, unfit, zero)).copied().unwrap_or(0);
                assert!(found > 1, "{round:?} {unfit} {zero}");
            }
        }
    }
}

/// What 25 refuses, by whether a commitment is sent: the lengths of the nonce; and by how much the joint run's list differs.
#[test]
fn nonces_of_every_wrong_length_are_refused() {
    let mut sent = BTreeSet::new();
    let mut joint = BTreeSet::new();
    for one in kept() {
        if one.answer.refusal().is_none_or(|no| no.number != 25) {
            continue;
        }
        match &one.request {
            Request::Send {
                lent,
                position,
                nonce,
                ..
            } => {
                let round = position.round(&lent.circuit).unwrap();
                sent.insert((round.is_commit(), nonce.len()));
            }
            Request::Joint {
                parties,
                circuit,
                nonces,
                ..
            } => {
                let total = circuit::shape(*parties, circuit).unwrap().nonces();
                joint.insert(nonces.len() as i64 - total as i64);
            }
            _ => panic!("the entry asks no nonce"),
        }
    }
    for len in [0, 31, 33] {
        assert!(sent.contains(&(true, len)), "{len}");
    }
    for len in [1, 32] {
        assert!(sent.contains(&(false, len)), "{len}");
    }
    for more in [-32, -1, 1, 32] {
        assert!(joint.contains(&more), "{more}");
    }
}

/// Which of the questions 16, 17, 25 and 18 would refuse, and which does: the first in that order.
#[test]
fn questions_are_asked_in_their_order() {
    let mut found = BTreeSet::new();
    for one in kept() {
        let (parties, circuit, coefficients, nonces, words) = match &one.request {
            Request::Send {
                lent,
                coefficients,
                nonce,
                out,
                ..
            } => (lent.parties, &lent.circuit, coefficients, nonce, out),
            Request::Joint {
                parties,
                circuit,
                coefficients,
                nonces,
                transcript,
                ..
            } => (*parties, circuit, coefficients, nonces, transcript),
            _ => continue,
        };
        let Ok(shape) = circuit::shape(parties, circuit) else {
            continue;
        };
        let (wanted, bytes, room) = match &one.request {
            Request::Send { lent, position, .. } => {
                let Some(round) = position.round(&lent.circuit) else {
                    continue;
                };
                let before = circuit::before(&lent.circuit, 0, position.gate as usize);
                match round.is_commit() {
                    true => (round.unchecked(before.pending), 32, round.words()),
                    false => (0, 0, round.words()),
                }
            }
            _ => {
                let count = parties as usize;
                (shape.coefficients(), shape.nonces(), count * shape.words())
            }
        };
        let faults = [
            (16, coefficients.len() != wanted),
            (17, coefficients.iter().any(|&number| number >= P)),
            (25, nonces.len() != bytes),
            (18, words.len() < room),
        ];
        let faults: Vec<u32> = faults
            .into_iter()
            .filter(|&(_, fault)| fault)
            .map(|(number, _)| number)
            .collect();
        let refusal = one.answer.refusal().map(|refusal| refusal.number);
        if refusal.is_none_or(|number| number >= 16) {
            assert_eq!(refusal, faults.first().copied());
            found.insert((one.request.entry(), faults));
        }
    }
    for entry in [Entry::Send, Entry::Joint] {
        let sets = found.iter().filter(|(here, _)| *here == entry);
        assert_eq!(sets.count(), 16, "{entry:?}");
    }
}

/// Words of marks and nonces of any size are heard and stand in the scratch; 20 asks a reveal's check shares, at every party.
#[test]
fn marks_and_nonces_are_any_words() {
    let mut heard_at = BTreeSet::new();
    let mut refused = BTreeSet::new();
    for one in kept() {
        let Request::Receive {
            lent,
            position,
            heard,
        } = &one.request
        else {
            continue;
        };
        let Some(round) = position.round(&lent.circuit) else {
            continue;
        };
        match one.answer.refusal() {
            None => {
                let any = heard.iter().enumerate().filter(|(_, &word)| word >= P);
                heard_at.extend(any.map(|(index, &word)| (round, index % round.words(), word)));
            }
            Some(refusal) if refusal.number == 20 && round.is_reveal() => {
                refused.insert((lent.parties, refusal.index));
            }
            Some(_) => {}
        }
    }
    for round in [Round::CommitOpened, Round::CommitOutput] {
        for word in 0..8 {
            assert!(heard_at.contains(&(round, word, u32::MAX)));
            assert!(heard_at.contains(&(round, word, P)));
        }
    }
    for round in [Round::RevealOpened, Round::RevealOutput] {
        assert!(heard_at
            .iter()
            .all(|&(here, word, _)| here != round || word > 0));
        for word in 1..9 {
            assert!(heard_at.contains(&(round, word, u32::MAX)));
        }
    }
    for (parties, index) in [(2, 0), (2, 9), (3, 0), (3, 9), (3, 18)] {
        assert!(refused.contains(&(parties, index)), "{parties} {index}");
    }
}

/// A reveal whose nonce in the scratch is not the one of the mark, and one whose marks have been altered since they were heard.
#[test]
fn the_scratch_is_altered_between_the_halves() {
    let (mut nonces, mut marks) = (0, 0);
    let mut left: BTreeMap<u32, Vec<u32>> = BTreeMap::new();
    for one in kept() {
        let (lent, written) = match (&one.request, &one.answer) {
            (Request::Send { lent, .. }, Answer::Send { scratch, .. })
            | (Request::Receive { lent, .. }, Answer::Receive { scratch, .. }) => (lent, scratch),
            _ => continue,
        };
        let Ok(shape) = circuit::shape(lent.parties, &lent.circuit) else {
            continue;
        };
        let layout = shape.layout();
        let before = left.insert(lent.party, written.clone());
        if let Some(before) = before.filter(|before| before.len() == lent.scratch.len()) {
            let differing: Vec<usize> = (0..before.len())
                .filter(|&place| before[place] != lent.scratch[place])
                .collect();
            if let [place] = differing[..] {
                nonces += usize::from((layout.nonce()..layout.mark(0)).contains(&place));
                marks += usize::from((layout.mark(0)..layout.len()).contains(&place));
            }
        }
    }
    assert!(nonces > 2, "{nonces}");
    assert!(marks > 3, "{marks}");
}

/// Whole runs of all parties with a word of each kind of round heard otherwise.
#[test]
fn whole_runs_are_tampered_with_in_every_round() {
    let found = single_runs(kept());
    for round in Round::ALL {
        let run = found.keys().find(|run| run.tampered == Some(round));
        let run = run.unwrap_or_else(|| panic!("{round:?}"));
        assert!(run.all_parties);
        assert_eq!(run.aborted.is_none(), round == Round::Input);
        assert_eq!(run.named, round.is_commit() || round.is_reveal());
    }
    assert!(found.keys().any(|run| run.tampered.is_none()));
}

/// A joint run never names a party, whatever its material is.
#[test]
fn joint_runs_name_no_party() {
    let mut aborted = 0;
    for one in kept().iter().chain(large()) {
        if let Answer::Joint {
            result: Ok(result), ..
        } = &one.answer
        {
            if let Ending::Aborted { party, .. } = result.ending {
                assert_eq!(party, None);
                aborted += 1;
            }
        }
    }
    assert!(aborted > 5, "{aborted}");
}

#[test]
fn the_kept_set_is_short_and_has_rooms_on_both_sides() {
    assert!((600..=950).contains(&kept().len()), "{}", kept().len());
    let counts = measured(kept());
    for entry in Entry::ALL {
        for feature in [
            "refused 12, beside a neighbour that is not",
            "accepted, `scratch` just long enough",
            "accepted, `scratch` with an excess",
        ] {
            assert!(counts[feature][entry as usize] > 0, "{entry:?} {feature}");
        }
    }
    for entry in [Entry::Send, Entry::Receive] {
        for place in ["in the nonce", "among the marks"] {
            let feature = format!("accepted, no elements in `scratch` {place}");
            assert!(counts[&feature][entry as usize] > 8, "{entry:?} {feature}");
        }
    }
}

/// The longest lists that an accepted joint run can have: 65280 bytes of nonces, 37744 words; and all questions.
#[test]
fn the_large_set_has_the_longest_lists() {
    assert!((2000..=3000).contains(&large().len()), "{}", large().len());
    let (mut nonces, mut words) = (0, 0);
    for one in large().iter().filter(|one| one.answer.refusal().is_none()) {
        if let Request::Joint {
            nonces: bytes,
            transcript,
            ..
        } = &one.request
        {
            nonces = bytes.len().max(nonces);
            words = transcript.len().max(words);
        }
    }
    assert_eq!((nonces, words), (65_280, 37_744));
    let counts = measured(large());
    for number in (1..=20).chain([25]) {
        assert!(counts.contains_key(&format!("refused {number:02}")));
    }
    for feature in [
        "accepted, 256 gates and 8 parties",
        "finished after 766 rounds",
        "good preprocessing, another key: finished",
    ] {
        assert!(counts[feature][Entry::Joint as usize] > 0, "{feature}");
    }
}
