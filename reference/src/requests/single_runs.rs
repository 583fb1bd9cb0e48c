//! Finds the whole runs by single entries in a list of requests.

use std::collections::BTreeMap;

use super::{Answer, Answered, Lent, Request};
use crate::party::{Position, Received, Round, Stage};

/// A run from opening to its end, in which every request goes on from what the one before has left.
#[derive(Clone, Copy, Debug, PartialEq, Eq, PartialOrd, Ord)]
pub struct SingleRun {
    /// Whether the requests are those of all parties, or of one.
    pub all_parties: bool,
    /// The round whose failing check has aborted the run.
    pub aborted: Option<Round>,
    /// Whether a party is named then.
    pub named: bool,
    /// The last round in which another word was heard than was sent.
    pub tampered: Option<Round>,
}

/// A run of which some requests have been seen.
struct Open<'a> {
    lent: &'a Lent,
    players: BTreeMap<u32, (Position, Vec<u32>)>,
    sent: BTreeMap<u32, Vec<u32>>,
    seen: SingleRun,
}

impl<'a> Open<'a> {
    fn new(lent: &'a Lent) -> Open<'a> {
        Open {
            lent,
            players: BTreeMap::new(),
            sent: BTreeMap::new(),
            seen: SingleRun {
                all_parties: false,
                aborted: None,
                named: false,
                tampered: None,
            },
        }
    }

    /// Whether a new party opens the same run.
    fn admits(&self, lent: &Lent) -> bool {
        self.lent.parties == lent.parties
            && self.lent.circuit == lent.circuit
            && !self.players.contains_key(&lent.party)
    }

    /// Whether the request goes on from where its party is.
    fn goes_on(&self, lent: &Lent, position: Position) -> bool {
        let player = self.players.get(&lent.party);
        player.is_some_and(|(at, scratch)| *at == position && *scratch == lent.scratch)
    }

    fn hear(&mut self, heard: &[u32], round: Round) {
        let words = round.words();
        let altered = self.sent.iter().any(|(&party, sent)| {
            let start = party as usize * words;
            heard.get(start..start + words) != Some(&sent[..])
        });
        if altered {
            self.seen.tampered = Some(round);
        }
    }

    fn ended(&self) -> bool {
        let mut stages = self.players.values().map(|(at, _)| at.stage);
        stages.all(|stage| [Stage::Finished, Stage::Aborted].contains(&stage))
    }
}

/// How often each kind of run occurs.
pub fn single_runs(answered: &[Answered]) -> BTreeMap<SingleRun, usize> {
    let mut runs = BTreeMap::new();
    let mut open: Option<Open<'_>> = None;
    for one in answered {
        match (&one.request, &one.answer) {
            (Request::Open { lent }, Answer::Open { result: Ok(next) }) => {
                let run = match open.take() {
                    Some(run) if run.admits(lent) => run,
                    _ => Open::new(lent),
                };
                let run = open.insert(run);
                run.players
                    .insert(lent.party, (*next, lent.scratch.clone()));
            }
            (
                Request::Send { lent, position, .. },
                Answer::Send {
                    result: Ok(next),
                    scratch,
                    out,
                },
            ) => {
                let run = open.as_mut().filter(|run| run.goes_on(lent, *position));
                if let (Some(run), Some(round)) = (run, position.round(&lent.circuit)) {
                    run.sent.insert(lent.party, out[..round.words()].to_vec());
                    run.players.insert(lent.party, (*next, scratch.clone()));
                }
            }
            (
                Request::Receive {
                    lent,
                    position,
                    heard,
                },
                Answer::Receive { result, scratch },
            ) => {
                let run = open.as_mut().filter(|run| run.goes_on(lent, *position));
                if let (Some(run), Some(round)) = (run, position.round(&lent.circuit)) {
                    run.hear(heard, round);
                    let next = match result {
                        Err(_) => continue,
                        Ok(Received::Moved(next) | Received::Released { position: next, .. }) => {
                            next
                        }
                        Ok(Received::Aborted {
                            position: next,
                            party,
                        }) => {
                            run.seen.aborted = Some(round);
                            run.seen.named = party.is_some();
                            next
                        }
                    };
                    run.players.insert(lent.party, (*next, scratch.clone()));
                    if run.ended() {
                        run.seen.all_parties = run.players.len() == lent.parties as usize;
                        *runs.entry(run.seen).or_default() += 1;
                        open = None;
                    }
                }
            }
            _ => {}
        }
    }
    runs
}
