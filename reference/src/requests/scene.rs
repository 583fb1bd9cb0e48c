//! A circuit with preprocessing, inputs and coefficients, and requests taken from its run.

use super::{Entry, Lent, Request, Size};
use crate::circuit::{self, Shape, IN, OVER};
use crate::commitment::NONCE_BYTES;
use crate::field;
use crate::joint::first_inputs;
use crate::party::{receive, send, Party, Position, Received, Round, Sort, Stage};
use crate::prep;
use crate::random::{self, Kinds, Random};

#[derive(Clone)]
pub(super) struct Scene {
    pub parties: u32,
    pub circuit: Vec<u32>,
    pub shape: Shape,
    /// The rounds of a full run, each with its gate.
    pub rounds: Vec<(usize, Round)>,
    pub preps: Vec<u32>,
    pub inputs: Vec<u32>,
    pub coefficients: Vec<u32>,
    pub nonces: Vec<u8>,
    /// Whether lists to be written hold zeros at first, which keeps long requests short as text.
    /// Otherwise they hold any numbers, and sometimes have an excess.
    pub zeros: bool,
}

/// A word that is heard otherwise than it was sent, by all parties: in which round, which one, and what is added.
#[derive(Clone, Copy, Debug)]
pub(super) struct Tamper {
    pub round: usize,
    pub word: usize,
    pub by: u32,
}

/// A number of one party's scratch that its caller alters before a half of a round, and what is added.
#[derive(Clone, Copy, Debug)]
pub(super) struct Meddle {
    pub round: usize,
    pub half: Entry,
    pub party: u32,
    pub place: usize,
    pub by: u32,
}

/// The parties of a run by single entries after some rounds, and requests made on the way.
struct Played<'a> {
    players: Vec<Player<'a>>,
    requests: Vec<Request>,
}

struct Player<'a> {
    view: Party<'a>,
    scratch: Vec<u32>,
    position: Position,
}

impl Player<'_> {
    fn lend(&self) -> Lent {
        Lent {
            parties: self.view.parties,
            party: self.view.party,
            circuit: self.view.circuit.to_vec(),
            prep: self.view.prep.to_vec(),
            inputs: self.view.inputs.to_vec(),
            scratch: self.scratch.clone(),
        }
    }

    fn sending(&self, coefficients: &[u32], nonce: &[u8], out: Vec<u32>) -> Request {
        Request::Send {
            lent: self.lend(),
            position: self.position,
            coefficients: coefficients.to_vec(),
            nonce: nonce.to_vec(),
            out,
        }
    }

    fn receiving(&self, heard: &[u32]) -> Request {
        Request::Receive {
            lent: self.lend(),
            position: self.position,
            heard: heard.to_vec(),
        }
    }
}

/// Adds to a word of a round, so that an element stays one.
pub(super) fn alter(round: Round, heard: &mut [u32], word: usize, by: u32) {
    heard[word] = if round.has_element(word) {
        field::add(heard[word], by)
    } else {
        heard[word].wrapping_add(by)
    };
}

impl Scene {
    /// Good preprocessing under the key, random inputs, coefficients and nonces for an accepted circuit.
    pub fn new(random: &mut Random, parties: u32, circuit: Vec<u32>, key: u32) -> Scene {
        let shape = circuit::shape(parties, &circuit).expect("the circuit is an accepted one");
        Scene {
            parties,
            rounds: circuit::rounds(&circuit),
            preps: prep::make(random, parties, &circuit, key),
            inputs: (0..shape.inputs).map(|_| random.edge_element()).collect(),
            coefficients: random.elements(shape.coefficients()),
            nonces: random.bytes(shape.nonces()),
            circuit,
            shape,
            zeros: false,
        }
    }

    /// The scene of a worked run, which is a joint one that is not refused.
    pub fn of(run: Request) -> Scene {
        let Request::Joint {
            parties,
            circuit,
            preps,
            inputs,
            coefficients,
            nonces,
            ..
        } = run
        else {
            unreachable!("a worked run is a joint one")
        };
        Scene {
            parties,
            shape: circuit::shape(parties, &circuit).expect("an accepted circuit"),
            rounds: circuit::rounds(&circuit),
            circuit,
            preps,
            inputs,
            coefficients,
            nonces,
            zeros: true,
        }
    }

    /// A scene with a circuit that has every kind of gate and every stage.
    pub fn rich(random: &mut Random, size: Size) -> Scene {
        let parties = random.between(2, size.max_parties as usize) as u32;
        // Mostly short circuits: their requests are as telling as long ones and much cheaper.
        let bound = if random.once_in(12) {
            size.max_lines
        } else {
            size.max_lines.min(18)
        };
        let lines = random.between(size.kinds.rich_lines(), bound);
        Scene::rich_of(random, size.kinds, parties, lines)
    }

    pub fn rich_of(random: &mut Random, kinds: Kinds, parties: u32, lines: usize) -> Scene {
        let circuit = random::rich_circuit(random, kinds, parties, lines);
        let key = random.element();
        Scene::new(random, parties, circuit, key)
    }

    /// Fills the preprocessing with zeros too, which is good and short as text, where lists to be written hold zeros.
    pub fn shortened(mut self) -> Scene {
        if self.zeros {
            self.preps.fill(0);
        }
        self
    }

    /// Makes party 1 the owner of party 0's in gates. Their whole masks are then any elements.
    pub fn disown(&mut self) {
        for line in self.circuit.chunks_exact_mut(4) {
            if line[..2] == [IN, 0] {
                line[1] = 1;
            }
        }
        self.shape = circuit::shape(self.parties, &self.circuit).expect("an accepted circuit");
    }

    /// The kinds that its gates may have.
    pub fn kinds(&self) -> Kinds {
        if !self.gates_of(&[OVER]).is_empty() {
            return Kinds::Overs;
        }
        match (self.shape.squares, self.shape.gives) {
            (0, 0) => Kinds::Base,
            (_, 0) => Kinds::Squares,
            _ => Kinds::Gives,
        }
    }

    pub fn any_party(&self, random: &mut Random) -> u32 {
        random.below(self.parties as usize) as u32
    }

    /// The gates of the given kinds; the caller knows that there is one.
    pub fn gates_of(&self, kinds: &[u32]) -> Vec<usize> {
        let lines = self.circuit.chunks_exact(4).enumerate();
        lines
            .filter(|(_, line)| kinds.contains(&line[0]))
            .map(|(index, _)| index)
            .collect()
    }

    /// A round with the wanted property, of which the caller knows that there is one.
    pub fn find(&self, random: &mut Random, wanted: impl Fn(usize, Round) -> bool) -> usize {
        let rounds = self.rounds.iter().enumerate();
        let found: Vec<usize> = rounds
            .filter(|(_, &(gate, round))| wanted(gate, round))
            .map(|(index, _)| index)
            .collect();
        random.pick(&found)
    }

    pub fn pending(&self, gate: usize) -> usize {
        circuit::before(&self.circuit, 0, gate).pending
    }

    /// The party's part of a list joined in party order.
    fn view(&self, party: u32) -> Party<'_> {
        let index = party as usize;
        let len = self.shape.prep_len();
        let first = first_inputs(&self.shape)[index];
        Party {
            parties: self.parties,
            party,
            circuit: &self.circuit,
            prep: &self.preps[index * len..][..len],
            inputs: &self.inputs[first..][..self.shape.owned[index]],
        }
    }

    /// The contents, before a call, of a list to be written that must hold `len` numbers.
    fn fresh(&self, random: &mut Random, len: usize) -> Vec<u32> {
        if self.zeros {
            vec![0; len]
        } else {
            let excess = random.below(3);
            random.numbers(len + excess)
        }
    }

    fn player(&self, random: &mut Random, party: u32) -> Player<'_> {
        Player {
            view: self.view(party),
            scratch: self.fresh(random, self.shape.scratch_len()),
            position: Position {
                gate: 0,
                stage: Stage::Send(Sort::Own),
                held: 0,
            },
        }
    }

    pub fn open(&self, random: &mut Random, party: u32) -> Request {
        Request::Open {
            lent: self.player(random, party).lend(),
        }
    }

    pub fn joint(&self, random: &mut Random) -> Request {
        let count = self.parties as usize;
        Request::Joint {
            parties: self.parties,
            circuit: self.circuit.clone(),
            preps: self.preps.clone(),
            inputs: self.inputs.clone(),
            scratch: self.fresh(random, count * self.shape.scratch_len()),
            coefficients: self.coefficients.clone(),
            nonces: self.nonces.clone(),
            transcript: self.fresh(random, count * self.shape.words()),
            outputs: self.fresh(random, self.shape.outputs),
        }
    }

    /// An accepted request of the entry, at a random round if it has one.
    pub fn any(&self, random: &mut Random, entry: Entry, party: u32) -> Request {
        match entry {
            Entry::Open => self.open(random, party),
            Entry::Joint => self.joint(random),
            Entry::Send | Entry::Receive => {
                let round = random.below(self.rounds.len());
                self.step(random, entry, party, round)
            }
        }
    }

    /// The party's sending or receiving half of a round.
    pub fn step(&self, random: &mut Random, entry: Entry, party: u32, round: usize) -> Request {
        let halves = self.halves(random, party, &[round]).into_iter();
        let mut halves = halves.filter(|request| request.entry() == entry);
        halves.next().expect("a round has two halves")
    }

    /// The party's two halves of each of the rounds.
    pub fn halves(&self, random: &mut Random, party: u32, rounds: &[usize]) -> Vec<Request> {
        let wanted = |round: usize, here: u32| rounds.contains(&round) && here == party;
        let end = rounds.iter().max().map_or(0, |last| last + 1);
        self.play(random, wanted, end, None, None).requests
    }

    /// All requests of one party, or of all parties, in a run by single entries: opening, and both
    /// halves of every round until the run ends.
    pub fn whole(&self, random: &mut Random, party: Option<u32>) -> Vec<Request> {
        self.play_all(random, party, None).requests
    }

    /// The same with a word tampered with, and then a call of both halves at the position where the
    /// run has ended, which has neither.
    pub fn whole_and_after(
        &self,
        random: &mut Random,
        party: Option<u32>,
        tamper: Option<Tamper>,
    ) -> Vec<Request> {
        let played = self.play_all(random, party, tamper);
        let mut requests = played.requests;
        let words = vec![0; self.parties as usize];
        for player in &played.players {
            if party.is_none_or(|party| party == player.view.party) {
                requests.extend([player.sending(&[], &[], vec![0]), player.receiving(&words)]);
            }
        }
        requests
    }

    /// All requests of all parties in a run by single entries, until a party has ended, where the caller of one
    /// has altered its scratch.
    pub fn whole_meddled(&self, random: &mut Random, meddle: Meddle) -> Vec<Request> {
        let (all, end) = (|_, _| true, self.rounds.len());
        let played = self.play(random, all, end, None, Some(meddle));
        self.opened(played).requests
    }

    fn play_all(
        &self,
        random: &mut Random,
        party: Option<u32>,
        tamper: Option<Tamper>,
    ) -> Played<'_> {
        let wanted = |_, here| party.is_none_or(|party| party == here);
        let played = self.play(random, wanted, self.rounds.len(), tamper, None);
        self.opened(played)
    }

    /// The same with the requests that open the run.
    fn opened<'a>(&self, mut played: Played<'a>) -> Played<'a> {
        let halves = std::mem::take(&mut played.requests);
        for request in halves {
            if let Request::Send { lent, position, .. } = &request {
                if position.gate == 0 {
                    let open = Request::Open { lent: lent.clone() };
                    played.requests.push(open);
                }
            }
            played.requests.push(request);
        }
        played
    }

    /// Runs all parties by single entries for some rounds or until the run ends, and keeps the
    /// requests of the wanted rounds and parties.
    fn play(
        &self,
        random: &mut Random,
        wanted: impl Fn(usize, u32) -> bool,
        end: usize,
        tamper: Option<Tamper>,
        meddle: Option<Meddle>,
    ) -> Played<'_> {
        let mut players: Vec<Player<'_>> = (0..self.parties)
            .map(|party| self.player(random, party))
            .collect();
        let mut requests = Vec::new();
        let mut coefficients = &self.coefficients[..];
        let mut nonces = &self.nonces[..];
        for (index, &(gate, round)) in self.rounds.iter().enumerate().take(end) {
            let (entries, bytes) = if round.is_commit() {
                (round.unchecked(self.pending(gate)), NONCE_BYTES)
            } else {
                (0, 0)
            };
            let (now, later) = coefficients.split_at(entries);
            coefficients = later;

            let mut heard = Vec::with_capacity(round.words() * players.len());
            let meddled = |half, player: &mut Player<'_>| {
                let here = |one: &Meddle| {
                    (one.round, one.half, one.party) == (index, half, player.view.party)
                };
                if let Some(Meddle { place, by, .. }) = meddle.filter(here) {
                    player.scratch[place] = player.scratch[place].wrapping_add(by);
                }
            };
            for player in &mut players {
                meddled(Entry::Send, player);
                let (nonce, later) = nonces.split_at(bytes);
                nonces = later;
                if wanted(index, player.view.party) {
                    let out = self.fresh(random, round.words());
                    requests.push(player.sending(now, nonce, out));
                }
                let Player {
                    view,
                    scratch,
                    position,
                } = player;
                let mut out = vec![0; round.words()];
                *position =
                    send(view, scratch, *position, now, nonce, &mut out).expect("an honest step");
                heard.extend(out);
            }
            if let Some(Tamper { word, by, .. }) = tamper.filter(|tamper| tamper.round == index) {
                alter(round, &mut heard, word, by);
            }
            for player in &mut players {
                meddled(Entry::Receive, player);
                if wanted(index, player.view.party) {
                    requests.push(player.receiving(&heard));
                }
                let Player {
                    view,
                    scratch,
                    position,
                } = player;
                let (Received::Moved(next)
                | Received::Released { position: next, .. }
                | Received::Aborted { position: next, .. }) =
                    receive(view, scratch, *position, &heard).expect("an honest step");
                *position = next;
            }
            let goes_on = |player: &Player<'_>| matches!(player.position.stage, Stage::Send(_));
            if !players.iter().all(goes_on) {
                break;
            }
        }
        Played { players, requests }
    }
}
