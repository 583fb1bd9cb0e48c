//! What is timed: circuits with their lists, single rounds of them, sheets, and ranges of inputs.

use reference::circuit::{self, Shape, ADD, GIVE, IN, MUL, OUT, OVER, PLUS, SQ, SUB, TIMES};
use reference::commitment::NONCE_BYTES;
use reference::fit::{self, Change, Interval};
use reference::random::{from_kinds, Random};
use reference::{prep, Party, Position, Received, Round, Stage};

/// A joint run, with everything it is lent.
pub struct Run {
    pub parties: u32,
    pub circuit: Vec<u32>,
    pub shape: Shape,
    pub preps: Vec<u32>,
    pub inputs: Vec<u32>,
    pub coefficients: Vec<u32>,
    pub nonces: Vec<u8>,
}

/// The kinds of a circuit: five of eight gates are of the given kind, three are linear; now and then an in
/// gate and an out gate; an out gate at the end.
fn kinds(gates: usize, kind: u32) -> Vec<u32> {
    let row = [kind, ADD, kind, TIMES, kind, PLUS, kind, kind];
    let kind = |gate: usize| match gate {
        0..4 => IN,
        _ if gate + 1 == gates => OUT,
        _ if gate % 32 == 15 => IN,
        _ if gate % 32 == 31 => OUT,
        _ if gate % 32 == 9 => SUB,
        _ => row[gate % 8],
    };
    (0..gates).map(kind).collect()
}

/// A circuit of in gates, of products and sums, and of gives after every three of these.
fn many_outputs(random: &mut Random, parties: u32, gates: usize) -> Vec<u32> {
    let kind = |gate: usize| match gate {
        0..4 => IN,
        _ => [MUL, ADD, MUL, GIVE][gate % 4],
    };
    let kinds: Vec<u32> = (0..gates).map(kind).collect();
    from_kinds(random, parties, &kinds)
}

impl Run {
    /// A circuit of products.
    pub fn new(parties: u32, gates: usize) -> Run {
        let random = &mut generator(parties, gates);
        let circuit = from_kinds(random, parties, &kinds(gates, MUL));
        Run::of(random, parties, circuit)
    }

    /// An input that is given out: its check has one entry, and costs little but the hashes.
    pub fn output(parties: u32) -> Run {
        let random = &mut generator(parties, 2);
        let circuit = from_kinds(random, parties, &[IN, OUT]);
        Run::of(random, parties, circuit)
    }

    /// A circuit of squares, by sq gates.
    pub fn squares(parties: u32, gates: usize) -> Run {
        let random = &mut generator(parties, gates);
        let circuit = from_kinds(random, parties, &kinds(gates, SQ));
        Run::of(random, parties, circuit)
    }

    /// The same circuit by mul gates of a wire with itself.
    pub fn squares_by_products(parties: u32, gates: usize) -> Run {
        let random = &mut generator(parties, gates);
        let mut circuit = from_kinds(random, parties, &kinds(gates, SQ));
        for line in circuit.chunks_exact_mut(4).filter(|line| line[0] == SQ) {
            line.copy_from_slice(&[MUL, line[1], line[1], 0]);
        }
        Run::of(random, parties, circuit)
    }

    /// A circuit in which every fourth gate is an output, by give gates.
    pub fn gives(parties: u32, gates: usize) -> Run {
        let random = &mut generator(parties, gates);
        let circuit = many_outputs(random, parties, gates);
        Run::of(random, parties, circuit)
    }

    /// The same circuit by out gates.
    pub fn gives_by_outputs(parties: u32, gates: usize) -> Run {
        let random = &mut generator(parties, gates);
        let mut circuit = many_outputs(random, parties, gates);
        for line in circuit.chunks_exact_mut(4).filter(|line| line[0] == GIVE) {
            line.copy_from_slice(&[OUT, line[1], 0, 0]);
        }
        Run::of(random, parties, circuit)
    }

    /// A circuit of overs, of one input: the hearing of that input works all of them out.
    pub fn overs(parties: u32, gates: usize) -> Run {
        let random = &mut generator(parties, gates);
        let mut kinds = vec![OVER; gates];
        (kinds[0], kinds[gates - 1]) = (IN, OUT);
        let mut circuit = from_kinds(random, parties, &kinds);
        // Any constants: small ones would be divided by faster.
        for line in circuit.chunks_exact_mut(4).filter(|line| line[0] == OVER) {
            line[3] = random.nonzero();
        }
        Run::of(random, parties, circuit)
    }

    /// The same circuit by times gates of the same constants.
    pub fn overs_by_times(parties: u32, gates: usize) -> Run {
        let mut run = Run::overs(parties, gates);
        for line in run.circuit.chunks_exact_mut(4) {
            if line[0] == OVER {
                line[0] = TIMES;
            }
        }
        run
    }

    /// How many gates are over gates, or times gates in their place.
    pub fn scaled(&self) -> usize {
        let kinds = self.circuit.chunks_exact(4).map(|line| line[0]);
        kinds.filter(|kind| [OVER, TIMES].contains(kind)).count()
    }

    /// Overs of an input, of a product and of a square before outputs, one of them a give.
    pub fn over_each(parties: u32) -> Run {
        let random = &mut generator(parties, 10);
        let circuit = [
            [IN, 0, 0, 0],
            [OVER, 0, 0, random.nonzero()],
            [MUL, 1, 0, 0],
            [OVER, 2, 0, 2],
            [OUT, 3, 0, 0],
            [SQ, 3, 0, 0],
            [OVER, 5, 0, random.nonzero()],
            [GIVE, 6, parties - 1, 0],
            [OVER, 1, 0, 3],
            [OUT, 8, 0, 0],
        ];
        Run::of(random, parties, circuit.concat())
    }

    /// A product that is given to one party, whose opening and checks are then the last ones.
    pub fn give_to(parties: u32, receiver: u32) -> Run {
        let random = &mut generator(parties, receiver as usize);
        let circuit = [
            [IN, 0, 0, 0],
            [MUL, 0, 0, 0],
            [GIVE, 1, receiver, 0],
            [PLUS, 1, 0, 7],
            [MUL, 3, 0, 0],
            [GIVE, 4, receiver, 0],
        ];
        Run::of(random, parties, circuit.concat())
    }

    fn of(random: &mut Random, parties: u32, circuit: Vec<u32>) -> Run {
        let shape = circuit::shape(parties, &circuit).expect("the circuit is accepted");
        let key = random.element();
        let preps = prep::make(random, parties, &circuit, key);
        let inputs = random.elements(shape.inputs);
        let coefficients = random.elements(shape.coefficients());
        let nonces = (0..shape.nonces())
            .map(|_| random.below(256) as u8)
            .collect();
        Run {
            parties,
            circuit,
            shape,
            preps,
            inputs,
            coefficients,
            nonces,
        }
    }

    pub fn lists(&self) -> Lists {
        let count = self.parties as usize;
        Lists {
            scratch: vec![0; count * self.shape.scratch_len()],
            transcript: vec![0; count * self.shape.words()],
            outputs: vec![0; self.shape.outputs],
        }
    }

    /// What one party is lent.
    pub fn party(&self, party: u32) -> Party<'_> {
        let index = party as usize;
        let start: usize = self.shape.owned[..index].iter().sum();
        let len = self.shape.prep_len();
        Party {
            parties: self.parties,
            party,
            circuit: &self.circuit,
            prep: &self.preps[index * len..][..len],
            inputs: &self.inputs[start..][..self.shape.owned[index]],
        }
    }
}

fn generator(parties: u32, gates: usize) -> Random {
    Random::new(u64::from(parties) * 1000 + gates as u64)
}

/// The lists that a joint run writes to.
#[derive(Clone, PartialEq, Debug)]
pub struct Lists {
    pub scratch: Vec<u32>,
    pub transcript: Vec<u32>,
    pub outputs: Vec<u32>,
}

impl Lists {
    pub fn clear(&mut self) {
        self.scratch.fill(0);
        self.transcript.fill(0);
        self.outputs.fill(0);
    }
}

/// Both halves of one round at one party: where it stands, and what it is lent besides.
#[derive(Clone)]
pub struct Halves {
    pub round: Round,
    pub scratch: Vec<u32>,
    pub send_at: Position,
    pub coefficients: Vec<u32>,
    pub nonce: Vec<u8>,
    pub receive_at: Position,
    pub heard: Vec<u32>,
}

/// The last round of each sort in a run that goes through the single entries, at one party.
pub fn last_rounds(run: &Run, party: u32) -> Vec<Halves> {
    let count = run.parties as usize;
    let mut scratches = vec![vec![0; run.shape.scratch_len()]; count];
    let mut positions: Vec<Position> = (0..run.parties)
        .map(|i| reference::open(&run.party(i), &scratches[i as usize]).expect("opened"))
        .collect();
    let mut coefficients = &run.coefficients[..];
    let mut nonces = &run.nonces[..];
    let mut last: Vec<Halves> = Vec::new();
    while let Stage::Send(_) = positions[0].stage {
        let round = positions[0].round(&run.circuit).expect("a round");
        let gate = positions[0].gate as usize;
        let pending = circuit::before(&run.circuit, 0, gate).pending;
        let (wanted, bytes) = if round.is_commit() {
            (round.unchecked(pending), NONCE_BYTES)
        } else {
            (0, 0)
        };
        let (now, later) = coefficients.split_at(wanted);
        coefficients = later;
        let (nonces_now, later) = nonces.split_at(count * bytes);
        nonces = later;
        let nonce = |party: usize| &nonces_now[party * bytes..][..bytes];
        let mut halves = Halves {
            round,
            scratch: scratches[party as usize].clone(),
            send_at: positions[party as usize],
            coefficients: now.to_vec(),
            nonce: nonce(party as usize).to_vec(),
            receive_at: positions[party as usize],
            heard: Vec::new(),
        };
        for i in 0..count {
            let mut words = vec![0; round.words()];
            let lent = run.party(i as u32);
            let scratch = &mut scratches[i];
            positions[i] = reference::send(&lent, scratch, positions[i], now, nonce(i), &mut words)
                .expect("sent");
            halves.heard.extend(words);
        }
        halves.receive_at = positions[party as usize];
        for i in 0..count {
            let lent = run.party(i as u32);
            let received =
                reference::receive(&lent, &mut scratches[i], positions[i], &halves.heard);
            positions[i] = match received.expect("received") {
                Received::Moved(position) | Received::Released { position, .. } => position,
                Received::Aborted { .. } => unreachable!("good preprocessing passes every check"),
            };
        }
        last.retain(|other| other.round != round);
        last.push(halves);
    }
    last
}

/// A sheet with the circuit that it is read as.
pub struct Sheet {
    pub name: &'static str,
    pub parties: u32,
    pub text: Vec<u8>,
    pub circuit: Vec<u32>,
}

impl Sheet {
    fn new(name: &'static str, parties: u32, text: Vec<u8>) -> Sheet {
        let mut circuit = vec![0; 4 * circuit::MAX_GATES];
        let gates = reference::read_sheet(parties, &text, &mut circuit).expect("an accepted sheet");
        circuit.truncate(4 * gates);
        Sheet {
            name,
            parties,
            text,
            circuit,
        }
    }

    /// A row for each gate of a circuit, as the writer makes it.
    pub fn plain(parties: u32, gates: usize) -> Sheet {
        Sheet::of(&Run::new(parties, gates))
    }

    /// The same of a run's circuit.
    pub fn of(run: &Run) -> Sheet {
        let mut text = vec![0; LONGEST_ROW * run.shape.gates];
        let len = reference::write_sheet(run.parties, &run.circuit, &mut text).expect("accepted");
        text.truncate(len);
        Sheet::new("a gate a line", run.parties, text)
    }

    /// Rows of eleven gates, nested to depth 4, and an output of the first and the last.
    pub fn nested(parties: u32, gates: usize) -> Sheet {
        const ROW: &str = "(add (mul (plus (in 0) 1234567) (sub (in 1) (in 0))) (times (mul (in 1) (in 0)) 89))\n";
        const GATES: usize = 11;
        let rows = (gates - 2) / GATES;
        let mut text = ROW.repeat(rows);
        for _ in rows * GATES + 2..gates {
            text.push_str("(in 1)\n");
        }
        text.push_str(&format!("(out (add (line 0) (line {})))\n", rows - 1));
        Sheet::new("nested to depth 4", parties, text.into_bytes())
    }

    /// Rows nested as deep as may be.
    pub fn deep(parties: u32, gates: usize) -> Sheet {
        const DEPTH: usize = reference::sheet::MAX_DEPTH;
        let row = "(plus ".repeat(DEPTH - 1) + "(in 0)" + &" 7)".repeat(DEPTH - 1) + "\n";
        let rows = (gates - 1) / DEPTH;
        let mut text = row.repeat(rows);
        for _ in rows * DEPTH + 1..gates {
            text.push_str("(in 1)\n");
        }
        text.push_str(&format!("(out (line {}))\n", rows - 1));
        Sheet::new("nested to depth 16", parties, text.into_bytes())
    }

    pub fn gates(&self) -> usize {
        self.circuit.len() / 4
    }
}

/// Bytes of the longest row that the writer makes.
pub const LONGEST_ROW: usize = 30;

/// A circuit of which every gate fits, with the ranges of its inputs, and a change or none.
pub struct Ranges {
    pub parties: u32,
    pub circuit: Vec<u32>,
    pub ranges: Vec<u32>,
    pub change: Option<Change>,
    shape: Shape,
}

/// The kinds of such a circuit: every kind that has a whole-number result, in turns; now and then an in gate and an out gate; an out
/// gate at the end.
fn mixed_kinds(gates: usize) -> impl Iterator<Item = u32> {
    let row = [ADD, MUL, SUB, TIMES, SQ, PLUS, MUL, ADD];
    (0..gates).map(move |gate| match gate {
        0..4 => IN,
        _ if gate + 1 == gates => OUT,
        _ if gate % 32 == 15 => IN,
        _ if gate % 32 == 31 => OUT,
        _ => row[gate % 8],
    })
}

impl Ranges {
    /// Without a change, of at least 5 gates.
    pub fn new(parties: u32, gates: usize) -> Ranges {
        let random = &mut generator(parties, gates);
        let (mut circuit, mut ranges) = (Vec::new(), Vec::new());
        let mut intervals: Vec<Interval> = Vec::new();
        let mut wires: Vec<u32> = Vec::new();
        for (index, kind) in mixed_kinds(gates).enumerate() {
            // The first input is never below the second, so that there always is a sub that fits.
            let [low, high] = match index {
                0 => [10, 20],
                1 => [0, 5],
                _ => [0, 1 + random.below(100) as u32],
            };
            let range = Interval {
                low: low.into(),
                high: high.into(),
            };
            // Gates are made until one fits.
            let (line, interval) = loop {
                let line = mixed_gate(random, parties, kind, &wires);
                let gate = circuit::gate(&line, 0).expect("a kind");
                if gate.is_output() {
                    break (line, range);
                }
                let interval = fit::interval(gate, range, |wire| intervals[wire]);
                if let Some(interval) = interval.filter(|interval| interval.fits()) {
                    break (line, interval);
                }
            };
            if kind != OUT {
                wires.push(index as u32);
            }
            if kind == IN {
                ranges.extend([low, high]);
            }
            intervals.push(interval);
            circuit.extend(line);
        }
        let shape = circuit::shape(parties, &circuit).expect("the circuit is accepted");
        Ranges {
            parties,
            circuit,
            ranges,
            change: None,
            shape,
        }
    }

    /// The same with a change of the first input.
    pub fn with_change(parties: u32, gates: usize) -> Ranges {
        let change = Some(Change { gate: 0, amount: 3 });
        Ranges {
            change,
            ..Ranges::new(parties, gates)
        }
    }

    pub fn gates(&self) -> usize {
        self.shape.gates
    }

    /// The lists of intervals and of moves.
    pub fn lists(&self) -> [Vec<u32>; 2] {
        let moves = self.change.map_or(0, |_| self.shape.outputs);
        [vec![0; 2 * self.shape.gates], vec![0; moves]]
    }
}

/// A gate of the kind on some wires. The most recent wire is taken often, so that values pass through many gates.
fn mixed_gate(random: &mut Random, parties: u32, kind: u32, wires: &[u32]) -> [u32; 4] {
    if kind == IN {
        return [IN, random.below(parties as usize) as u32, 0, 0];
    }
    let first = match random.once_in(2) {
        true => wires[wires.len() - 1],
        false => random.pick(wires),
    };
    match kind {
        PLUS => [kind, first, 0, random.below(1000) as u32],
        TIMES => [kind, first, 0, random.between(2, 9) as u32],
        SQ | OUT => [kind, first, 0, 0],
        _ => [kind, first, random.pick(wires), 0],
    }
}
