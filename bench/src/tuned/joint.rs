//! The joint run. The shares of all parties are worked out on the stack and written to the scratch at the end.

use std::array::from_fn;

use reference::circuit::MAX_GATES;
use reference::{Ending, JointResult, Refusal, P};

use super::field::{
    add, ask, ask_elements, fold, inner_product, product, quad, reduce, remainder, sub, times, Quad,
};
use super::gates::{Gates, ADD8, GIVE8, IN8, MUL8, OVER8, PLUS8, SQ8, SUB8, TIMES8};
use super::inverses::Inverses;
use super::sha256::{self, Schedule, MARK, NONCE, REVEALED};

/// Opened entries that are held on the stack, as a power of 2.
const ENTRIES: usize = 64;

/// Words that a party sends in a check: a mark, and what it reveals.
const CHECK: usize = MARK + REVEALED;

/// Runs all parties. The lists are joined in party order; the coefficients are in order of use, the nonces in order of
/// checks, parties in order within.
#[allow(clippy::too_many_arguments)]
pub fn joint_run(
    parties: u32,
    circuit: &[u32],
    preps: &[u32],
    inputs: &[u32],
    scratch: &mut [u32],
    coefficients: &[u32],
    nonces: &[u8],
    transcript: &mut [u32],
    outputs: &mut [u32],
) -> Result<JointResult, Refusal> {
    ask(1, (2..=8).contains(&parties))?;
    let mut gates = Gates::new();
    gates.read(parties, circuit)?;
    let counts = gates.counts();
    let count = parties as usize;
    let prep_len = counts.prep_len();
    let opened = counts.entries() + 1;
    let band = 2 * gates.len + 2 * opened + MARK + MARK * count;
    ask(8, preps.len() == count * prep_len)?;
    ask_elements(9, preps)?;
    ask(10, inputs.len() == counts.inputs)?;
    ask_elements(11, inputs)?;
    ask(12, scratch.len() >= count * band)?;
    ask(16, coefficients.len() == counts.entries() + counts.outputs)?;
    ask_elements(17, coefficients)?;
    let checks = counts.outputs + gates.checked_outputs();
    ask(25, nonces.len() == NONCE * count * checks)?;
    let words = counts.inputs + counts.entries() + counts.outputs + CHECK * checks;
    ask(
        18,
        transcript.len() >= count * words && outputs.len() >= counts.outputs,
    )?;
    let run = Run {
        gates: &gates,
        circuit,
        preps,
        prep_len,
        inputs,
        coefficients,
        nonces: nonces.as_chunks().0,
        transcript,
        outputs,
        width: Width(count),
    };
    let scratch = &mut scratch[..count * band];
    // Less room on the stack is less to fill with zeros.
    Ok(match gates.len {
        0..=64 => run.with_room::<64>(parties, scratch, band, opened),
        65..=128 => run.with_room::<128>(parties, scratch, band, opened),
        _ => run.with_room::<MAX_GATES>(parties, scratch, band, opened),
    })
}

/// What an accepted run works with, the scratch aside.
struct Run<'a> {
    gates: &'a Gates,
    circuit: &'a [u32],
    preps: &'a [u32],
    prep_len: usize,
    inputs: &'a [u32],
    coefficients: &'a [u32],
    nonces: &'a [[u8; NONCE]],
    transcript: &'a mut [u32],
    outputs: &'a mut [u32],
    width: Width,
}

/// The share and the MAC share of a wire at each of the parties; one more party where their number is odd.
type Row<const Q: usize> = [Quad; Q];

/// The preprocessing of the two parties of each quad.
type Preps<'a, const Q: usize> = [[&'a [u32]; 2]; Q];

/// A part of a record, which is a share and its MAC share, at two parties.
#[inline(always)]
fn part(preps: &[&[u32]; 2], at: usize) -> Quad {
    let [one, other] = [&preps[0][at..at + 2], &preps[1][at..at + 2]];
    [one[0], one[1], other[0], other[1]]
}

/// Room for the numbers of eight parties.
const LANES: usize = 16;
type Lanes = [u32; LANES];

/// The number of parties. That it is not known beforehand lets the compiler work out several lanes at a time.
#[derive(Clone, Copy)]
struct Width(usize);

impl Width {
    /// Numbers of all quads.
    #[inline(always)]
    fn lanes(self) -> usize {
        (4 * self.0.div_ceil(2)).min(LANES)
    }

    /// Works out the shares and MAC shares of a product from what is opened.
    #[inline(always)]
    fn multiply(
        self,
        row: &mut Lanes,
        [a, b, c]: &[Lanes; 3],
        public: &Lanes,
        [e, d, ed]: [u32; 3],
    ) {
        // `ed` may be above P: the sum is below 2^64 all the same.
        for k in 0..self.lanes() {
            let shares = product(b[k], e) + product(a[k], d);
            row[k] = reduce(u64::from(c[k]) + shares + product(public[k], ed));
        }
    }

    /// The same of a square, whose opened number is given twice.
    #[inline(always)]
    fn square(
        self,
        row: &mut Lanes,
        [a, c, _]: &[Lanes; 3],
        public: &Lanes,
        [twice, ee]: [u32; 2],
    ) {
        for k in 0..self.lanes() {
            row[k] = reduce(u64::from(c[k]) + product(a[k], twice) + product(public[k], ee));
        }
    }

    /// Adds a public number.
    #[inline(always)]
    fn plus(self, row: &mut Lanes, public: &Lanes, number: u32) {
        for k in 0..self.lanes() {
            row[k] = reduce(u64::from(row[k]) + product(public[k], number));
        }
    }

    /// Multiplies by a number, which is given twice.
    #[inline(always)]
    fn times(self, row: &mut Lanes, twice: u32) {
        for x in &mut row[..self.lanes()] {
            *x = times(*x, twice);
        }
    }
}

fn quads(lanes: &mut Lanes) -> &mut [Quad] {
    lanes.as_chunks_mut().0
}

impl Run<'_> {
    /// Runs the parties, with room for G gates.
    fn with_room<const G: usize>(
        self,
        parties: u32,
        scratch: &mut [u32],
        band: usize,
        room: usize,
    ) -> JointResult {
        match parties {
            2 => self.run::<2, 1, G>(scratch, band, room),
            3 => self.run::<3, 2, G>(scratch, band, room),
            4 => self.run::<4, 2, G>(scratch, band, room),
            5 => self.run::<5, 3, G>(scratch, band, room),
            6 => self.run::<6, 3, G>(scratch, band, room),
            7 => self.run::<7, 4, G>(scratch, band, room),
            _ => self.run::<8, 4, G>(scratch, band, room),
        }
    }

    /// Runs N parties, whose numbers lie in Q quads. Rows of several lists are gone through side by side.
    #[allow(clippy::needless_range_loop)]
    #[inline(never)]
    fn run<const N: usize, const Q: usize, const G: usize>(
        self,
        scratch: &mut [u32],
        band: usize,
        room: usize,
    ) -> JointResult {
        let Run {
            gates,
            circuit,
            preps,
            prep_len,
            inputs,
            mut coefficients,
            nonces,
            transcript,
            outputs,
            width,
        } = self;
        let lines = circuit.as_chunks::<4>().0;
        let prep = |i: usize| &preps[i.min(N - 1) * prep_len..][..prep_len];
        let lists: Preps<'_, Q> = from_fn(|q| [prep(2 * q), prep(2 * q + 1)]);
        let keys: [u32; N] = from_fn(|i| prep(i)[0]);
        // A public number counts at party 0 alone, its MAC share at each.
        let mut public = [0; LANES];
        public[0] = 1;
        for (i, &key) in keys.iter().enumerate() {
            public[2 * i + 1] = key;
        }
        let mut start = 0;
        let mut next_input: [usize; N] = from_fn(|i| {
            let first = start;
            start += gates.owned(i as u8);
            first
        });
        let mut wires: [Row<Q>; G] = [[[0; 4]; Q]; G];
        let mut window = Window {
            values: [0; ENTRIES],
            macs: [[0; N]; ENTRIES],
        };
        let mut sums = Sums::<N>::ZERO;
        let places = Places {
            band,
            values: 2 * gates.len,
            macs: 2 * gates.len + room,
        };
        // Parties' shares of what a gate opens. That the place changes keeps four of them together.
        let mut shares: [[Row<Q>; 2]; 2] = [[[[0; 4]; Q]; 2]; 2];
        // The record of a gate, and what the gate's row becomes.
        let mut record = [[0; LANES]; 3];
        let mut row = [0; LANES];
        let mut at_record = 1u32;
        // Entries opened and unchecked, where the window starts among them, and how many of the window's entries, from the
        // first one on, are still to be written.
        let (mut pending, mut start, mut held) = (0, 0, 0);
        let (mut rounds, mut at, mut released) = (0, 0, 0);
        // Nonces used, and where the last check's words start.
        let (mut used, mut last_check) = (0, 0);
        let mut schedule = Schedule::of(N);
        let mut inverses = Inverses::new();
        let mut ending = Ending::Finished;
        let mut done = gates.len;
        for (index, (kind, first, second)) in gates.iter().enumerate() {
            let (left, right) = (usize::from(first) % G, usize::from(second) % G);
            let from = at_record as usize;
            if pending - start > ENTRIES - 2 {
                sums.add(&coefficients[start..pending], &window);
                window.write(scratch, &places, start, held.max(pending - start));
                (start, held) = (pending, 0);
            }
            let entry = (pending - start) % ENTRIES;
            match kind {
                IN8 => {
                    let owner = lines[index][1] as usize % N;
                    let words = &mut transcript[at..at + N];
                    let e = sub(inputs[next_input[owner]], prep(owner)[from + 2]);
                    next_input[owner] += 1;
                    words.fill(0);
                    words[owner] = e;
                    for q in 0..Q {
                        quads(&mut row)[q] = part(&lists[q], from);
                    }
                    width.plus(&mut row, &public, e);
                    at_record += 3;
                    rounds += 1;
                    at += N;
                }
                MUL8 => {
                    let words = &mut transcript[at..at + 2 * N];
                    let next = (entry + 1) % ENTRIES;
                    for q in 0..Q {
                        let (l, r) = (wires[left][q], wires[right][q]);
                        let a = part(&lists[q], from);
                        let b = part(&lists[q], from + 2);
                        shares[pending % 2][0][q] = quad(|k| sub(l[k], a[k]));
                        shares[pending % 2][1][q] = quad(|k| sub(r[k], b[k]));
                    }
                    let [e_row, d_row] = &shares[pending % 2];
                    let (mut e, mut d) = (0, 0);
                    for i in 0..N {
                        let (x, y) = (pair(e_row, i), pair(d_row, i));
                        words[2 * i] = x[0];
                        words[2 * i + 1] = y[0];
                        e += u64::from(x[0]);
                        d += u64::from(y[0]);
                        window.macs[entry][i] = x[1];
                        window.macs[next][i] = y[1];
                    }
                    let (e, d) = (remainder(e), remainder(d));
                    window.values[entry] = e;
                    window.values[next] = d;
                    let ed = fold(product(e, d)) as u32;
                    for q in 0..Q {
                        for (number, record) in record.iter_mut().enumerate() {
                            quads(record)[q] = part(&lists[q], from + 2 * number);
                        }
                    }
                    width.multiply(&mut row, &record, &public, [e, d, ed]);
                    at_record += 6;
                    pending += 2;
                    rounds += 1;
                    at += 2 * N;
                }
                SQ8 => {
                    let words = &mut transcript[at..at + N];
                    for q in 0..Q {
                        let (l, a) = (wires[left][q], part(&lists[q], from));
                        shares[pending % 2][0][q] = quad(|k| sub(l[k], a[k]));
                    }
                    let [e_row, _] = &shares[pending % 2];
                    let mut e = 0;
                    for i in 0..N {
                        let x = pair(e_row, i);
                        words[i] = x[0];
                        e += u64::from(x[0]);
                        window.macs[entry][i] = x[1];
                    }
                    let e = remainder(e);
                    window.values[entry] = e;
                    let ee = fold(product(e, e)) as u32;
                    for q in 0..Q {
                        for (number, record) in record[..2].iter_mut().enumerate() {
                            quads(record)[q] = part(&lists[q], from + 2 * number);
                        }
                    }
                    width.square(&mut row, &record, &public, [2 * e, ee]);
                    at_record += 4;
                    pending += 1;
                    rounds += 1;
                    at += N;
                }
                ADD8 => {
                    for q in 0..Q {
                        let (l, r) = (wires[left][q], wires[right][q]);
                        quads(&mut row)[q] = quad(|k| add(l[k], r[k]));
                    }
                }
                SUB8 => {
                    for q in 0..Q {
                        let (l, r) = (wires[left][q], wires[right][q]);
                        quads(&mut row)[q] = quad(|k| sub(l[k], r[k]));
                    }
                }
                PLUS8 => {
                    quads(&mut row)[..Q].copy_from_slice(&wires[left]);
                    width.plus(&mut row, &public, lines[index][3]);
                }
                TIMES8 => {
                    quads(&mut row)[..Q].copy_from_slice(&wires[left]);
                    width.times(&mut row, lines[index][3].wrapping_mul(2));
                }
                OVER8 => {
                    let inverse = inverses.next(lines[index..].iter());
                    quads(&mut row)[..Q].copy_from_slice(&wires[left]);
                    width.times(&mut row, inverse.wrapping_mul(2));
                }
                _ => {
                    if pending > 0 {
                        sums.add(&coefficients[start..pending], &window);
                        coefficients = &coefficients[pending..];
                        if start > 0 {
                            window.write(scratch, &places, start, pending - start);
                        } else {
                            held = held.max(pending);
                        }
                        (pending, start) = (0, 0);
                        let words = &mut transcript[at..at + CHECK * N];
                        let now = &nonces[used..used + N];
                        last_check = at;
                        rounds += 2;
                        at += CHECK * N;
                        used += N;
                        let Sums { values, macs } = std::mem::replace(&mut sums, Sums::ZERO);
                        if !reveal(words, macs, remainder(values), &keys, now, &mut schedule) {
                            ending = aborted(index);
                            done = index;
                            break;
                        }
                    }
                    let words = &mut transcript[at..at + (1 + CHECK) * N];
                    let (shown, words) = words.split_at_mut(N);
                    let nonces = &nonces[used..used + N];
                    last_check = at + N;
                    rounds += 3;
                    at += (1 + CHECK) * N;
                    used += N;
                    held = held.max(1);
                    // A give gate opens the wire less its mask, which its receiver knows.
                    let (mut opened_row, mut whole_mask) = (wires[left], 0);
                    if kind == GIVE8 {
                        for q in 0..Q {
                            let (l, a) = (wires[left][q], part(&lists[q], from));
                            opened_row[q] = quad(|k| sub(l[k], a[k]));
                        }
                        whole_mask = prep(lines[index][2] as usize)[from + 2];
                        at_record += 3;
                    }
                    let shown_row: [[u32; 2]; N] = from_fn(|i| pair(&opened_row, i));
                    let mut sum = 0;
                    for i in 0..N {
                        shown[i] = shown_row[i][0];
                        sum += u64::from(shown_row[i][0]);
                    }
                    let sum = remainder(sum);
                    window.values[0] = sum;
                    window.macs[0] = shown_row.map(|pair| pair[1]);
                    let now = coefficients[0];
                    coefficients = &coefficients[1..];
                    let v = reduce(product(now, sum));
                    let sums = shown_row.map(|pair| product(now, pair[1]));
                    if !reveal(words, sums, v, &keys, nonces, &mut schedule) {
                        ending = aborted(index);
                        done = index;
                        break;
                    }
                    outputs[released] = add(sum, whole_mask);
                    released += 1;
                    // An out or a give gate's slots stay as they are.
                    for i in 0..N {
                        let slots = i * band + index;
                        row[2 * i] = scratch[slots];
                        row[2 * i + 1] = scratch[slots + gates.len];
                    }
                }
            };
            wires[index % G].copy_from_slice(&quads(&mut row)[..Q]);
        }
        window.write(scratch, &places, 0, held);
        // The nonces and marks that stay are those of the last check.
        let marks = &transcript[last_check..][..MARK * N];
        for (i, band) in scratch.chunks_exact_mut(band).enumerate().take(N) {
            let (band, checked) = band.split_at_mut(2 * gates.len + 2 * room);
            let (shares, macs) = band[..2 * gates.len].split_at_mut(gates.len);
            write_shares(shares, macs, &wires[..done], i);
            let (nonce, written) = checked.split_at_mut(MARK);
            nonce.copy_from_slice(&sha256::nonce_words(&nonces[used - N + i]));
            written.copy_from_slice(marks);
        }
        JointResult {
            ending,
            rounds,
            outputs: released,
            words: at,
        }
    }
}

/// Some entries opened since the last output, in order: the value, and its MAC share at each party.
struct Window<const N: usize> {
    values: [u32; ENTRIES],
    macs: [[u32; N]; ENTRIES],
}

/// Where the opened values and their MAC shares start in each party's band of the scratch.
struct Places {
    band: usize,
    values: usize,
    macs: usize,
}

impl<const N: usize> Window<N> {
    /// Writes the first `len` entries, which are those from `start` on.
    fn write(&self, scratch: &mut [u32], places: &Places, start: usize, len: usize) {
        for (i, band) in scratch.chunks_exact_mut(places.band).enumerate().take(N) {
            let values = &mut band[places.values + start..][..len];
            values.copy_from_slice(&self.values[..len]);
            let macs = &mut band[places.macs + start..][..len];
            for (mac, row) in macs.iter_mut().zip(&self.macs) {
                *mac = row[i];
            }
        }
    }
}

/// The sums of coefficient times value, and of coefficient times MAC share at each party, of the entries of a check.
struct Sums<const N: usize> {
    values: u64,
    macs: [u64; N],
}

impl<const N: usize> Sums<N> {
    const ZERO: Sums<N> = Sums {
        values: 0,
        macs: [0; N],
    };

    /// Adds up the window's first entries, one for each coefficient.
    #[inline(never)]
    fn add(&mut self, coefficients: &[u32], window: &Window<N>) {
        let len = coefficients.len();
        self.values += inner_product(coefficients, &window.values[..len]);
        let sums = inner_products(coefficients, &window.macs[..len]);
        for (total, sum) in self.macs.iter_mut().zip(sums) {
            *total += sum;
        }
    }
}

/// Writes a party's shares and MAC shares.
fn write_shares<const Q: usize>(
    shares: &mut [u32],
    macs: &mut [u32],
    wires: &[Row<Q>],
    party: usize,
) {
    let (q, place) = (party / 2 % Q, party % 2 * 2);
    let (four_shares, shares) = shares[..wires.len()].as_chunks_mut::<4>();
    let (four_macs, macs) = macs[..wires.len()].as_chunks_mut::<4>();
    let (four_wires, wires) = wires.as_chunks::<4>();
    for ((shares, macs), rows) in four_shares.iter_mut().zip(four_macs).zip(four_wires) {
        *shares = quad(|k| rows[k][q][place]);
        *macs = quad(|k| rows[k][q][place + 1]);
    }
    for ((share, mac), row) in shares.iter_mut().zip(macs).zip(wires) {
        (*share, *mac) = (row[q][place], row[q][place + 1]);
    }
}

/// A party's share and MAC share.
#[inline(always)]
fn pair<const Q: usize>(row: &Row<Q>, party: usize) -> [u32; 2] {
    let quad = row[party / 2];
    let place = party % 2 * 2;
    [quad[place], quad[place + 1]]
}

/// The sums of coefficient times MAC share at each party, below 2^44.
#[allow(clippy::needless_range_loop)]
fn inner_products<const N: usize>(coefficients: &[u32], rows: &[[u32; N]]) -> [u64; N] {
    let (coefficients, coefficients_rest) = coefficients.as_chunks::<4>();
    let (rows, rows_rest) = rows.as_chunks::<4>();
    let mut sums = [0; N];
    for (x, y) in coefficients.iter().zip(rows) {
        for i in 0..N {
            sums[i] += fold(
                product(x[0], y[0][i])
                    + product(x[1], y[1][i])
                    + product(x[2], y[2][i])
                    + product(x[3], y[3][i]),
            );
        }
    }
    for (&x, y) in coefficients_rest.iter().zip(rows_rest) {
        for i in 0..N {
            sums[i] += fold(product(x, y[i]));
        }
    }
    sums
}

/// Every mark is made of what is revealed, so that no party is named.
fn aborted(gate: usize) -> Ending {
    Ending::Aborted {
        gate: gate as u32,
        party: None,
    }
}

/// Writes the words of a commit and its reveal: whether the check passes.
fn reveal<const N: usize>(
    words: &mut [u32],
    sums: [u64; N],
    v: u32,
    keys: &[u32; N],
    nonces: &[[u8; NONCE]],
    schedule: &mut Option<Schedule>,
) -> bool {
    let (marks, revealed) = words.split_at_mut(MARK * N);
    let revealed = revealed.as_chunks_mut().0;
    let mut sum = 0;
    for ((revealed, nonce), (total, &key)) in
        revealed.iter_mut().zip(nonces).zip(sums.iter().zip(keys))
    {
        let share = reduce(total + product(key, P - v));
        sum += u64::from(share);
        *revealed = sha256::revealed(share, &sha256::nonce_words(nonce));
    }
    sha256::marks(schedule, &revealed[..N], &mut marks.as_chunks_mut().0[..N]);
    remainder(sum) == 0
}
