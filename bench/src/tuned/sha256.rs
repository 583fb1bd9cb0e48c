//! The marks of check shares and nonces: SHA-256 of nine words, which is one block.

use std::array::from_fn;
use std::hint::black_box;

/// Words that a party reveals, and words of a mark.
pub const REVEALED: usize = 9;
pub const MARK: usize = 8;

/// Bytes of a nonce.
pub const NONCE: usize = 32;

const INITIAL: [u32; MARK] = [
    0x6a09e667, 0xbb67ae85, 0x3c6ef372, 0xa54ff53a, 0x510e527f, 0x9b05688c, 0x1f83d9ab, 0x5be0cd19,
];

const K: [u32; 64] = [
    0x428a2f98, 0x71374491, 0xb5c0fbcf, 0xe9b5dba5, 0x3956c25b, 0x59f111f1, 0x923f82a4, 0xab1c5ed5,
    0xd807aa98, 0x12835b01, 0x243185be, 0x550c7dc3, 0x72be5d74, 0x80deb1fe, 0x9bdc06a7, 0xc19bf174,
    0xe49b69c1, 0xefbe4786, 0x0fc19dc6, 0x240ca1cc, 0x2de92c6f, 0x4a7484aa, 0x5cb0a9dc, 0x76f988da,
    0x983e5152, 0xa831c66d, 0xb00327c8, 0xbf597fc7, 0xc6e00bf3, 0xd5a79147, 0x06ca6351, 0x14292967,
    0x27b70a85, 0x2e1b2138, 0x4d2c6dfc, 0x53380d13, 0x650a7354, 0x766a0abb, 0x81c2c92e, 0x92722c85,
    0xa2bfe8a1, 0xa81a664b, 0xc24b8b70, 0xc76c51a3, 0xd192e819, 0xd6990624, 0xf40e3585, 0x106aa070,
    0x19a4c116, 0x1e376c08, 0x2748774c, 0x34b0bcb5, 0x391c0cb3, 0x4ed8aa4a, 0x5b9cca4f, 0x682e6ff3,
    0x748f82ee, 0x78a5636f, 0x84c87814, 0x8cc70208, 0x90befffa, 0xa4506ceb, 0xbef9a3f7, 0xc67178f2,
];

/// What follows the nine words in their block: a bit, zeros, and the length in bits.
const PADDING: [u32; 7] = [1 << 31, 0, 0, 0, 0, 0, 288];

#[inline(always)]
fn small_0(x: u32) -> u32 {
    x.rotate_right(7) ^ x.rotate_right(18) ^ (x >> 3)
}

#[inline(always)]
fn small_1(x: u32) -> u32 {
    x.rotate_right(17) ^ x.rotate_right(19) ^ (x >> 10)
}

#[inline(always)]
fn large_0(x: u32) -> u32 {
    x.rotate_right(2) ^ x.rotate_right(13) ^ x.rotate_right(22)
}

#[inline(always)]
fn large_1(x: u32) -> u32 {
    x.rotate_right(6) ^ x.rotate_right(11) ^ x.rotate_right(25)
}

#[inline(always)]
fn choose(x: u32, y: u32, z: u32) -> u32 {
    z ^ (x & (y ^ z))
}

/// The mark of what a party reveals. The rounds are written out, so that no word moves from one place to another, and what
/// follows the nine words is known beforehand.
#[inline(never)]
pub fn mark(revealed: &[u32; REVEALED]) -> [u32; MARK] {
    let mut w = [0u32; 16];
    w[..REVEALED].copy_from_slice(revealed);
    w[REVEALED..].copy_from_slice(&PADDING);
    let [mut a, mut b, mut c, mut d, mut e, mut f, mut g, mut h] = INITIAL;
    macro_rules! round {
        ($a:ident $b:ident $c:ident $d:ident $e:ident $f:ident $g:ident $h:ident, $t:expr) => {
            if $t >= 16 {
                w[$t % 16] = w[$t % 16]
                    .wrapping_add(small_0(w[($t + 1) % 16]))
                    .wrapping_add(w[($t + 9) % 16])
                    .wrapping_add(small_1(w[($t + 14) % 16]));
            }
            let t1 = $h
                .wrapping_add(K[$t].wrapping_add(w[$t % 16]))
                .wrapping_add(choose($e, $f, $g))
                .wrapping_add(large_1($e));
            $d = $d.wrapping_add(t1);
            $h = t1
                .wrapping_add(($a & $b) | ($c & ($a | $b)))
                .wrapping_add(large_0($a));
        };
    }
    macro_rules! eight {
        ($t:expr) => {
            round!(a b c d e f g h, $t);
            round!(h a b c d e f g, $t + 1);
            round!(g h a b c d e f, $t + 2);
            round!(f g h a b c d e, $t + 3);
            round!(e f g h a b c d, $t + 4);
            round!(d e f g h a b c, $t + 5);
            round!(c d e f g h a b, $t + 6);
            round!(b c d e f g h a, $t + 7);
        };
    }
    eight!(0);
    eight!(8);
    eight!(16);
    eight!(24);
    eight!(32);
    eight!(40);
    eight!(48);
    eight!(56);
    let mut words = INITIAL;
    for (word, added) in words.iter_mut().zip([a, b, c, d, e, f, g, h]) {
        *word = word.wrapping_add(added);
    }
    words
}

/// Room for the words of several parties side by side. That their number is not known beforehand lets the compiler work out
/// several lanes at a time; with room for no more than eight it would write out each of them.
const LANES: usize = 16;
type Lanes = [u32; LANES];

/// The words that the rounds of several hashes take.
pub struct Schedule {
    words: [Lanes; 64],
}

impl Schedule {
    /// For so many parties. Of two the marks are made one after the other.
    pub fn of(parties: usize) -> Option<Schedule> {
        (parties > 2).then(|| {
            let mut words = [[0; LANES]; 64];
            for (words, word) in words[REVEALED..].iter_mut().zip(PADDING) {
                *words = [word; LANES];
            }
            Schedule { words }
        })
    }

    /// Works out all words after the first sixteen.
    #[inline(never)]
    fn fill(&mut self, width: usize) {
        let words = &mut self.words;
        for t in 16..64 {
            let mut now = words[t - 16];
            let (w2, w7, w15) = (&words[t - 2], &words[t - 7], &words[t - 15]);
            for k in 0..width.min(LANES) {
                now[k] = now[k]
                    .wrapping_add(small_0(w15[k]))
                    .wrapping_add(w7[k])
                    .wrapping_add(small_1(w2[k]));
            }
            words[t] = now;
        }
    }

    /// The rounds, which begin with the initial words in every lane.
    #[inline(never)]
    fn rounds(&self, width: usize, hash: &mut [Lanes; MARK]) {
        let [a, b, c, d, e, f, g, h] = hash;
        macro_rules! round {
            ($a:ident $b:ident $c:ident $d:ident $e:ident $f:ident $g:ident $h:ident, $w:expr, $k:expr) => {
                let (w, key) = (&$w, $k);
                for k in 0..width.min(LANES) {
                    let t1 = $h[k]
                        .wrapping_add(key)
                        .wrapping_add(w[k])
                        .wrapping_add(choose($e[k], $f[k], $g[k]))
                        .wrapping_add(large_1($e[k]));
                    $d[k] = $d[k].wrapping_add(t1);
                    $h[k] = t1
                        .wrapping_add(($a[k] & $b[k]) | ($c[k] & ($a[k] | $b[k])))
                        .wrapping_add(large_0($a[k]));
                }
            };
        }
        let words = self.words.as_chunks::<8>().0;
        for (w, k) in words.iter().zip(K.as_chunks::<8>().0) {
            round!(a b c d e f g h, w[0], k[0]);
            round!(h a b c d e f g, w[1], k[1]);
            round!(g h a b c d e f, w[2], k[2]);
            round!(f g h a b c d e, w[3], k[3]);
            round!(e f g h a b c d, w[4], k[4]);
            round!(d e f g h a b c, w[5], k[5]);
            round!(c d e f g h a b, w[6], k[6]);
            round!(b c d e f g h a, w[7], k[7]);
        }
    }

    /// The marks of several parties at once.
    fn marks(&mut self, revealed: &[[u32; REVEALED]], marks: &mut [[u32; MARK]]) {
        for (k, revealed) in revealed.iter().enumerate().take(LANES) {
            for (words, &word) in self.words.iter_mut().zip(revealed) {
                words[k] = word;
            }
        }
        let width = black_box(revealed.len().next_multiple_of(4));
        let mut hash = INITIAL.map(|word| [word; LANES]);
        self.fill(width);
        self.rounds(width, &mut hash);
        for (k, mark) in marks.iter_mut().enumerate().take(LANES) {
            *mark = from_fn(|word| INITIAL[word].wrapping_add(hash[word][k]));
        }
    }
}

/// The marks of all parties: side by side where there are more than two, but for a fifth, which would take the time of four.
#[inline(always)]
pub fn marks(
    schedule: &mut Option<Schedule>,
    revealed: &[[u32; REVEALED]],
    marks: &mut [[u32; MARK]],
) {
    let mut wide = 0;
    if let Some(schedule) = schedule {
        wide = if revealed.len() == 5 {
            4
        } else {
            revealed.len()
        };
        schedule.marks(&revealed[..wide], &mut marks[..wide]);
    }
    for (mark, revealed) in marks[wide..].iter_mut().zip(&revealed[wide..]) {
        *mark = self::mark(revealed);
    }
}

/// The words of a nonce, high byte first.
#[inline(always)]
pub fn nonce_words(nonce: &[u8; NONCE]) -> [u32; MARK] {
    let words = nonce.as_chunks::<4>().0;
    from_fn(|word| u32::from_be_bytes(words[word]))
}

/// A check share and the words of a nonce in one list.
#[inline(always)]
pub fn revealed(check_share: u32, nonce: &[u32; MARK]) -> [u32; REVEALED] {
    let mut words = [check_share; REVEALED];
    words[1..].copy_from_slice(nonce);
    words
}
