//! Commitments: the mark of a check share and a nonce, and where both stand among a round's words.

use crate::sha256::{sha256, Digest};

/// Bytes of a nonce.
pub const NONCE_BYTES: usize = 32;

/// Words of a nonce, and of a mark.
pub const WORDS: usize = 8;

/// Words that a party reveals: its check share and its nonce.
pub const REVEALED: usize = 1 + WORDS;

/// "The nonce as eight 32-bit words high byte first."
pub fn nonce_words(nonce: &[u8]) -> [u32; WORDS] {
    let mut words = [0; WORDS];
    for (word, bytes) in words.iter_mut().zip(nonce.chunks_exact(4)) {
        *word = bytes
            .iter()
            .fold(0, |word, &byte| word << 8 | u32::from(byte));
    }
    words
}

/// "SHA-256 over the check word, four bytes high byte first, and a 32-byte nonce", of the words that a party
/// reveals.
pub fn mark(revealed: &[u32; REVEALED]) -> Digest {
    let mut message = [0; 4 * REVEALED];
    for (bytes, word) in message.chunks_exact_mut(4).zip(revealed) {
        bytes.copy_from_slice(&word.to_be_bytes());
    }
    sha256(&message)
}

/// The check share and the nonce in one list.
pub fn revealed(check_share: u32, nonce: &[u32]) -> [u32; REVEALED] {
    let mut words = [check_share; REVEALED];
    words[1..].copy_from_slice(&nonce[..WORDS]);
    words
}

/// The lowest party whose words are not those of its mark; marks and revealed words are in party order.
pub fn lowest_unfit(marks: &[u32], revealed: &[u32]) -> Option<u32> {
    let (marks, _) = marks.as_chunks::<WORDS>();
    let (revealed, _) = revealed.as_chunks::<REVEALED>();
    let mut pairs = marks.iter().zip(revealed);
    let unfit = pairs.position(|(&written, words)| mark(words) != written)?;
    Some(unfit as u32)
}

#[cfg(test)]
mod tests {
    use super::*;

    #[test]
    fn high_bytes_come_first() {
        let nonce: Vec<u8> = (0..32).collect();
        let words = nonce_words(&nonce);
        assert_eq!((words[0], words[7]), (66051, 0x1c1d1e1f));
        let mut message = vec![0, 0, 0, 10];
        message.extend(&nonce);
        assert_eq!(mark(&revealed(10, &words)), sha256(&message));
    }

    #[test]
    fn the_lowest_party_is_named() {
        let words: Vec<u32> = (0..27).collect();
        let mut marks: Vec<u32> = words.as_chunks().0.iter().flat_map(mark).collect();
        assert_eq!(lowest_unfit(&marks, &words), None);
        for place in (0..24).rev() {
            marks[place] ^= 1 << 31;
            assert_eq!(lowest_unfit(&marks, &words), Some(place as u32 / 8));
        }
    }
}
