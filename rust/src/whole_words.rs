// Made by rust/erase.py of crates/komihash/src, where changes belong.
//! The whole words of a message or a stream, the pair rounds on them, and for messages the closing,
//! which takes the word that may be left and the final word.

use crate::rounds::{XoredPair, close, pair_round};

/// Returns the last whole word of at least eight bytes.
#[inline(always)]
pub(crate) fn last_whole_word(bytes: &[u8]) -> u64 {
    let words = bytes.as_chunks::<8>().0;
    u64::from_le_bytes(words[words.len() - 1])
}

/// Whole words, wherever they lie: in a message's bytes, or in the words of a stream.
pub(crate) trait WholeWords {
    /// Returns how many words there are.
    fn count(&self) -> usize;

    /// Returns the word at index `at`.
    fn word(&self, at: usize) -> u64;
}

/// The whole words of a message's bytes. For the prover, no type parameter stands for `[u8]`, so the
/// impl is for `&[u8]`.
impl WholeWords for &[u8] {
    #[inline(always)]
    fn count(&self) -> usize {
        self.len() / 8
    }

    #[inline(always)]
    fn word(&self, at: usize) -> u64 {
        let words = self.as_chunks::<8>().0;
        u64::from_le_bytes(words[at])
    }
}

// Returns the pair after a round on the two words from index `at`. From it, the words after these
// give the hash that all from `at` on give from the pair before.
#[inline(always)]
fn round_at<W: WholeWords>(pair: XoredPair, left: &W, at: usize) -> XoredPair {
    pair_round(pair, left.word(at), left.word(at + 1))
}

/// Returns the pair after a round on each two words. From this, the word that may remain gives the
/// hash that all words give from `pair`.
#[inline(always)]
pub(crate) fn round_each<W: WholeWords>(pair: XoredPair, left: &W) -> XoredPair {
    if left.count() < 2 {
        return pair;
    }
    let pair = round_at(pair, left, 0);
    if left.count() < 4 {
        return pair;
    }
    let pair = round_at(pair, left, 2);
    if left.count() < 6 {
        return pair;
    }
    round_at(pair, left, 4)
}

/// Returns the hash from a pair, the whole words of fewer than 64 bytes, and the final word. The
/// last whole word is any word if there are none.
#[inline(always)]
pub(crate) fn hash_from_pair(
    pair: XoredPair,
    left: &[u8],
    last_whole_word: u64,
    final_word: u64,
) -> u64 {
    let pair = round_each(pair, &left);
    // The closing of one word is that of two, the second of which is 0. So it needs no jump.
    let (first, second) =
        if left.len() / 8 % 2 == 1 { (last_whole_word, final_word) } else { (final_word, 0) };
    close(pair, first, second)
}
