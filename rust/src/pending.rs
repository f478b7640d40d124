// Made by rust/erase.py of crates/komihash/src, where changes belong.
//! The pending bytes of a stream: those after its last whole block.

use crate::padding::{padding_after, pads_with_two};
use crate::utils::{last_word, read_partial_word, read_word, word_at, write_first_bytes};
use crate::whole_words::WholeWords;

/// Fewer than 64 bytes, stored in eight words, with zeros after the last byte.
#[repr(C)]
#[derive(Clone, PartialEq, Eq)]
pub(crate) struct Pending {
    words: [u64; 8],
    len: usize,
}

// Returns the index of the word that has the byte after the first `len`. In Rust, the remainder
// tells the compiler that there is such a word.
#[inline(always)]
fn word_index(len: usize) -> usize {
    len / 8 % 8
}

// Appends fewer than eight bytes. If all fit in the partial word, 0 goes to the next word, which
// after the last is the first.
#[inline(always)]
fn append_below_eight(words: &mut [u64; 8], len: usize, bytes: &[u8]) {
    let word = read_partial_word(bytes, 0);
    let bits = 8 * (len % 8);
    words[word_index(len)] |= word << bits;
    // The rotation is the shifted word plus what the shift drops, moved to the lowest bytes, where
    // the next word begins. A shift to the right would be by 64 where the partial word is empty.
    words[(len + 8) / 8 % 8] |= word.rotate_left(bits as u32) - (word << bits);
}

// Appends those of eight or more bytes that complete the partial word.
#[inline(always)]
fn append_within_word(words: &mut [u64; 8], len: usize, bytes: &[u8]) {
    words[word_index(len)] |= read_word(bytes) << (8 * (len % 8));
}

// Stores two of the chunks as words, those from index `at` on.
#[inline(always)]
fn store_two_chunks(words: &mut [u64], chunks: &[[u8; 8]], at: usize) {
    let two = &chunks[at..];
    let first = u64::from_le_bytes(two[0]);
    let second = u64::from_le_bytes(two[1]);
    let out = &mut words[at..];
    out[0] = first;
    out[1] = second;
}

// Stores two to seven chunks as words, two at a time from both ends, and some twice, which saves
// jumps.
#[inline(always)]
fn store_chunks(words: &mut [u64], chunks: &[[u8; 8]]) {
    let count = chunks.len();
    // In this order, a stream of one write takes fewer instructions than in others.
    store_two_chunks(words, chunks, count - 2);
    store_two_chunks(words, chunks, 0);
    if count >= 4 {
        store_two_chunks(words, chunks, count - 4);
        store_two_chunks(words, chunks, 2);
    }
}

// Of eight bytes or more, appends those that end up in whole words.
#[inline(always)]
fn append_whole_words(words: &mut [u64; 8], len: usize, bytes: &[u8]) {
    append_within_word(words, len, bytes);
    let next = word_index(len) + 1;
    let next_at = 8 - len % 8;
    // The words after the partial word that are whole with the bytes.
    let chunks = bytes[next_at..].as_chunks::<8>().0;
    if chunks.len() >= 2 {
        store_chunks(&mut words[next..next + chunks.len()], chunks);
    } else {
        // If the next word isn't whole, `append_eight_or_more` overwrites what this stores. A test
        // whether it is would cost a jump. In Rust, the remainder tells the compiler that `next` is
        // in range.
        words[next % 8] = word_at(bytes, next_at.min(bytes.len() - 8));
    }
}

// Appends eight bytes or more: those of whole words, and then those that are left.
#[inline(always)]
fn append_eight_or_more(words: &mut [u64; 8], len: usize, bytes: &[u8]) {
    append_whole_words(words, len, bytes);
    let end = len + bytes.len();
    // The shift by 8 comes last, because LLVM would otherwise read seven bytes in three pieces.
    words[word_index(end)] = last_word(bytes) >> (56 - 8 * (end % 8)) >> 8;
}

// Appends bytes that do not complete the block.
#[inline(always)]
fn append_to_block(words: &mut [u64; 8], len: usize, bytes: &[u8]) {
    if bytes.len() < 8 {
        append_below_eight(words, len, bytes);
    } else {
        append_eight_or_more(words, len, bytes);
    }
}

// Stores the whole words of eight bytes or more where none is pending.
#[inline(always)]
fn store_whole_words(words: &mut [u64; 8], bytes: &[u8]) {
    let chunks = bytes.as_chunks::<8>().0;
    if chunks.len() >= 2 {
        store_chunks(&mut words[..chunks.len()], chunks);
    } else {
        words[0] = read_word(bytes);
    }
}

// Stores bytes where none is pending. A stream of one write takes fewer instructions than if
// `append_to_block` stored them.
#[inline(always)]
fn store_bytes(words: &mut [u64; 8], bytes: &[u8]) {
    if bytes.len() < 8 {
        words[0] = read_partial_word(bytes, 0);
    } else {
        store_whole_words(words, bytes);
        // The shift by 8 comes last, as above.
        words[word_index(bytes.len())] = last_word(bytes) >> (56 - 8 * (bytes.len() % 8)) >> 8;
    }
}

// Stores the 16 bytes from index `start` on as two words, from index `at` on.
#[inline(always)]
fn store_two_words(words: &mut [u64; 8], at: usize, bytes: &[u8], start: usize) {
    let first = word_at(bytes, start);
    let second = word_at(bytes, start + 8);
    words[at] = first;
    words[at + 1] = second;
}

// Stores the bytes that complete the block, some words twice, first from the front and then from
// the back. In Rust, each array, and each remainder of an index, tells the compiler what is in
// range.
#[inline(always)]
fn complete_block(words: &mut [u64; 8], len: usize, bytes: &[u8]) {
    if bytes.len() < 8 {
        words[7] |= read_partial_word(bytes, 0) << (8 * (len % 8));
        return;
    }
    append_within_word(words, len, bytes);
    let next_at = 8 - len % 8;
    let over_32 = bytes.len() > 32;
    let over_16 = bytes.len() > 16;
    if over_32 {
        let next = len / 8 % 4 + 1;
        let front = bytes.first_chunk::<32>().unwrap();
        let back = bytes.last_chunk::<32>().unwrap();
        store_two_words(words, next, front, next_at);
        words[next + 2] = word_at(front, next_at + 16);
        store_two_words(words, 4, back, 0);
        store_two_words(words, 6, back, 16);
    } else if over_16 {
        let front = bytes.first_chunk::<16>().unwrap();
        let back = bytes.last_chunk::<16>().unwrap();
        words[len / 8 % 2 + 5] = word_at(front, next_at);
        store_two_words(words, 6, back, 0);
    } else {
        words[7] = last_word(bytes);
    }
}

// Puts bytes after the pending ones, as no other function does. `NONE` says that none is pending,
// `FULL` that the bytes complete the block.
#[inline(always)]
fn put<const NONE: bool, const FULL: bool>(words: &mut [u64; 8], len: usize, bytes: &[u8]) {
    if FULL {
        complete_block(words, len, bytes);
    } else if NONE {
        store_bytes(words, bytes);
    } else {
        append_to_block(words, len, bytes);
    }
}

impl Pending {
    #[inline(always)]
    pub(crate) const fn new() -> Self {
        Pending { words: [0; 8], len: 0 }
    }

    #[inline(always)]
    pub(crate) fn len(&self) -> usize {
        self.len
    }

    /// Appends bytes that do not complete a block.
    #[inline(always)]
    pub(crate) fn append(&mut self, bytes: &[u8]) {
        let len = self.len;
        self.len = len + bytes.len();
        put::<false, false>(&mut self.words, len, bytes);
    }

    /// Appends bytes where none is pending. Does what `append` does, but the compiler knows that
    /// the length was 0.
    #[inline(always)]
    pub(crate) fn append_to_none(&mut self, bytes: &[u8]) {
        // In Rust, the remainder tells the compiler that the words have room. Often there are no
        // bytes.
        let bytes = &bytes[..bytes.len() % 64];
        if !bytes.is_empty() {
            put::<true, false>(&mut self.words, 0, bytes);
            self.len = bytes.len();
        }
    }

    /// Returns the words of the block that the bytes complete, and leaves no byte pending.
    #[inline(always)]
    pub(crate) fn complete(&mut self, bytes: &[u8]) -> [u64; 8] {
        put::<false, true>(&mut self.words, self.len, bytes);
        let block = self.words;
        self.words = [0; 8];
        self.len = 0;
        block
    }

    // Returns the padding byte of at least one byte.
    #[inline(always)]
    fn padding_byte<const V: u8>(&self) -> u64 {
        let last = self.len - 1;
        let last_byte = (self.words[word_index(last)] >> (8 * (last % 8)) & 0xff) as u8;
        padding_after(pads_with_two::<V>(last_byte))
    }

    /// Returns the last two words of at least one byte: the last whole word and the final word, or
    /// if the whole words are even in number the final word and 0.
    ///
    /// They are two of the eight words, the first at an even index, and one of them has the padding
    /// byte. This takes fewer instructions than to choose between words.
    #[inline(always)]
    pub(crate) fn last_two<const V: u8>(&self) -> (u64, u64) {
        let padding = self.padding_byte::<V>() << (8 * (self.len % 8));
        let in_first = if self.len / 8 % 2 == 1 { 0 } else { padding };
        // In this way LLVM reads the words at an index that one instruction makes of the length.
        let pairs = self.words.as_chunks::<2>().0;
        let two = &pairs[self.len / 16 % 4];
        (two[0] | in_first, two[1] | (padding - in_first))
    }

    /// Writes the bytes to the front of `out`. The rest of `out` is unchanged.
    #[inline(always)]
    pub(crate) fn write_to(&self, out: &mut [u8]) {
        write_first_bytes(&self.words, self.len, out);
    }
}

impl WholeWords for Pending {
    #[inline(always)]
    fn count(&self) -> usize {
        self.len / 8
    }

    #[inline(always)]
    fn word(&self, at: usize) -> u64 {
        self.words[at]
    }
}
