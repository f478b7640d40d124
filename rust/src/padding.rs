// Made by rust/erase.py of crates/komihash/src, where changes belong.
//! The padding of a message: its padding byte, its final word, its padded words, and the message
//! whose padded words are given.

use crate::utils::{last_word, read_partial_word, read_whole_words, write_first_bytes};
use crate::version::{IsVersion, Versions};

/// Returns whether version V has the padding byte 2.
#[inline(always)]
pub(crate) fn has_two<const V: u8>() -> bool {
    V == 4
}

/// Returns whether the padding byte after `byte` is 2: if version V has it, and the byte's top bit is
/// set.
#[inline(always)]
pub(crate) fn pads_with_two<const V: u8>(byte: u8) -> bool {
    has_two::<V>() && byte >= 128
}

/// Returns the padding byte: 2 if `pads_with_two` holds for the last byte, otherwise 1.
#[inline(always)]
pub(crate) fn padding_after(top_bit: bool) -> u64 {
    1 + u64::from(top_bit)
}

/// Returns the padding byte of a message that isn't empty.
#[inline(always)]
pub(crate) fn padding_byte<const V: u8>(message: &[u8]) -> u64 {
    // Version 5 reads no byte for it.
    if has_two::<V>() { padding_after(pads_with_two::<V>(message[message.len() - 1])) } else { 1 }
}

/// Returns the final word of eight or more bytes: the bytes after the last whole word, and `end`.
///
/// Reads the last eight bytes, and shifts out those of the last whole word. If no byte comes after
/// that word, the shift is by 64, which `>>` doesn't allow. So it shifts twice. A branch would be
/// faster for whole words, but a processor can't guess it where lengths vary.
#[inline(always)]
pub(crate) fn final_word_of_many(bytes: &[u8], end: u64) -> u64 {
    let eight = last_word(bytes);
    let shift = 8 * (bytes.len() % 8);
    (eight >> 1) >> (63 - shift) | end << shift
}

/// Writes the padded words of a message in version V, and returns how many they are.
///
/// # Panics
///
/// If `out.len()` is less than `bytes.len() / 8 + 1`.
///
/// ```
/// use komihash_rattle::version::pad;
/// let mut words = [0; 1];
/// assert_eq!(pad::<4>(&[0x80], &mut words), 1);
/// assert_eq!(words, [0x0280]);
/// assert_eq!(pad::<5>(&[0x80], &mut words), 1);
/// assert_eq!(words, [0x0180]);
/// ```
#[cfg_attr(debug_assertions, inline(never))]
#[cfg_attr(not(debug_assertions), inline)]
#[track_caller]
pub fn pad<const V: u8>(bytes: &[u8], out: &mut [u64]) -> usize
where
    Versions: IsVersion<V>,
{
    assert!(
        bytes.len() / 8 + 1 <= out.len(),
        "the length of `out` is {}, and must be at least {}",
        out.len(),
        bytes.len() / 8 + 1
    );
    let whole = bytes.len() / 8;
    let final_word: u64 = if whole > 0 {
        final_word_of_many(bytes, padding_byte::<V>(bytes))
    } else if bytes.is_empty() {
        0
    } else {
        read_partial_word(bytes, padding_byte::<V>(bytes))
    };
    read_whole_words(bytes, out);
    out[whole] = final_word;
    whole + 1
}

// Returns the index of a word's highest byte that is not 0.
#[inline(always)]
fn highest_place(word: u64) -> usize {
    (word.ilog2() / 8) as usize
}

// Returns the byte at index `at` of words, the lowest byte of each word first.
#[inline(always)]
fn byte_at(words: &[u64], at: usize) -> u8 {
    words[at / 8].to_le_bytes()[at % 8]
}

// Returns whether `byte` is the padding byte of the first `count` bytes of words.
#[inline(always)]
fn is_padding_byte<const V: u8>(byte: u64, words: &[u64], count: usize) -> bool {
    byte == padding_after(pads_with_two::<V>(byte_at(words, count - 1)))
}

// Returns the length in bytes of the message that has these padded words in version V, or `None`
// if no message has them.
//
// The padding byte can only be the last word's highest byte that is not 0. The byte before it
// decides whether it is.
#[inline(always)]
fn message_length<const V: u8>(words: &[u64]) -> Option<usize> {
    let count = words.len();
    if count == 0 {
        return None;
    }
    let last = words[count - 1];
    if last == 0 {
        return if count == 1 { Some(0) } else { None };
    }
    let place = highest_place(last);
    let length = 8 * (count - 1) + place;
    if length == 0 {
        return None;
    }
    if is_padding_byte::<V>(last >> (8 * place), words, length) { Some(length) } else { None }
}

/// Writes the message that has these padded words in version V to the front of `out`, and returns
/// its length in bytes. Returns `None`, with `out` unchanged, if no message has these words.
///
/// # Panics
///
/// If `out.len()` is less than `8 * words.len()`.
///
/// ```
/// use komihash_rattle::version::unpad;
/// let mut message = [0; 8];
/// assert_eq!(unpad::<4>(&[0x0280], &mut message), Some(1));
/// assert_eq!(message[0], 0x80);
/// assert_eq!(unpad::<5>(&[0x0280], &mut message), None);
/// ```
#[cfg_attr(debug_assertions, inline(never))]
#[cfg_attr(not(debug_assertions), inline)]
#[track_caller]
#[must_use]
pub fn unpad<const V: u8>(words: &[u64], out: &mut [u8]) -> Option<usize>
where
    Versions: IsVersion<V>,
{
    assert!(
        8 * words.len() <= out.len(),
        "the length of `out` is {}, and must be at least {}",
        out.len(),
        8 * words.len()
    );
    let count = message_length::<V>(words)?;
    write_first_bytes(words, count, out);
    Some(count)
}
