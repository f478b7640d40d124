// Made by rust/erase.py of crates/komihash/src, where changes belong.
//! Words of eight bytes, the lowest byte first: read from bytes, written to bytes, multiplied.

#[inline(always)]
pub(crate) fn read_word(bytes: &[u8]) -> u64 {
    u64::from_le_bytes(*bytes.first_chunk().unwrap())
}

#[inline(always)]
pub(crate) fn word_at(bytes: &[u8], at: usize) -> u64 {
    read_word(&bytes[at..])
}

/// Returns the word of the last eight bytes.
#[inline(always)]
pub(crate) fn last_word(bytes: &[u8]) -> u64 {
    u64::from_le_bytes(*bytes.last_chunk().unwrap())
}

#[inline(always)]
fn half_word_at(bytes: &[u8], at: usize) -> u64 {
    let piece = &bytes[at..];
    u64::from(u32::from_le_bytes([piece[0], piece[1], piece[2], piece[3]]))
}

/// Returns the word of at most seven bytes and the byte `end` after them.
///
/// Reads four bytes or more in two pieces, which may overlap. `end` follows the second piece, of
/// which a shift removes the bytes that the first has too. Fewer bytes are read at three indices,
/// however many there are, since a choice between two values costs less than a jump.
#[inline(always)]
pub(crate) fn read_partial_word(bytes: &[u8], end: u64) -> u64 {
    let n = bytes.len();
    if n >= 4 {
        half_word_at(bytes, 0) | (half_word_at(bytes, n - 4) | end << 32) >> (64 - 8 * n) << 32
    } else if n > 0 {
        let middle = u64::from(bytes[n / 2]) << 8;
        let last = u64::from(bytes[n - 1]) << 16;
        let has_second = n > 1;
        let has_third = n > 2;
        let second = if has_second { middle } else { 0 };
        let third = if has_third { last } else { 0 };
        (u64::from(bytes[0]) + second + third) | end << (8 * n)
    } else {
        end
    }
}

/// Fills `out`, of eight bytes, with the bytes of a word.
///
/// Assigns an array, which is one store.
#[inline(always)]
pub(crate) fn write_word(word: u64, out: &mut [u8]) {
    *out.first_chunk_mut().unwrap() = word.to_le_bytes();
}

// Fills `out` with bytes, N of both. Like `write_word`, it assigns an array.
#[inline(always)]
fn copy_array<const N: usize>(bytes: &[u8], out: &mut [u8]) {
    *out.first_chunk_mut::<N>().unwrap() = *bytes.first_chunk().unwrap();
}

/// Fills `out`, of at most seven bytes, with the lowest bytes of a word.
#[inline(always)]
pub(crate) fn write_partial_word(word: u64, out: &mut [u8]) {
    let bytes = word.to_le_bytes();
    let n = out.len();
    if n >= 4 {
        copy_array::<4>(&bytes[..4], &mut out[..4]);
        copy_array::<4>(&bytes[n - 4..n], &mut out[n - 4..]);
    } else if n >= 2 {
        copy_array::<2>(&bytes[..2], &mut out[..2]);
        copy_array::<2>(&bytes[n - 2..n], &mut out[n - 2..]);
    } else if n == 1 {
        out[0] = bytes[0];
    }
}

/// Writes the whole words of `bytes` to the front of `out`.
#[allow(clippy::needless_range_loop)]
#[inline(always)]
pub(crate) fn read_whole_words(bytes: &[u8], out: &mut [u64]) {
    // In Rust, with one slice of each length, the loop tests no index.
    let words = bytes.as_chunks::<8>().0;
    let front = &mut out[..words.len()];
    for i in 0..words.len() {
        front[i] = u64::from_le_bytes(words[i]);
    }
}

/// Fills `out`, of eight bytes for each word, with the bytes of words.
#[inline(always)]
pub(crate) fn write_words(words: &[u64], out: &mut [u8]) {
    for i in 0..words.len() {
        write_word(words[i], &mut out[8 * i..8 * i + 8]);
    }
}

/// Writes the first `count` bytes of `words` to the front of `out`.
#[inline(always)]
pub(crate) fn write_first_bytes(words: &[u64], count: usize, out: &mut [u8]) {
    let whole = count / 8;
    // In Rust, with one slice of each length, the loop tests no index.
    write_words(&words[..whole], &mut out[..8 * whole]);
    if count % 8 > 0 {
        write_partial_word(words[whole], &mut out[8 * whole..count]);
    }
}

/// Returns the low and the high half of the product of two words. No other code of this crate
/// multiplies two words.
#[inline(always)]
pub(crate) const fn multiply128(x: u64, y: u64) -> (u64, u64) {
    let product = x as u128 * y as u128;
    ((product & 0xffff_ffff_ffff_ffff) as u64, (product >> 64) as u64)
}
