// Made by rust/erase.py of crates/komihash/src, where changes belong.
//! The hash of a whole message, which is read without a copy.
//!
//! Each range of lengths has a function of its own, except the empty message, so that messages take
//! few jumps. Those below 64 bytes may be inlined, since a caller may know the length.

use crate::padding::{final_word_of_many, padding_byte};
use crate::rounds::{
    absorb_blocks, absorb_first_block, absorb_only_block, close, join, lanes_of, pair_round,
    seed_pair,
};
use crate::utils::{read_partial_word, read_word, word_at};
use crate::version::{IsVersion, Versions};
use crate::whole_words::{hash_from_pair, last_whole_word};

#[cfg_attr(any(debug_assertions, for_c), inline(never))]
#[cfg_attr(not(any(debug_assertions, for_c)), inline)]
fn hash_of_partial_word<const V: u8>(bytes: &[u8], seed: u64) -> u64 {
    let pair = seed_pair(seed);
    let final_word = read_partial_word(bytes, padding_byte::<V>(bytes));
    close(pair, final_word, 0)
}

// The final word comes first, so that its shift doesn't take registers that the products need.
#[cfg_attr(any(debug_assertions, for_c), inline(never))]
#[cfg_attr(not(any(debug_assertions, for_c)), inline)]
fn hash_of_one_word<const V: u8>(bytes: &[u8], seed: u64) -> u64 {
    let final_word = final_word_of_many(bytes, padding_byte::<V>(bytes));
    let pair = seed_pair(seed);
    close(pair, read_word(bytes), final_word)
}

// This function is apart from the next one, because keys often have 16 bytes.
#[cfg_attr(any(debug_assertions, for_c), inline(never))]
#[cfg_attr(not(any(debug_assertions, for_c)), inline)]
fn hash_of_16_bytes<const V: u8>(bytes: &[u8], seed: u64) -> u64 {
    let pair = seed_pair(seed);
    let pair = pair_round(pair, read_word(bytes), word_at(bytes, 8));
    close(pair, padding_byte::<V>(bytes), 0)
}

#[cfg_attr(any(debug_assertions, for_c), inline(never))]
#[cfg_attr(not(any(debug_assertions, for_c)), inline)]
fn hash_of_words<const V: u8>(bytes: &[u8], seed: u64) -> u64 {
    let pair = seed_pair(seed);
    let final_word = final_word_of_many(bytes, padding_byte::<V>(bytes));
    hash_from_pair(pair, bytes, last_whole_word(bytes), final_word)
}

// One block needs no loop. Functions that read blocks aren't inlined: callers would get long.
#[inline(never)]
fn hash_of_one_block<const V: u8>(bytes: &[u8], seed: u64) -> u64 {
    let mut lanes = lanes_of(seed_pair(seed));
    let rest = absorb_only_block::<V>(&mut lanes, bytes);
    let pair = join(&lanes, true);
    // Keys may have just 64 bytes, and their final word is the padding byte alone.
    if rest.is_empty() {
        return close(pair, padding_byte::<V>(bytes), 0);
    }
    let final_word = final_word_of_many(bytes, padding_byte::<V>(bytes));
    // `rest` may have no whole word. If it has one, its last is that of all bytes.
    hash_from_pair(pair, rest, last_whole_word(bytes), final_word)
}

#[inline(never)]
fn hash_of_blocks<const V: u8>(bytes: &[u8], seed: u64) -> u64 {
    // In Rust, this tells the compiler what the condition says, so that it tests no index below.
    if bytes.len() < 128 {
        unreachable!()
    }
    let pair = seed_pair(seed);
    let final_word = final_word_of_many(bytes, padding_byte::<V>(bytes));
    let mut lanes = lanes_of(pair);
    // Two blocks need no loop either.
    let rest: &[u8] = if bytes.len() < 192 {
        let after = absorb_first_block::<V>(&mut lanes, bytes);
        absorb_only_block::<V>(&mut lanes, after)
    } else {
        absorb_blocks::<V>(&mut lanes, bytes)
    };
    let pair = join(&lanes, true);
    // This test pays after several blocks, but not after one.
    if rest.len() < 8 {
        return close(pair, final_word, 0);
    }
    hash_from_pair(pair, rest, last_whole_word(rest), final_word)
}

/// Returns the hash of a message with a seed in version V.
///
/// The tests of the length are inlined into the caller, and vanish where it knows the length.
#[inline(always)]
pub(crate) fn hash_message<const V: u8>(bytes: &[u8], seed: u64) -> u64 {
    if bytes.len() >= 8 {
        if bytes.len() >= 64 {
            if bytes.len() >= 128 {
                hash_of_blocks::<V>(bytes, seed)
            } else {
                hash_of_one_block::<V>(bytes, seed)
            }
        } else if bytes.len() < 16 {
            hash_of_one_word::<V>(bytes, seed)
        } else if bytes.len() > 16 {
            hash_of_words::<V>(bytes, seed)
        } else {
            hash_of_16_bytes::<V>(bytes, seed)
        }
    } else if bytes.is_empty() {
        close(seed_pair(seed), 0, 0)
    } else {
        hash_of_partial_word::<V>(bytes, seed)
    }
}

/// Returns the hash of a message of any length with any seed, in version V.
/// It is not for messages that an attacker may choose, whatever the seed is.
///
/// ```
/// use komihash_rattle::version::komihash;
/// assert_eq!(komihash::<5>(b"", 0), 0xb7683ea7430132b4);
/// assert_ne!(komihash::<4>(&[0x80], 0), komihash::<5>(&[0x80], 0));
/// ```
#[must_use]
pub fn komihash<const V: u8>(bytes: &[u8], seed: u64) -> u64
where
    Versions: IsVersion<V>,
{
    hash_message::<V>(bytes, seed)
}
