// Made by rust/erase.py of crates/komihash/src, where changes belong.
//! Komihash version 4, for hashes that exist already. Version 5 is for new data.
//!
//! It differs from version 5 in which words of a block are multiplied with each other, in the
//! padding of messages that end in a byte of 128 or more, in the generator's step, and in the saved
//! texts of streams.
//!
//! Both give a message of fewer than 64 bytes the same hash if it is empty or its last byte is below
//! 128. So tell by longer messages which version made a hash.
//!
//! Examples of methods are those of version 5: write `v4` where they have `v5`; outputs differ.

use crate::{generator, hash, hasher, padding, stream};

/// The stream of version 4, which hashes bytes that come in pieces.
///
/// However the bytes are cut, the hash is that of [`komihash`]. Pieces of a multiple of 64 bytes
/// are best, as [the type of both versions](stream::streamed::StreamedKomihash) explains.
///
/// ```
/// use komihash_rattle::v4::{StreamedKomihash, komihash};
/// let mut stream = StreamedKomihash::new();
/// stream.write(b"po");
/// stream.write(b"rt");
/// assert_eq!(stream.finish(), komihash(b"port", 0));
/// ```
pub type StreamedKomihash = stream::streamed::StreamedKomihash<4>;

/// The hasher of version 4, which chains the hashes of its writes.
///
/// Its writes are not joined: each replaces its number by the hash of the bytes, with the number
/// as the seed. In Rust, use it for maps alone, whose keys no attacker chooses, as
/// [the type of both versions](hasher::KomiHasher) explains.
///
/// ```
/// use komihash_rattle::v4::{KomiHasher, komihash};
/// use std::hash::Hasher;
/// let mut hasher = KomiHasher::default();
/// hasher.write(b"port");
/// assert_eq!(hasher.finish(), komihash(b"port", 0));
/// ```
pub type KomiHasher = hasher::KomiHasher<4>;

/// Makes a hasher of version 4 for each key of a map, from one seed.
///
/// A seed is no protection against keys that an attacker chooses.
///
/// ```
/// use komihash_rattle::v4::KomiBuildHasher;
/// use std::collections::HashMap;
/// let mut ports = HashMap::with_hasher(KomiBuildHasher::new(7));
/// ports.insert("https", 443);
/// ```
pub type KomiBuildHasher = hasher::KomiBuildHasher<4>;

/// The pseudorandom generator of version 4, which is not cryptographic.
///
/// [The type of both versions](generator::Komirand) has the rule of a step.
///
/// ```
/// use komihash_rattle::v4::Komirand;
/// let mut sample = [0; 100];
/// Komirand::init(7).fill_bytes(&mut sample);
/// ```
pub type Komirand = generator::Komirand<4>;

/// Returns the hash of a message of any length with any seed.
/// It is not for messages that an attacker may choose, whatever the seed is.
///
/// ```
/// use komihash_rattle::v4::komihash;
/// assert_eq!(komihash(b"", 0), 0xb7683ea7430132b4);
/// let shard = komihash(&443_u64.to_le_bytes(), 0) % 8;
/// assert!(shard < 8);
/// ```
#[cfg_attr(debug_assertions, inline(never))]
#[cfg_attr(not(debug_assertions), inline)]
#[must_use]
pub fn komihash(bytes: &[u8], seed: u64) -> u64 {
    hash::komihash::<4>(bytes, seed)
}

/// Writes the padded words of a message, and returns how many they are: `bytes.len() / 8 + 1`,
/// which is the length that `out` needs.
///
/// They are what the hash reads: the bytes of the message, its padding byte, and zeros, eight bytes
/// per word, the lowest byte first. The padding byte is 1, or 2 in version 4 after a byte of 128 or
/// more. The empty message has the one word 0. The rest of `out` is unchanged.
///
/// # Panics
///
/// If `out.len()` is less than `bytes.len() / 8 + 1`.
///
/// ```
/// use komihash_rattle::v4::pad;
/// let mut words = [0; 1];
/// assert_eq!(pad(b"abc", &mut words), 1);
/// assert_eq!(words, [0x01636261]);
/// ```
#[cfg_attr(debug_assertions, inline(never))]
#[cfg_attr(not(debug_assertions), inline)]
#[track_caller]
pub fn pad(bytes: &[u8], out: &mut [u64]) -> usize {
    padding::pad::<4>(bytes, out)
}

/// Writes the message that has these padded words to the front of `out`, and returns its length in
/// bytes. The rest of `out` is unchanged. `out` needs room for eight bytes for each word.
///
/// Returns `None`, with all of `out` unchanged, if no message has these words in this version.
///
/// # Panics
///
/// If `out.len()` is less than `8 * words.len()`.
///
/// ```
/// use komihash_rattle::v4::unpad;
/// let mut message = [0; 8];
/// assert_eq!(unpad(&[0x01636261], &mut message), Some(3));
/// assert_eq!(message[..3], *b"abc");
/// assert_eq!(unpad(&[0], &mut message), Some(0));
/// assert_eq!(unpad(&[1], &mut message), None);
/// ```
#[cfg_attr(debug_assertions, inline(never))]
#[cfg_attr(not(debug_assertions), inline)]
#[track_caller]
#[must_use]
pub fn unpad(words: &[u64], out: &mut [u8]) -> Option<usize> {
    padding::unpad::<4>(words, out)
}
