// Made by rust/erase.py of crates/komihash/src, where changes belong.
//! The hasher of both versions, which chains the hashes of its writes, and what makes one for each
//! key of a map.

use crate::hash::hash_message;
use crate::version::{IsVersion, Versions};
use core::hash::{BuildHasher, Hasher};

/// A hasher of version V, which has one number. Each write replaces it by the hash of the bytes
/// written, with the number as the seed.
///
/// So writes are not joined: the number after two writes is not the hash of all their bytes. A
/// write of no bytes replaces the number too.
///
/// In Rust, what a value that implements `Hash` writes depends on the machine and on the compiler's
/// version. So use a hasher for maps alone, whose keys no attacker chooses, and `komihash` for what
/// is stored, sent or sharded. A tuple costs a hash for each field, and a text two, so hashers that
/// are made for maps are faster. `Debug` shows the number.
#[derive(Clone, Copy, Debug, PartialEq, Eq, Hash)]
pub struct KomiHasher<const V: u8> {
    number: u64,
}

impl<const V: u8> KomiHasher<V>
where
    Versions: IsVersion<V>,
{
    /// Returns the hasher of a number, which is the seed of its first write.
    ///
    /// ```
    /// use komihash_rattle::v5::{KomiHasher, komihash};
    /// use std::hash::Hasher;
    /// let mut hasher = KomiHasher::new(7);
    /// hasher.write(b"po");
    /// hasher.write(b"rt");
    /// assert_eq!(hasher.finish(), komihash(b"rt", komihash(b"po", 7)));
    /// ```
    #[must_use]
    pub const fn new(seed: u64) -> Self {
        KomiHasher { number: seed }
    }
}

impl<const V: u8> Default for KomiHasher<V>
where
    Versions: IsVersion<V>,
{
    /// Returns the hasher of the number 0.
    fn default() -> Self {
        KomiHasher::new(0)
    }
}

impl<const V: u8> Hasher for KomiHasher<V> {
    /// Returns the number. The hasher is unchanged, and takes further writes.
    fn finish(&self) -> u64 {
        self.number
    }

    /// Replaces the number by the hash of the bytes, with the number as the seed.
    #[cfg_attr(debug_assertions, inline(never))]
    #[cfg_attr(not(debug_assertions), inline)]
    fn write(&mut self, bytes: &[u8]) {
        self.number = hash_message::<V>(bytes, self.number);
    }
}

/// Makes a hasher of version V for each key of a map, from one seed.
///
/// A seed changes the order in which a map iterates. It is no protection against keys that an
/// attacker chooses.
///
/// `Debug` shows the seed.
#[derive(Clone, Copy, Debug, PartialEq, Eq)]
pub struct KomiBuildHasher<const V: u8>
where
    Versions: IsVersion<V>,
{
    seed: u64,
}

impl<const V: u8> KomiBuildHasher<V>
where
    Versions: IsVersion<V>,
{
    /// Returns the `BuildHasher` of a seed.
    ///
    /// ```
    /// use komihash_rattle::v5::KomiBuildHasher;
    /// use std::collections::HashMap;
    /// let mut ports = HashMap::with_hasher(KomiBuildHasher::new(7));
    /// ports.insert("https", 443);
    /// assert_eq!(ports["https"], 443);
    /// ```
    #[must_use]
    pub const fn new(seed: u64) -> Self {
        KomiBuildHasher { seed }
    }
}

impl<const V: u8> Default for KomiBuildHasher<V>
where
    Versions: IsVersion<V>,
{
    /// Returns the `BuildHasher` of seed 0.
    fn default() -> Self {
        KomiBuildHasher::new(0)
    }
}

impl<const V: u8> BuildHasher for KomiBuildHasher<V>
where
    Versions: IsVersion<V>,
{
    type Hasher = KomiHasher<V>;

    /// Returns the hasher of the seed.
    fn build_hasher(&self) -> KomiHasher<V> {
        KomiHasher::new(self.seed)
    }
}
