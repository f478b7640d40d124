//! The types and functions of both versions, for code that is generic over the version. For one
//! version, take those of [`v4`](crate::v4) or [`v5`](crate::v5).
//!
//! ```
//! use komihash_rattle::version::{IsVersion, Versions, komihash};
//! fn shard_of<const V: u8>(key: &[u8], shards: u64) -> u64
//! where
//!     Versions: IsVersion<V>,
//! {
//!     komihash::<V>(key, 0) % shards
//! }
//! assert_eq!(shard_of::<5>(b"port", 8), komihash_rattle::v5::komihash(b"port", 0) % 8);
//! ```
//!
//! A version that is known only at run time takes a `match`:
//!
//! ```
//! use komihash_rattle::{v4, v5};
//! fn hash(version: u8, message: &[u8]) -> Option<u64> {
//!     match version {
//!         4 => Some(v4::komihash(message, 0)),
//!         5 => Some(v5::komihash(message, 0)),
//!         _ => None,
//!     }
//! }
//! assert_eq!(hash(6, b"port"), None);
//! ```
//!
//! No other version has a type:
//!
//! ```compile_fail,E0277
//! komihash_rattle::version::KomiHasher::<6>::new(0);
//! ```
//!
//! ```compile_fail,E0277
//! komihash_rattle::version::KomiHasher::<3>::new(0);
//! ```

pub use crate::generator::Komirand;
pub use crate::hash::komihash;
pub use crate::hasher::{KomiBuildHasher, KomiHasher};
pub use crate::padding::{pad, unpad};
pub use crate::stream::streamed::StreamedKomihash;

/// Says that V is the number of a version.
#[diagnostic::on_unimplemented(
    message = "`{V}` is not known to be a version of komihash, 4 or 5",
    note = "generic code needs `where Versions: IsVersion<V>`"
)]
pub trait IsVersion<const V: u8> {}

/// Has an impl of `IsVersion` for each version.
#[derive(Debug)]
pub enum Versions {}

impl IsVersion<4> for Versions {}

impl IsVersion<5> for Versions {}

// Callers share the functions that were compiled with this crate, unless they are inlined, and in
// debug builds, these are fast if cargo optimizes dependencies. With a public function that isn't
// generic, all that it calls is compiled. Linkers leave out what a program doesn't call.
#[cfg(not(for_c))]
impl Versions {
    #[doc(hidden)]
    pub fn __compiled(bytes: &mut [u8], words: &mut [u64]) {
        call_all::<4>(bytes, words);
        call_all::<5>(bytes, words);
    }
}

#[cfg(not(for_c))]
fn call_all<const V: u8>(bytes: &mut [u8], words: &mut [u64])
where
    Versions: IsVersion<V>,
{
    use core::hash::Hasher;

    let mut stream = StreamedKomihash::<V>::new();
    stream.write(bytes);
    let _ = (stream.save(bytes), StreamedKomihash::<V>::resume(bytes));
    let mut hasher = KomiHasher::<V>::new(stream.finish());
    hasher.write(bytes);
    let mut generator = Komirand::<V>::init(hasher.finish());
    generator.next();
    generator.fill_bytes(bytes);
    let _ = (pad::<V>(bytes, words), unpad::<V>(words, bytes), komihash::<V>(bytes, 0));
}
