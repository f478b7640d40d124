//! Traits that only Rust has.

use crate::stream::Call;
use crate::version::{IsVersion, KomiBuildHasher, KomiHasher, StreamedKomihash, Versions};
use core::{fmt, hash};

impl fmt::Debug for Call<'_> {
    /// Shows how many bytes are absorbed, and none of them.
    fn fmt(&self, f: &mut fmt::Formatter<'_>) -> fmt::Result {
        match self {
            Call::Absorb(bytes) => write!(f, "Absorb({} bytes)", bytes.len()),
            Call::Answer => f.write_str("Answer"),
        }
    }
}

impl<const V: u8> fmt::Debug for StreamedKomihash<V>
where
    Versions: IsVersion<V>,
{
    /// Shows no byte of the message.
    fn fmt(&self, f: &mut fmt::Formatter<'_>) -> fmt::Result {
        f.debug_struct("StreamedKomihash").finish_non_exhaustive()
    }
}

/// Writes are joined, whereas a [`KomiHasher`] hashes each by itself. What a value writes depends
/// on the machine and on Rust's version, so don't store or send such hashes. With [`fmt::Write`] in
/// scope too, call `fmt::Write::write_str` by this name, since hashers may get a `write_str`.
///
/// ```
/// use komihash_rattle::{StreamedKomihash, komihash};
/// use std::hash::Hash;
/// let mut stream = StreamedKomihash::new();
/// (b'p', b'o', b'r', b't').hash(&mut stream);
/// assert_eq!(stream.finish(), komihash(b"port", 0));
/// ```
impl<const V: u8> hash::Hasher for StreamedKomihash<V>
where
    Versions: IsVersion<V>,
{
    fn write(&mut self, bytes: &[u8]) {
        StreamedKomihash::write(self, bytes);
    }

    fn finish(&self) -> u64 {
        StreamedKomihash::finish(self)
    }
}

/// With `std::io::Write` in scope too, `write!` is ambiguous if any crate of the program turns on the
/// feature `std`: call `fmt::Write::write_fmt`.
///
/// ```
/// use komihash_rattle::{StreamedKomihash, komihash};
/// let mut stream = StreamedKomihash::new();
/// std::fmt::Write::write_fmt(&mut stream, format_args!("{}:{}", "port", 443)).unwrap();
/// assert_eq!(stream.finish(), komihash(b"port:443", 0));
/// ```
impl<const V: u8> fmt::Write for StreamedKomihash<V>
where
    Versions: IsVersion<V>,
{
    /// Absorbs the text, and never fails.
    fn write_str(&mut self, text: &str) -> fmt::Result {
        StreamedKomihash::write(self, text.as_bytes());
        Ok(())
    }
}

macro_rules! from_seed {
    ($($name:ident),*) => {$(
        impl<const V: u8> From<u64> for $name<V> where Versions: IsVersion<V> {
            /// Does what `new` does.
            fn from(seed: u64) -> Self {
                $name::new(seed)
            }
        }
    )*};
}
from_seed!(KomiHasher, KomiBuildHasher);
