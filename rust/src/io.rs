//! Streams as writers, with the feature `std`.
extern crate std;

use crate::version::{IsVersion, StreamedKomihash, Versions};
use std::io::{Result, Write};

/// Needs the feature `std`, which any crate of a program may turn on. As a stream has its own
/// `write`, use `write_all` for a result. With `std::fmt::Write` in scope too, `write!` is
/// ambiguous: call `io::Write::write_fmt`.
///
/// ```
/// use komihash_rattle::{StreamedKomihash, komihash};
/// let mut stream = StreamedKomihash::new();
/// std::io::copy(&mut std::fs::File::open("Cargo.toml")?, &mut stream)?;
/// assert_eq!(stream.finish(), komihash(&std::fs::read("Cargo.toml")?, 0));
/// # Ok::<(), std::io::Error>(())
/// ```
#[cfg_attr(docsrs, doc(cfg(feature = "std")))]
impl<const V: u8> Write for StreamedKomihash<V>
where
    Versions: IsVersion<V>,
{
    /// Absorbs all of the bytes, and never fails.
    fn write(&mut self, bytes: &[u8]) -> Result<usize> {
        StreamedKomihash::write(self, bytes);
        Ok(bytes.len())
    }

    /// Does nothing, because nothing waits to be absorbed.
    fn flush(&mut self) -> Result<()> {
        Ok(())
    }
}
