// Made by rust/erase.py of crates/komihash/src, where changes belong.
//! The trait of streams, and runs of calls on one.

pub use saved::LONGEST_TEXT;

mod saved;
pub(crate) mod streamed;

/// A stream of either version, for generic code.
///
/// `start`, `absorb`, `answer`, `store` and `restore` do what `new_with_seed`, `write`, `finish`,
/// `save` and `resume` of `StreamedKomihash` do. They have other names, so that a name tells
/// whether a call is the trait's or the type's. Streams of your own type may implement the trait.
/// In Rust, code that serves no other streams can take
/// [`StreamedKomihash<V>`](crate::version::StreamedKomihash).
///
/// In Rust, nothing checks that an implementation keeps three laws: `answer` is the hash of version
/// `VERSION` with the seed, of the bytes so far, however cut; `restore` of what `store` wrote gives
/// a stream with the same answers, also to later bytes; and `store` writes at most
/// [`LONGEST_TEXT`] bytes, and changes no others.
///
/// In Rust, generic code looks like this:
///
/// ```
/// use komihash_rattle::stream::KomiStream;
/// use komihash_rattle::{v4, v5};
/// fn hash_of_pieces<S: KomiStream>(pieces: &[&[u8]]) -> u64 {
///     let mut stream = S::start(0);
///     for piece in pieces {
///         stream.absorb(piece);
///     }
///     stream.answer()
/// }
/// let four = hash_of_pieces::<v4::StreamedKomihash>(&[b"p", b"ort"]);
/// assert_eq!(four, v4::komihash(b"port", 0));
/// let five = hash_of_pieces::<v5::StreamedKomihash>(&[b"p", b"ort"]);
/// assert_eq!(five, v5::komihash(b"port", 0));
/// ```
///
/// A stream of your own may count what another one absorbs:
///
/// ```
/// use komihash_rattle::stream::KomiStream;
/// struct Counted<S>(S, u64);
/// impl<S: KomiStream> KomiStream for Counted<S> {
///     const VERSION: u8 = S::VERSION;
///     fn start(seed: u64) -> Self {
///         Counted(S::start(seed), 0)
///     }
///     fn absorb(&mut self, bytes: &[u8]) {
///         self.1 += bytes.len() as u64;
///         self.0.absorb(bytes);
///     }
///     fn answer(&self) -> u64 {
///         self.0.answer()
///     }
///     fn store(&self, out: &mut [u8]) -> usize {
///         self.0.store(out)
///     }
///     fn restore(bytes: &[u8]) -> Option<Self> {
///         Some(Counted(S::restore(bytes)?, 0))
///     }
/// }
/// ```
pub trait KomiStream: Sized {
    /// The version: 4 or 5.
    const VERSION: u8;

    /// Returns the new stream of a seed.
    #[must_use]
    fn start(seed: u64) -> Self;

    /// Absorbs bytes.
    fn absorb(&mut self, bytes: &[u8]);

    /// Returns the hash of all bytes so far. The stream is unchanged.
    #[must_use]
    fn answer(&self) -> u64;

    /// Writes the saved text of the stream to the front of `out`, and returns the text's length in
    /// bytes. The rest of `out` is unchanged.
    ///
    /// `out` needs room for `LONGEST_TEXT` bytes, whatever is pending.
    ///
    /// # Panics
    ///
    /// If `out.len()` is less than `LONGEST_TEXT`.
    ///
    /// ```
    /// use komihash_rattle::stream::{KomiStream, LONGEST_TEXT};
    /// fn copy<S: KomiStream>(stream: &S) -> S {
    ///     let mut text = [0; LONGEST_TEXT];
    ///     let length = stream.store(&mut text);
    ///     S::restore(&text[..length]).unwrap()
    /// }
    /// assert_eq!(copy(&komihash_rattle::StreamedKomihash::start(7)).answer(),
    ///     komihash_rattle::komihash(b"", 7));
    /// ```
    #[track_caller]
    #[must_use]
    fn store(&self, out: &mut [u8]) -> usize;

    /// Returns the stream that has these bytes as its saved text, or `None` if they don't have the
    /// form of one in this version. There is no checksum: most damaged texts have this form.
    #[must_use]
    fn restore(bytes: &[u8]) -> Option<Self>;
}

/// One call on a stream, for `run_on` and `run`, which take lists of calls as data: from a test
/// that makes them at random, or from a recording.
#[derive(Clone, Copy, PartialEq, Eq)]
pub enum Call<'a> {
    /// Absorbs these bytes.
    Absorb(&'a [u8]),

    /// Answers the hash of all bytes so far.
    Answer,
}

/// Makes calls on a stream, in order, writes the answers to the front of `out`, and returns how
/// many there are. The rest of `out` is unchanged.
///
/// `out` needs room for one `u64` for each call. Afterwards the stream has absorbed all bytes of
/// the calls. If it had absorbed a message before, each answer is the hash of that message and the
/// bytes since, joined, unless it was resumed from a damaged text.
///
/// # Panics
///
/// If `out.len()` is less than `calls.len()`.
///
/// ```
/// use komihash_rattle::stream::{Call, run_on};
/// use komihash_rattle::{StreamedKomihash, komihash};
/// let mut stream = StreamedKomihash::new_with_seed(7);
/// stream.write(b"po");
/// let mut answers = [0; 2];
/// let calls = [Call::Absorb(b"rt"), Call::Answer];
/// assert_eq!(run_on(&mut stream, &calls, &mut answers), 1);
/// assert_eq!(answers[0], komihash(b"port", 7));
/// ```
#[track_caller]
pub fn run_on<S: KomiStream>(stream: &mut S, calls: &[Call<'_>], out: &mut [u64]) -> usize {
    assert!(
        calls.len() <= out.len(),
        "the length of `out` is {}, and must be at least {}",
        out.len(),
        calls.len()
    );
    let mut count = 0;
    for call in calls {
        match *call {
            Call::Absorb(bytes) => stream.absorb(bytes),
            Call::Answer => {
                out[count] = stream.answer();
                count += 1;
            }
        }
    }
    count
}

/// Makes calls on a new stream of a seed, in order, writes the answers to the front of `out`, and
/// returns how many there are. The rest of `out` is unchanged.
///
/// `out` needs room for one `u64` for each call. Each answer is the hash of all bytes that the
/// calls before it absorb, joined.
///
/// # Panics
///
/// If `out.len()` is less than `calls.len()`.
///
/// ```
/// use komihash_rattle::stream::{Call, run};
/// use komihash_rattle::{StreamedKomihash, komihash};
/// let calls = [Call::Absorb(b"po"), Call::Answer, Call::Absorb(b"rt"), Call::Answer];
/// let mut answers = [0; 4];
/// assert_eq!(run::<StreamedKomihash>(7, &calls, &mut answers), 2);
/// assert_eq!(answers[..2], [komihash(b"po", 7), komihash(b"port", 7)]);
/// ```
#[track_caller]
pub fn run<S: KomiStream>(seed: u64, calls: &[Call<'_>], out: &mut [u64]) -> usize {
    let mut stream = S::start(seed);
    run_on(&mut stream, calls, out)
}
