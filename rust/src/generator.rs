// Made by rust/erase.py of crates/komihash/src, where changes belong.
//! The pseudorandom generator of both versions.

use crate::utils::{multiply128, write_partial_word, write_word};
use crate::version::{IsVersion, Versions};

/// A pseudorandom generator, which is not cryptographic.
///
/// The output of a step is the new first word. In one version, the same pair always gives the same
/// outputs.
///
/// If low and high are the halves of the words' product, the new second word is
/// `s2 + high + 0xaaaaaaaaaaaaaaaa`. The new first word is the exclusive or of low and that word
/// in version 4, and `(low ^ high) + 0x5555555555555555` in version 5. These sums wrap around.
/// In Rust, `Debug` shows both words. Nothing is claimed of how random its outputs are.
#[repr(C)]
#[derive(Clone, Debug, PartialEq, Eq)]
pub struct Komirand<const V: u8>
where
    Versions: IsVersion<V>,
{
    s1: u64,
    s2: u64,
}

impl<const V: u8> Komirand<V>
where
    Versions: IsVersion<V>,
{
    /// Returns the generator of a pair of words, without a step.
    ///
    /// Any words are allowed. The first outputs of small ones are simple patterns: in version 5,
    /// that of zeros is 0x5555555555555555. `init_with_extra_seed` takes four steps to get past
    /// them.
    ///
    /// ```
    /// use komihash_rattle::v5::Komirand;
    /// const START: Komirand = Komirand::new(0, 0);
    /// assert_eq!(START.clone().next(), 0x5555555555555555);
    /// ```
    #[must_use]
    pub const fn new(s1: u64, s2: u64) -> Self {
        Komirand { s1, s2 }
    }

    /// Returns the generator that has the seed as both words, after four steps.
    ///
    /// ```
    /// use komihash_rattle::v5::Komirand;
    /// let (mut one, mut other) = (Komirand::init(1), Komirand::init_with_extra_seed(1, 1));
    /// assert_eq!(one.next(), other.next());
    /// ```
    #[cfg_attr(debug_assertions, inline(never))]
    #[must_use]
    pub const fn init(seed: u64) -> Self {
        Komirand::init_with_extra_seed(seed, seed)
    }

    /// Returns the generator of two seeds after four steps.
    ///
    /// ```
    /// use komihash_rattle::v5::Komirand;
    /// let (mut one, mut other) = (Komirand::init(1), Komirand::init_with_extra_seed(1, 2));
    /// assert_ne!(one.next(), other.next());
    /// ```
    #[cfg_attr(debug_assertions, inline(never))]
    #[must_use]
    pub const fn init_with_extra_seed(s1: u64, s2: u64) -> Self {
        // In Rust, this is `const`, so it has no `for`.
        let mut generator = Komirand::new(s1, s2);
        generator.next();
        generator.next();
        generator.next();
        generator.next();
        generator
    }

    /// Returns the pair of words, from which `new` makes the same generator.
    ///
    /// ```
    /// use komihash_rattle::v5::Komirand;
    /// let mut generator = Komirand::init(7);
    /// let (s1, s2) = generator.words();
    /// let mut restored = Komirand::new(s1, s2);
    /// assert_eq!([restored.next(), restored.next()], [generator.next(), generator.next()]);
    /// ```
    #[inline(always)]
    #[must_use]
    pub const fn words(&self) -> (u64, u64) {
        (self.s1, self.s2)
    }

    /// Takes one step, and returns its output.
    ///
    /// ```
    /// use komihash_rattle::v5::Komirand;
    /// let mut generator = Komirand::init(7);
    /// let throw = 1 + ((u128::from(generator.next()) * 6) >> 64);
    /// assert!((1..=6).contains(&throw));
    /// ```
    #[allow(clippy::should_implement_trait)]
    #[cfg_attr(debug_assertions, inline(never))]
    pub const fn next(&mut self) -> u64 {
        self.step()
    }

    // Takes one step, and returns its output. In Rust, debug builds don't inline `next`.
    #[inline(always)]
    const fn step(&mut self) -> u64 {
        let (low, high) = multiply128(self.s1, self.s2);
        let sum = self.s2.wrapping_add(high);
        let s2 = sum.wrapping_add(0xaaaa_aaaa_aaaa_aaaa);
        self.s1 = if V == 4 { low ^ s2 } else { (low ^ high).wrapping_add(0x5555_5555_5555_5555) };
        self.s2 = s2;
        self.s1
    }

    /// Fills the buffer with the bytes of the next outputs, the lowest byte of each first.
    ///
    /// Takes one step for each eight bytes, and one more for a remainder, which gets the lowest
    /// bytes of its output; its other bytes are dropped. Takes no step if the buffer is empty.
    ///
    /// ```
    /// use komihash_rattle::v5::Komirand;
    /// let mut generator = Komirand::init(1);
    /// let (first, second) = (generator.next(), generator.next());
    /// let mut bytes = [0; 11];
    /// Komirand::init(1).fill_bytes(&mut bytes);
    /// assert_eq!(bytes[..8], first.to_le_bytes());
    /// assert_eq!(bytes[8..], second.to_le_bytes()[..3]);
    /// ```
    #[cfg_attr(debug_assertions, inline(never))]
    pub fn fill_bytes(&mut self, buffer: &mut [u8]) {
        // A copy stays in registers, also from the last whole word to the remainder.
        let mut generator = Komirand::new(self.s1, self.s2);
        let whole = buffer.len() / 8;
        for i in 0..whole {
            let word = generator.step();
            write_word(word, &mut buffer[8 * i..8 * i + 8]);
        }
        if buffer.len() % 8 > 0 {
            let output = generator.step();
            write_partial_word(output, &mut buffer[8 * whole..]);
        }
        *self = generator;
    }
}
