//! Times calls in batches. The columns of a row take turns.
use std::arch::asm;
use std::hint::black_box;
use std::ops::Range;
use std::sync::atomic::{AtomicU64, Ordering::Relaxed};
use std::time::{Duration, Instant};

/// A batch takes half of this time or more. Three must, since an interrupt may make one seem long.
const BATCH: Duration = Duration::from_micros(60);

/// How many numbers are drawn for a column: more than it needs in 250 repeats.
const MANY: usize = 1 << 21;

/// Returns the time of a number of calls.
pub type Column<'a> = Box<dyn FnMut(u32) -> Duration + 'a>;

/// Lets the state of a call begin where a line of the cache does.
#[repr(align(64))]
struct Aligned<F>(F);

/// Makes a column of a call, whose state goes on from batch to batch.
pub fn column<'a, R>(call: impl FnMut() -> R + 'a) -> Column<'a> {
    let mut aligned = Aligned(call);
    Box::new(move |count| {
        let (Aligned(call), start) = (&mut aligned, Instant::now());
        for _ in 0..count {
            black_box(call());
        }
        start.elapsed()
    })
}

/// Returns the same value, of at most two words, of which the compiler then knows nothing. So what
/// it inlines can't be computed once for all calls, or without tests.
#[inline(always)]
pub fn hide<T: Copy>(value: T) -> T {
    const { assert!(size_of::<T>() <= 16) };
    let mut words = [0_u64; 2];
    // SAFETY: the value fits in the words, which are read as they were written.
    unsafe {
        (&raw mut words).cast::<T>().write(value);
        asm!("/* {} {} */", inout(reg) words[0], inout(reg) words[1], options(nostack));
        (&raw const words).cast::<T>().read()
    }
}

/// Lengths with the name of their rows.
pub struct Lengths {
    pub name: String,
    pub range: Range<usize>,
}

impl Lengths {
    pub fn one(length: usize) -> Self {
        let name = match length.trailing_zeros() {
            20.. => format!("{} MiB", length >> 20),
            10.. => format!("{} KiB", length >> 10),
            _ => format!("{length} byte{}", if length == 1 { "" } else { "s" }),
        };
        Lengths { name, range: length..length + 1 }
    }

    pub fn random(range: Range<usize>) -> Self {
        let name = format!("{} to {} bytes, random lengths", range.start, range.end - 1);
        Lengths { name, range }
    }

    /// Returns what returns hidden messages of these lengths in turn. Each begins where the one
    /// before ended, in a window whose size is a power of two.
    pub fn messages<'a>(&self, bytes: &'a [u8], window: usize) -> impl FnMut() -> &'a [u8] {
        let (mut length, mut start) = (in_turn(&self.range), 0);
        move || {
            let end = start + length();
            let message = &bytes[start..end];
            start = end & (window - 1);
            hide(message)
        }
    }
}

/// Draws numbers, and returns what returns them in turn. None draws what another one has, because
/// the branch predictor may know what another column has just met.
pub fn in_turn(range: &Range<usize>) -> impl FnMut() -> usize + use<> {
    static SEED: AtomicU64 = AtomicU64::new(0);
    let mut random = Random(SEED.fetch_add(1, Relaxed));
    let many = if range.len() > 1 { MANY } else { 1 };
    let list: Vec<_> = (0..many).map(|_| random.within(range) as u32).collect();
    let mut turn = 0;
    move || {
        turn += 1;
        list[turn & (list.len() - 1)] as usize
    }
}

/// The generator SplitMix64.
pub struct Random(pub u64);

impl Random {
    pub fn word(&mut self) -> u64 {
        self.0 = self.0.wrapping_add(0x9e37_79b9_7f4a_7c15);
        let mut word = self.0;
        word = (word ^ word >> 30).wrapping_mul(0xbf58_476d_1ce4_e5b9);
        word = (word ^ word >> 27).wrapping_mul(0x94d0_49bb_1331_11eb);
        word ^ word >> 31
    }

    fn within(&mut self, range: &Range<usize>) -> usize {
        range.start + (u128::from(self.word()) * range.len() as u128 >> 64) as usize
    }
}

pub struct Rows {
    repeats: usize,
    word: String,
    /// More than 1 MiB, which begins where a block of 64 bytes does.
    pub bytes: &'static [u8],
}

impl Rows {
    /// Takes the number of repeats and a word, which chooses the rows, and prints the heads.
    pub fn under(heads: &str) -> Self {
        let [repeats, word] = [1, 2].map(|at| std::env::args().nth(at).expect("REPEATS WORD"));
        println!("nanoseconds\t{heads}");
        let mut random = Random(0);
        let bytes =
            (0..(1 << 20) + (1 << 13)).map(|_| random.word() as u8).collect::<Vec<_>>().leak();
        let repeats = repeats.parse().expect("a number");
        Rows { repeats, word, bytes: &bytes[bytes.as_ptr().align_offset(64)..] }
    }

    /// Times batches of a row in all columns in turn, and prints the least times.
    pub fn row<'a>(&self, name: &str, columns: impl FnOnce() -> Vec<Column<'a>>) {
        if !name.contains(&self.word) {
            return;
        }
        let mut columns = columns();
        let mut count = 1;
        while (0..3).any(|_| columns.iter_mut().map(|time| time(count)).min() < Some(BATCH / 2)) {
            count *= 2;
        }
        let mut least = vec![Duration::MAX; columns.len()];
        for _ in 0..self.repeats {
            for (time, least) in columns.iter_mut().zip(&mut least) {
                *least = time(count).min(*least);
            }
        }
        print!("{name}");
        for least in least {
            print!("\t{:.3}", least.as_nanos() as f64 / f64::from(count));
        }
        println!();
    }
}
