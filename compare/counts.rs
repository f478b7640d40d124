//! Makes calls between two breakpoints each, and prints their names. `counts.py` counts what
//! instructions they take. It needs no standard library, so that it is compiled for any target.
#![no_std]
#![no_main]

use core::ffi::{c_char, c_int};
use core::hint::black_box;

#[link(name = "c")]
unsafe extern "C" {
    fn printf(format: *const c_char, ...) -> c_int;
}

#[panic_handler]
fn panic(_: &core::panic::PanicInfo) -> ! {
    loop {}
}

#[unsafe(no_mangle)]
extern "C" fn rust_eh_personality() {}

/// Prints a line, by the rules of C.
macro_rules! print {
    ($line:literal $(, $number:expr)*) => {
        unsafe { printf(concat!($line, "\n\0").as_ptr().cast() $(, $number as c_int)*) }
    };
}

#[inline(always)]
fn breakpoint() {
    unsafe { core::arch::asm!("int3") }
}

/// Makes a call between breakpoints. The compiler knows neither the function nor the arguments.
#[inline(never)]
fn count<A, B, R>(function: fn(A, B) -> R, first: A, second: B) {
    let (function, first, second) = black_box((function, first, second));
    breakpoint();
    let result = function(first, second);
    breakpoint();
    black_box(&result);
}

/// What is counted of one version.
struct Rows<'a> {
    hashes: &'a [usize],
    streams: &'a [usize],
    writes: &'a [(usize, &'a [usize])],
    answers: &'a [usize],
    fills: &'a [usize],
}

const ALL: Rows = Rows {
    hashes: &[0, 1, 3, 4, 7, 8, 12, 15, 16, 20, 24, 31, 32, 40, 48, 63, 64, 100, 128, 256, 1000],
    streams: &[8, 40, 100],
    writes: &[
        (0, &[0, 1, 8, 40, 63, 64, 1000]),
        (13, &[1, 3, 8, 20, 40, 51, 100, 1000]),
        (32, &[8, 32]),
        (61, &[3, 40]),
    ],
    answers: &[0, 1, 8, 16, 40, 63],
    fills: &[0, 1, 8, 16, 17, 64, 1000],
};
/// Version 4 takes other instructions where a block or a message ends, and for an output.
const FOUR: Rows = Rows {
    hashes: &[1, 8, 16, 40, 100],
    streams: &[],
    writes: &[(13, &[20, 100])],
    answers: &[0, 16, 40],
    fills: &[64],
};

macro_rules! calls {
    ($name:ident, $module:path) => {
        mod $name {
            use super::*;
            use core::hash::{BuildHasher, BuildHasherDefault};
            use version::{KomiHasher, Komirand, StreamedKomihash};
            use $module as version;

            fn hash(bytes: &[u8], seed: u64) -> u64 {
                version::komihash(bytes, seed)
            }
            fn write(stream: &mut StreamedKomihash, bytes: &[u8]) {
                stream.write(bytes)
            }
            fn finish(stream: &StreamedKomihash, _: ()) -> u64 {
                stream.finish()
            }
            fn one_write(bytes: &[u8], seed: u64) -> u64 {
                let mut stream = StreamedKomihash::new_with_seed(seed);
                stream.write(bytes);
                stream.finish()
            }
            fn new_with_seed(seed: u64, _: ()) -> StreamedKomihash {
                StreamedKomihash::new_with_seed(seed)
            }
            fn init(seed: u64, _: ()) -> Komirand {
                Komirand::init(seed)
            }
            fn next(rand: &mut Komirand, _: ()) -> u64 {
                rand.next()
            }
            fn fill(rand: &mut Komirand, out: &mut [u8]) {
                rand.fill_bytes(out)
            }
            fn hash_of_number(key: u64, _: ()) -> u64 {
                BuildHasherDefault::<KomiHasher>::default().hash_one(key)
            }
            fn hash_of_text(key: &str, _: ()) -> u64 {
                BuildHasherDefault::<KomiHasher>::default().hash_one(key)
            }

            /// Returns a stream after a block and pending bytes.
            fn stream_with(pending: usize) -> StreamedKomihash {
                let mut stream = StreamedKomihash::new_with_seed(1);
                stream.write(&[b'a'; 128][..64 + pending]);
                stream
            }

            pub fn count_all(rows: &Rows) {
                let (bytes, mut out) = (&[b'a'; 1000], [0; 1000]);
                for &n in rows.hashes {
                    count(hash, &bytes[..n], 3);
                    print!("hash of length %d", n);
                }
                for &(pending, lengths) in rows.writes {
                    for &n in lengths {
                        count(write, &mut stream_with(pending), &bytes[..n]);
                        print!("write of length %d, %d pending", n, pending);
                    }
                }
                for &pending in rows.answers {
                    count(finish, &stream_with(pending), ());
                    print!("finish, %d pending", pending);
                }
                for &n in rows.streams {
                    count(one_write, &bytes[..n], 3);
                    print!("new, write of length %d, finish", n);
                }
                let mut rand = Komirand::init(3);
                count(next, &mut rand, ());
                print!("next");
                for &n in rows.fills {
                    count(fill, &mut rand, &mut out[..n]);
                    print!("fill of length %d", n);
                }
                if rows.streams.is_empty() {
                    return;
                }
                count(new_with_seed, 3, ());
                print!("new_with_seed");
                count(init, 3, ());
                print!("init");
                count(hash_of_number, 3, ());
                print!("hash_one of a u64");
                count(hash_of_text, "a text", ());
                print!("hash_one of a text of length 6");
            }
        }
    };
}
calls!(ours_5, komihash_rattle::v5);
calls!(ours_4, komihash_rattle::v4);
#[cfg(beside)]
calls!(theirs_5, komihash::v5);
#[cfg(beside)]
calls!(theirs_4, komihash::v4);

#[unsafe(no_mangle)]
extern "C" fn main() -> c_int {
    print!("= ours 5");
    ours_5::count_all(&ALL);
    print!("= ours 4");
    ours_4::count_all(&FOUR);
    #[cfg(beside)]
    {
        print!("= theirs 5");
        theirs_5::count_all(&ALL);
        print!("= theirs 4");
        theirs_4::count_all(&FOUR);
    }
    0
}
