//! The functions of komihash_rattle.h, by the crate for Rust; with `--cfg rust_crate`, those that
//! the crate `komihash` has, by that one. Each `unsafe` here rests on what that header asks of
//! callers. It asks less than Rust does: what `out` points to may never have been written, and may
//! overlap a stream or an input where a call writes nothing. As verify shows of each library that
//! it reads, no call reads a byte of `out` before it wrote it, and each writes only what the header
//! keeps apart from all else.
#![no_std]
#![allow(improper_ctypes_definitions)] // Callers see streams and generators as arrays of words.
use core::mem::{align_of, size_of};
use core::ptr;
use core::slice::{from_raw_parts, from_raw_parts_mut};

// No call panics, but tests of lengths may stay in the code.
#[panic_handler]
fn panic(_: &core::panic::PanicInfo) -> ! {
    loop {}
}

/// Returns what a pointer and the number after it stand for. If the number is 0, the pointer may be
/// null, which no slice can be.
unsafe fn array<'a, T>(pointer: *const T, count: usize) -> &'a [T] {
    if count == 0 {
        return &[];
    }
    from_raw_parts(pointer, count)
}

/// Returns the same, to be written.
unsafe fn array_mut<'a, T>(pointer: *mut T, count: usize) -> &'a mut [T] {
    if count == 0 {
        return &mut [];
    }
    from_raw_parts_mut(pointer, count)
}

/// Exports functions, each by the end of its name, its arguments and result, and its body. In Rust,
/// all have one name, so each stands in a block of its own.
macro_rules! functions {
    ($name:literal:
        $($end:literal($($argument:ident: $of:ty),*) -> $result:ty = $body:expr;)*) => {
        $(const _: () = {
            #[export_name = concat!($name, $end)]
            unsafe extern "C" fn function($($argument: $of),*) -> $result {
                $body
            }
        };)*
    };
}

macro_rules! export {
    ($($name:literal $version:ident)*) => {
        $(mod $version {
            use super::*;
            use komihash_rattle::$version::{komihash, Komirand, StreamedKomihash};

            // The types of the header, which have eighteen words and two.
            const _: () = assert!(size_of::<StreamedKomihash>() <= 144);
            const _: () = assert!(align_of::<StreamedKomihash>() <= align_of::<u64>());
            const _: () = assert!(size_of::<Komirand>() == 16);
            const _: () = assert!(align_of::<Komirand>() <= align_of::<u64>());

            functions! { $name:
                ""(bytes: *const u8, length: usize, seed: u64) -> u64
                    = komihash(array(bytes, length), seed);
                "_start"(seed: u64) -> StreamedKomihash = StreamedKomihash::new_with_seed(seed);
                "_init"(stream: *mut StreamedKomihash, seed: u64) -> ()
                    = ptr::write(stream, StreamedKomihash::new_with_seed(seed));
                // Here and in `_rand_fill`, which do nothing for no bytes, this test is faster than
                // that of `array`.
                "_write"(stream: &mut StreamedKomihash, bytes: *const u8, length: usize) -> ()
                    = if length > 0 {
                        stream.write(from_raw_parts(bytes, length))
                    };
                "_finish"(stream: &StreamedKomihash) -> u64 = stream.finish();
                "_rand_init"(seed: u64) -> Komirand = Komirand::init(seed);
                "_rand_init_with_extra_seed"(seed: u64, extra_seed: u64) -> Komirand
                    = Komirand::init_with_extra_seed(seed, extra_seed);
                "_rand_init_words"(s1: u64, s2: u64) -> Komirand = Komirand::new(s1, s2);
                "_rand_next"(rand: &mut Komirand) -> u64 = rand.next();
                "_rand_fill"(rand: &mut Komirand, out: *mut u8, length: usize) -> ()
                    = if length > 0 {
                        rand.fill_bytes(from_raw_parts_mut(out, length))
                    };
            }

            #[cfg(not(rust_crate))]
            use komihash_rattle::{stream::LONGEST_TEXT, $version::{pad, unpad}};
            #[cfg(not(rust_crate))]
            const _: () = assert!(LONGEST_TEXT == 131);

            #[cfg(not(rust_crate))]
            functions! { $name:
                "_save"(stream: &StreamedKomihash, out: *mut u8, room: usize) -> usize
                    = if room < LONGEST_TEXT {
                        0
                    } else {
                        stream.save(array_mut(out, LONGEST_TEXT))
                    };
                "_resume"(stream: *mut StreamedKomihash, text: *const u8, length: usize) -> bool
                    = match StreamedKomihash::resume(array(text, length)) {
                        Some(resumed) => {
                            ptr::write(stream, resumed);
                            true
                        }
                        None => false,
                    };
                "_pad"(bytes: *const u8, length: usize, out: *mut u64, room: usize) -> usize
                    = if room <= length / 8 {
                        0
                    } else {
                        pad(array(bytes, length), array_mut(out, length / 8 + 1))
                    };
                "_unpad"(words: *const u64, length: usize, out: *mut u8, room: usize) -> usize
                    = if length > room / 8 {
                        usize::MAX
                    } else {
                        unpad(array(words, length), array_mut(out, 8 * length))
                            .unwrap_or(usize::MAX)
                    };
            }
        })*
    };
}

export!("komihash_v4" v4 "komihash_v5" v5);
