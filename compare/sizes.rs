//! Makes one call or several, of which `counts.py` measures how many bytes they take.
#![no_std]

#[cfg(of_the_other)]
use komihash::{StreamedKomihash, komihash};
#[cfg(not(of_the_other))]
use komihash_rattle::{StreamedKomihash, komihash};

#[panic_handler]
fn panic(_: &core::panic::PanicInfo) -> ! {
    loop {}
}

#[unsafe(no_mangle)]
extern "C" fn nothing() {}

/// Has two functions, of which the second makes the first one's call once more.
macro_rules! call {
    ($once:ident, $twice:ident, ($($name:ident: $type:ty),*), $call:expr) => {
        #[unsafe(no_mangle)]
        fn $once($($name: $type),*) -> u64 {
            $call($($name),*)
        }
        #[unsafe(no_mangle)]
        fn $twice(again: ($($type,)*), $($name: $type),*) -> u64 {
            let first = $call($($name),*);
            let ($($name,)*) = again;
            first ^ $call($($name),*)
        }
    };
}
call!(hash, hash_again, (bytes: &[u8]), |bytes| komihash(bytes, 0));
call!(seeded, seeded_again, (bytes: &[u8], seed: u64), komihash);
call!(stream, stream_again, (front: &[u8], back: &[u8]), |front, back| {
    let mut stream = StreamedKomihash::new();
    stream.write(front);
    stream.write(back);
    stream.finish()
});
