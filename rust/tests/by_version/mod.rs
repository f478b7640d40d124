//! Calls each function of a version: by rows of the tables of the library for C, for each cut of a
//! message, and where a call must panic.

use crate::by_name::{bytes, calls, hexadecimal, number, row, word};
use crate::version::*;
use crate::{NUMBER, SUM};
use komihash_rattle::stream::{Call, KomiStream, LONGEST_TEXT, run, run_on};
use std::hash::{BuildHasher, BuildHasherDefault, Hash, Hasher};
use std::panic::{AssertUnwindSafe, catch_unwind, set_hook, take_hook};
use std::sync::{Mutex, PoisonError};
use std::thread::current;

const SEED: u64 = 0xfedc_ba98_7654_3210;
const TABLES: [&str; 2] = [include_str!("../vectors.tsv"), include_str!("../values.tsv")];

/// Returns the value of a call that `komihash` lacks.
fn added(call: &str, given: &[&str]) -> String {
    match (call, given) {
        ("save", [seed, message]) => {
            let mut stream = StreamedKomihash::new_with_seed(number(seed));
            stream.write(&bytes(message));
            let mut out = [0; LONGEST_TEXT];
            let length = stream.save(&mut out);
            hexadecimal(&out[..length])
        }
        ("resume", [text]) => StreamedKomihash::resume(&bytes(text))
            .map_or("none".to_string(), |it| word(it.finish())),
        ("unpad", words) => {
            let words: Vec<_> = words.iter().map(|word| number(word)).collect();
            let mut out = vec![0; 8 * words.len()];
            unpad(&words, &mut out).map_or("none".to_string(), |length| hexadecimal(&out[..length]))
        }
        _ => panic!("an unknown call {call}"),
    }
}

#[test]
fn values_of_the_tables() {
    let calls = calls!(crate::version);
    let rows = TABLES.iter().flat_map(|table| table.lines()).filter_map(row);
    let rows: Vec<_> = rows.filter(|row| row.0 == NUMBER).collect();
    assert!(rows.len() > 70);
    for (_, call, given, value) in rows {
        let result = calls(call, &given).unwrap_or_else(|| added(call, &given));
        assert_eq!(result, value, "{call} {given:?}");
        if let ("komihash", [seed, message]) = (call, &given[..]) {
            let bytes = (0..message.len()).step_by(2).map(|at| &message[at..at + 2]);
            let given: Vec<_> = [*seed, ""].into_iter().chain(bytes).collect();
            assert!(calls("stream", &given).unwrap().ends_with(value));
        }
    }
}

/// Cuts a message into two writes, between which the stream is copied, and saved.
#[test]
fn streams_of_two_writes() {
    // The bytes fall, so that in version 4 a high byte ends the first block alone.
    let message: Vec<u8> = (0..200).rev().collect();
    for (length, cut) in (0..=200).flat_map(|it| (0..=it).map(move |cut| (it, cut))) {
        let (mut stream, mut out) = (StreamedKomihash::new_with_seed(SEED), [0xa5; 132]);
        stream.write(&message[..cut]);
        assert_eq!(stream.finish(), komihash(&message[..cut], SEED));
        let save = [StreamedKomihash::save, StreamedKomihash::store][cut % 2];
        let saved = save(&stream, &mut out);
        assert!(out[saved..].iter().all(|byte| *byte == 0xa5));
        let resumed = StreamedKomihash::resume(&out[..saved]).unwrap();
        let mut whole = StreamedKomihash::new_with_seed(SEED);
        whole.write(&message[..length]);
        for mut stream in [stream.clone(), resumed, stream] {
            stream.write(&message[cut..length]);
            assert!(stream == whole);
            assert_eq!(stream.finish(), komihash(&message[..length], SEED));
        }
    }
}

/// Compares a sum of hashes of many lengths with that of the crate `komihash`.
#[test]
fn many_lengths() {
    let mut message = vec![0; 100_000];
    Komirand::new(1, 2).fill_bytes(&mut message);
    let hashes = (0..=300).chain([100_000]).map(|it| komihash(&message[..it], SEED));
    assert_eq!(hashes.fold(0u64, |sum, hash| sum.rotate_left(1) ^ hash), SUM);
}

#[test]
fn padded_words() {
    // In version 4, a padding byte may follow a high byte in each half of a word.
    let message: Vec<u8> = (52..=251).collect();
    for length in 0..=200 {
        let mut words = vec![7; length / 8 + 2];
        let count = pad(&message[..length], &mut words);
        assert_eq!((count, words.pop()), (words.len(), Some(7)));
        let mut out = vec![7; 8 * count + 1];
        assert_eq!(unpad(&words, &mut out), Some(length));
        assert_eq!(out[..length], message[..length]);
        assert!(out[length..].iter().all(|byte| *byte == 7));
        words.push(0);
        out.resize(8 * words.len(), 7);
        let before = out.clone();
        assert_eq!((unpad(&words, &mut out), out), (None, before));
    }
}

#[test]
fn fills_are_outputs() {
    const START: Komirand = Komirand::new(1, SEED);
    const WORDS: (u64, u64) = START.words();
    assert_eq!(WORDS, (1, SEED));
    const OUTPUT: u64 = Komirand::init(1).next();
    assert_eq!(OUTPUT, Komirand::init_with_extra_seed(1, 1).next());
    for length in 0..40 {
        let (mut filled, mut stepped, mut bytes) = (START, START, vec![0; length]);
        filled.fill_bytes(&mut bytes);
        for part in bytes.chunks(8) {
            assert_eq!(*part, stepped.next().to_le_bytes()[..part.len()]);
        }
        assert_eq!(filled.next(), stepped.next());
    }
}

/// Notes the bytes of each call, and answers how many there were.
struct Recorder(Vec<String>);

impl KomiStream for Recorder {
    const VERSION: u8 = 5;

    fn start(seed: u64) -> Self {
        Recorder(vec![seed.to_string()])
    }

    fn absorb(&mut self, bytes: &[u8]) {
        self.0.push(hexadecimal(bytes));
    }

    fn answer(&self) -> u64 {
        self.0.len() as u64
    }

    fn store(&self, out: &mut [u8]) -> usize {
        panic!("the length of `out` is {}, and must be at least 9", out.len())
    }

    fn restore(_: &[u8]) -> Option<Self> {
        unreachable!()
    }
}

#[test]
fn each_call_of_a_list_is_made_once() {
    let calls = [&[Call::Absorb(b""), Call::Answer][..]; 9].concat();
    let (mut stream, mut out) = (Recorder::start(7), [0; 18]);
    assert_eq!(run_on(&mut stream, &calls, &mut out), 9);
    assert_eq!(out[..9], [2, 3, 4, 5, 6, 7, 8, 9, 10]);
    assert_eq!(run_on(&mut stream, &[Call::Absorb(b"port")], &mut out), 0);
    assert_eq!([&stream.0[0], &stream.0[10]], ["7", "706f7274"]);
    assert_eq!((run::<Recorder>(7, &calls, &mut out), out[8]), (9, 10));
    let refused = catch_unwind(AssertUnwindSafe(|| run_on(&mut stream, &calls, &mut out[..1])));
    assert!(refused.is_err() && stream.0.len() == 11);
}

#[test]
fn lists_of_calls() {
    let message: Vec<u8> = (0..200).collect();
    let lengths = [0, 7, 64, 200, 1, 130];
    let calls = lengths.map(|it| [Call::Answer, Call::Absorb(&message[..it])]).concat();
    let (mut stream, mut out) = (StreamedKomihash::start(SEED), [7; 13]);
    stream.absorb(&message[..64]);
    assert_eq!(run_on(&mut stream, &calls, &mut out), 6);
    assert_eq!(out[6..], [7; 7]);
    let mut joined = message[..64].to_vec();
    for (answer, length) in out.iter().zip(lengths) {
        assert_eq!(*answer, komihash(&joined, SEED));
        joined.extend(&message[..length]);
    }
    let all = [&[Call::Answer, Call::Absorb(&message[..64])], &calls[..]].concat();
    let mut of_new = [7; 14];
    assert_eq!(run::<StreamedKomihash>(SEED, &all, &mut of_new), 7);
    assert_eq!((of_new[0], &of_new[1..]), (komihash(b"", SEED), &out[..]));
    assert_eq!(StreamedKomihash::VERSION.to_string(), NUMBER);
    out.fill(7);
    assert_eq!(run_on(&mut stream, &[Call::Absorb(b"more")], &mut out), 0);
    assert_eq!(out, [7; 13]);
    joined.extend(b"more");
    assert_eq!(stream.answer(), komihash(&joined, SEED));
}

#[test]
fn streams_are_hashers_and_writers_of_text() {
    let streams = BuildHasherDefault::<StreamedKomihash>::default();
    assert_eq!(streams.hash_one((7_u8, 8_u8)), komihash(&[7, 8], 0));
    let mut stream = StreamedKomihash::new();
    std::fmt::Write::write_fmt(&mut stream, format_args!("{}:{}", "port", 443)).unwrap();
    assert_eq!(stream.finish(), komihash(b"port:443", 0));
}

#[test]
fn hashers_of_a_seed() {
    const SEEDED: (KomiHasher, KomiBuildHasher) =
        (KomiHasher::new(SEED), KomiBuildHasher::new(SEED));
    let (mut hasher, build) = SEEDED;
    let _: KomiHasher = build.build_hasher();
    assert_eq!((hasher.finish(), build.build_hasher().finish()), (SEED, SEED));
    hasher.write(b"port");
    assert_eq!(hasher.finish(), komihash(b"port", SEED));
    let defaults = (KomiHasher::default(), KomiBuildHasher::default().build_hasher());
    assert_eq!((defaults.0.finish(), defaults.1.finish()), (0, 0));
    let hash = build.hash_one((9_u64, 8_u16));
    assert_eq!(hash, komihash(&8_u16.to_ne_bytes(), build.hash_one(9_u64)));
    assert_eq!(build.hash_one(9_u64), komihash(&9_u64.to_ne_bytes(), SEED));
}

/// Compares with a hasher that has no more than the trait asks for.
#[test]
fn hashers_of_values() {
    struct Plain(u64);
    impl Hasher for Plain {
        fn finish(&self) -> u64 {
            self.0
        }
        fn write(&mut self, bytes: &[u8]) {
            self.0 = komihash(bytes, self.0);
        }
    }
    let signed = (-1_i8, -2_i16, -3_i32, -4_i64, -5_i128, -6_isize);
    let value = (1_u8, 2_u16, 3_u32, 4_u64, 5_u128, 6_usize, signed, 'x', "text");
    let mut plain = Plain(SEED);
    value.hash(&mut plain);
    assert_eq!(KomiBuildHasher::new(SEED).hash_one(value), plain.finish());
}

/// Whether a type has no impl of a trait: an impl hides the constant of the trait `Otherwise`.
macro_rules! lacks {
    ($type:ty: $trait:path) => {{
        #[allow(dead_code)]
        trait Otherwise {
            const LACKS: bool = true;
        }
        struct Probe<T>(T);
        impl<T> Otherwise for Probe<T> {}
        #[allow(dead_code)]
        impl<T: $trait> Probe<T> {
            const LACKS: bool = false;
        }
        Probe::<$type>::LACKS
    }};
}

#[test]
fn streams_are_equal_in_equal_states() {
    let streamed = |pieces: &[&[u8]]| {
        let mut stream = StreamedKomihash::new();
        pieces.iter().for_each(|piece| stream.write(piece));
        stream
    };
    let message = [7; 200];
    assert!(streamed(&[&message]) == streamed(&[&message[..1], &[], &message[1..]]));
    assert!(streamed(&[&message[..63]]) != streamed(&[&message[..62], &[8]]));
    assert!(streamed(&[&message[..1]]) != streamed(&[&message[..1], &[0]]));
    assert!(streamed(&[&message]) != streamed(&[&message[1..], &[8]]));
    assert!(StreamedKomihash::new() != StreamedKomihash::new_with_seed(1));
}

#[test]
fn types_have_the_traits_that_users_expect() {
    fn is<T: Send + Sync + Unpin + Clone + std::fmt::Debug + Eq>() {}
    fn is_copied<T: Copy>() {}
    is::<StreamedKomihash>();
    is::<Komirand>();
    is::<KomiHasher>();
    is::<KomiBuildHasher>();
    is::<Call<'_>>();
    is_copied::<KomiBuildHasher>();
    is_copied::<KomiHasher>();
    is_copied::<Call<'_>>();
    assert!(Call::Answer != Call::Absorb(b"") && Call::Absorb(b"ab") != Call::Absorb(b"ac"));
    assert!(lacks!(Komirand: Copy) && lacks!(Call<'_>: Ord) && lacks!(Call<'_>: Hash));
    assert!(KomiHasher::new(1) == KomiHasher::from(1) && KomiHasher::new(1) != KomiHasher::new(2));
    let build = KomiBuildHasher::new(0);
    assert!([1, 2].iter().all(|it| build.hash_one(KomiHasher::new(*it)) == build.hash_one(it)));
    assert_eq!([1, 2].map(KomiBuildHasher::new), [1, 2].map(KomiBuildHasher::from));
    assert!(KomiBuildHasher::new(1) != KomiBuildHasher::new(2));
    assert!(Komirand::new(1, 1) == Komirand::new(1, 1));
    assert!([(1, 2), (2, 1)].iter().all(|it| Komirand::new(it.0, it.1) != Komirand::new(1, 1)));
    assert_eq!(format!("{:?}", KomiHasher::new(1)), "KomiHasher { number: 1 }");
    assert_eq!(format!("{:?}", KomiBuildHasher::new(1)), "KomiBuildHasher { seed: 1 }");
    assert_eq!(format!("{:?}", Komirand::new(1, 2)), "Komirand { s1: 1, s2: 2 }");
    let (stream, default) = (StreamedKomihash::new(), StreamedKomihash::default());
    assert_eq!([stream.finish(), default.finish()], [komihash(b"", 0); 2]);
}

#[test]
fn no_message_is_shown() {
    static STREAM: Mutex<StreamedKomihash> = Mutex::new(StreamedKomihash::new());
    let mut stream = STREAM.lock().unwrap();
    stream.write(b"secret");
    assert_eq!(format!("{stream:?}"), "StreamedKomihash { .. }");
    let calls = [Call::Absorb(b"secret"), Call::Absorb(&[7; 1000]), Call::Answer];
    assert_eq!(format!("{calls:?}"), "[Absorb(6 bytes), Absorb(1000 bytes), Answer]");
}

/// Copies what is read until an error, after which the stream goes on.
#[cfg(feature = "std")]
#[test]
fn readers_are_copied_into_streams() {
    use std::io::{Error, ErrorKind, Read, Result, Write, copy};

    /// Gives a byte, is interrupted, gives two, and so on up to five, and then fails.
    struct Failing(usize);
    impl Read for Failing {
        fn read(&mut self, buffer: &mut [u8]) -> Result<usize> {
            self.0 += 1;
            if self.0 >= 10 {
                return Err(Error::other("no more"));
            } else if self.0.is_multiple_of(2) {
                return Err(ErrorKind::Interrupted.into());
            }
            let count = self.0 / 2 + 1;
            buffer[..count].fill(7);
            Ok(count)
        }
    }
    let mut stream = StreamedKomihash::new_with_seed(3);
    assert_eq!(copy(&mut Failing(0), &mut stream).unwrap_err().to_string(), "no more");
    assert_eq!(stream.finish(), komihash(&[7; 15], 3));
    stream.flush().unwrap();
    assert_eq!(Write::write(&mut stream, &[]).unwrap(), 0);
    let long = vec![7; (2 << 20) + 1];
    assert_eq!(Write::write(&mut stream, &long).unwrap(), long.len());
    assert_eq!(copy(&mut &[7; 9000][..], &mut stream).unwrap(), 9000);
    assert_eq!(stream.finish(), komihash(&[&long[..], &[7; 9015]].concat(), 3));
}

#[test]
fn too_little_room_is_reported_at_the_caller() {
    assert_eq!(LONGEST_TEXT, 131);
    panics_here(line!(), 130, 131, || _ = StreamedKomihash::new().save(&mut [0; 130]));
    panics_here(line!(), 130, 131, || _ = StreamedKomihash::new().store(&mut [0; 130]));
    panics_here(line!(), 0, 9, || _ = Recorder(vec![]).store(&mut []));
    panics_here(line!(), 1, 2, || _ = pad(b"12345678", &mut [0; 1]));
    panics_here(line!(), 0, 1, || _ = pad(b"", &mut []));
    panics_here(line!(), 7, 8, || _ = unpad(&[0], &mut [0; 7]));
    panics_here(line!(), 7, 8, || _ = unpad(&[1], &mut [0; 7]));
    panics_here(line!(), 15, 16, || _ = unpad(&[1, 1], &mut [0; 15]));
    panics_here(line!(), 0, 1, || _ = run::<StreamedKomihash>(0, &[Call::Answer], &mut []));
    // It has no answer to write, but each call needs room.
    const ABSORB: [Call<'_>; 2] = [Call::Absorb(b""); 2];
    panics_here(line!(), 1, 2, || _ = run_on(&mut StreamedKomihash::new(), &ABSORB, &mut [0]));
}

/// Whether a call panics, and reports this line of this file, and these lengths.
fn panics_here(line: u32, is: usize, least: usize, call: fn()) {
    static HOOK: Mutex<()> = Mutex::new(());
    static REPORTED: Mutex<Option<String>> = Mutex::new(None);
    let _one_by_one = HOOK.lock().unwrap_or_else(PoisonError::into_inner);
    let (hook, here) = (take_hook(), current().id());
    set_hook(Box::new(move |info| {
        if current().id() != here {
            return eprintln!("{info}");
        }
        let place = info.location().unwrap();
        let message = info.payload().downcast_ref::<String>().unwrap();
        *REPORTED.lock().unwrap() = Some(format!("{}:{}: {message}", place.file(), place.line()));
    }));
    let panicked = catch_unwind(call).is_err();
    set_hook(hook);
    assert!(panicked);
    let lengths = format!("the length of `out` is {is}, and must be at least {least}");
    assert_eq!(*REPORTED.lock().unwrap(), Some(format!("{}:{line}: {lengths}", file!())));
}
