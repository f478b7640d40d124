//! Calls by their names and arguments, as ../values.tsv has them, and some more. compare/ makes
//! them of the crate `komihash` too.
use std::fmt::Write;

/// Returns the value of a call, or none if the call is of another kind.
pub type Calls = fn(&str, &[&str]) -> Option<String>;

pub fn number(digits: &str) -> u64 {
    u64::from_str_radix(digits, 16).expect("a number")
}

pub fn word(value: u64) -> String {
    format!("{value:016x}")
}

pub fn bytes(digits: &str) -> Vec<u8> {
    (0..digits.len()).step_by(2).map(|at| number(&digits[at..at + 2]) as u8).collect()
}

pub fn hexadecimal(bytes: &[u8]) -> String {
    bytes.iter().fold(String::new(), |mut digits, byte| {
        write!(digits, "{byte:02x}").map(|()| digits).expect("a string takes all")
    })
}

/// Returns what a row of ../vectors.tsv or ../values.tsv has: version, call, arguments and value.
pub fn row(line: &str) -> Option<(&str, &str, Vec<&str>, &str)> {
    match line.split('\t').collect::<Vec<_>>()[..] {
        [version @ ("4" | "5"), ref given @ .., value] => {
            Some((version, "komihash", given.to_vec(), value))
        }
        [call, version @ ("4" | "5"), ref given @ .., value] => {
            Some((version, call, given.to_vec(), value))
        }
        _ => None,
    }
}

/// Makes the calls of a version of a crate.
macro_rules! calls {
    ($module:path) => {{
        use std::collections::HashMap;
        use std::hash::{BuildHasher, BuildHasherDefault, Hasher};
        use $crate::by_name::{Calls, bytes, hexadecimal, number, word};
        use $module::{KomiHasher, Komirand, StreamedKomihash, komihash};

        /// Returns what fills of these lengths write, one after the other.
        fn filled(mut rand: Komirand, lengths: &[&str]) -> String {
            let lengths = lengths.iter().map(|it| it.parse().expect("a length"));
            let mut out = vec![0; lengths.clone().sum()];
            lengths.fold(&mut out[..], |left, length| {
                let (next, others) = left.split_at_mut(length);
                rand.fill_bytes(next);
                others
            });
            hexadecimal(&out)
        }

        /// Returns the hash after each piece.
        fn streamed(seed: &str, pieces: &[&str]) -> String {
            let mut stream = StreamedKomihash::new_with_seed(number(seed));
            let answers = pieces.iter().map(|piece| {
                stream.write(&bytes(piece));
                word(stream.finish())
            });
            answers.collect()
        }

        /// Returns the hash of a tuple of several kinds of values, which are made of a message.
        fn hash_one(message: &[u8]) -> String {
            let (bytes, _) = message.as_chunks::<8>();
            let numbers: Vec<_> = bytes.iter().map(|it| u64::from_le_bytes(*it)).collect();
            let small: Vec<_> = numbers.iter().map(|it| (*it as i32, *it as u16)).collect();
            let value = (message, bytes, &small, "text", message.is_empty(), &numbers[..]);
            let build = BuildHasherDefault::<KomiHasher>::new();
            word(build.hash_one((value, Some('x'), message.len())))
        }

        /// Returns keys in the order of a map.
        fn order(keys: &[&str]) -> String {
            let pairs = keys.iter().enumerate().map(|(at, key)| (*key, at));
            let map: HashMap<_, _, BuildHasherDefault<KomiHasher>> = pairs.collect();
            assert!(keys.iter().all(|key| keys[map[key]] == *key));
            map.into_keys().collect()
        }

        let calls: Calls = |call, given| {
            Some(match (call, given) {
                ("komihash", [seed, message]) => word(komihash(&bytes(message), number(seed))),
                ("stream", [seed, pieces @ ..]) => streamed(seed, pieces),
                ("hasher", [seed, writes @ ..]) => {
                    let mut hasher = KomiHasher::new(number(seed));
                    writes.iter().for_each(|it| hasher.write(&bytes(it)));
                    word(hasher.finish())
                }
                ("hash_one", [message]) => hash_one(&bytes(message)),
                ("order", keys) => order(keys),
                ("new", [x, y, lengths @ ..]) => {
                    filled(Komirand::new(number(x), number(y)), lengths)
                }
                ("init", [seed, lengths @ ..]) => filled(Komirand::init(number(seed)), lengths),
                ("init_with_extra_seed", [x, y, lengths @ ..]) => {
                    filled(Komirand::init_with_extra_seed(number(x), number(y)), lengths)
                }
                ("next", [x, y, count]) => {
                    let mut rand = Komirand::new(number(x), number(y));
                    (0..number(count)).map(|_| word(rand.next())).collect()
                }
                _ => return None,
            })
        };
        calls
    }};
}
pub(crate) use calls;
