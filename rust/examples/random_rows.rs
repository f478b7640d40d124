//! Prints random calls as rows of ../tests/values.tsv, with the values that this crate gives, for
//! comparisons with other packages: cargo run --example random_rows SEED COUNT
#[allow(dead_code)] // Tests use the rest.
#[path = "../tests/by_name/mod.rs"]
mod by_name;

use by_name::{Calls, calls, hexadecimal};
use komihash_rattle::Komirand;

/// Stands for one to so many.
const MANY: usize = 9;

/// The calls, and how many numbers, messages and lengths they take.
const CALLS: [(&str, [usize; 3]); 9] = [
    ("komihash", [1, 1, 0]),
    ("hasher", [1, MANY, 0]),
    ("new", [2, 0, MANY]),
    ("init", [1, 0, MANY]),
    ("init_with_extra_seed", [2, 0, MANY]),
    ("stream", [1, MANY, 0]),
    ("hash_one", [0, 1, 0]),
    ("order", [0, MANY, 0]),
    ("next", [2, 0, 1]),
];

fn below(random: &mut Komirand, limit: usize) -> usize {
    (random.next() % limit as u64) as usize
}

fn number(random: &mut Komirand) -> String {
    let (word, shift) = (random.next(), below(random, 64));
    format!("{:x}", [0, 1, u64::MAX, 1 << shift, word, word >> shift][below(random, 6)])
}

/// Returns the bytes of a message, most of which are short, and few long.
fn message(random: &mut Komirand) -> String {
    let limit = [2, 20, 70, 140, 600][below(random, 5)];
    let length = match below(random, 2000) {
        0 => below(random, 200_000),
        1..200 => 64,
        _ => below(random, limit),
    };
    let mut bytes = vec![0; length];
    random.fill_bytes(&mut bytes);
    hexadecimal(&bytes)
}

fn main() {
    let mut arguments = std::env::args().skip(1).map(|it| it.parse().expect("a number"));
    let mut next = || arguments.next().expect("two numbers");
    let (mut random, count) = (Komirand::init(next()), next());
    let versions: [(&str, Calls); 2] =
        [("4", calls!(komihash_rattle::v4)), ("5", calls!(komihash_rattle::v5))];
    for (call, counts) in CALLS.iter().cycle().take(count as usize) {
        let (version, calls) = versions[below(&mut random, 2)];
        let mut given = Vec::new();
        let length = |random: &mut Komirand| below(random, 140).to_string();
        for (count, argument) in counts.iter().zip([number, message, length]) {
            let count = if *count == MANY { 1 + below(&mut random, MANY) } else { *count };
            given.extend((0..count).map(|_| argument(&mut random)));
        }
        let arguments: Vec<_> = given.iter().map(String::as_str).collect();
        let value = calls(call, &arguments).expect("a call");
        println!("{}\t{value}", [&[call, version], &arguments[..]].concat().join("\t"));
    }
}
