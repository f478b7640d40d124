//! Times the crate beside `komihash`, and prints a table with tabs between the columns.
#[path = "../timing.rs"]
mod timing;

use std::collections::HashMap;
use std::hash::{BuildHasher, BuildHasherDefault, Hash};
use timing::{Lengths, Random, Rows, column, hide, in_turn};

/// Times a row in all columns, by the call of a module.
macro_rules! row {
    ($rows:expr, $name:expr, $side:ident => $call:expr) => {
        $rows.row(&$name, || {
            vec![
                row!(komihash_rattle::v5, $side, $call),
                row!(komihash::v5, $side, $call),
                row!(komihash_rattle::v4, $side, $call),
                row!(komihash::v4, $side, $call),
            ]
        })
    };
    ($module:path, $side:ident, $call:expr) => {{
        use $module as $side;
        column($call)
    }};
}

fn main() {
    let rows = Rows::under("komihash_rattle 5\tkomihash 5\tkomihash_rattle 4\tkomihash 4");
    let below = [16, 64, 256].map(|limit| Lengths::random(0..limit));
    hashes(&rows, &below);
    streams(&rows, &below);
    long_streams(&rows);
    maps(&rows);
    generators(&rows, &below);
}

fn hashes(rows: &Rows, below: &[Lengths]) {
    let short = [1, 3, 4, 7, 8, 12, 15, 16, 20, 24, 31, 32, 40, 48, 63, 64, 100, 128];
    let long = [256, 1 << 10, 1 << 12, 1 << 16, 1 << 20];
    for lengths in below.iter().chain(&short.map(Lengths::one)).chain(&long.map(Lengths::one)) {
        row!(rows, format!("hash of {}", lengths.name), side => {
            let mut message = lengths.messages(rows.bytes, 1);
            move || side::komihash(message(), hide(0))
        });
    }
    arrays::<8>(rows);
    arrays::<16>(rows);
    arrays::<32>(rows);
    arrays::<64>(rows);
}

/// Times hashes of a length that the compiler knows.
fn arrays<const N: usize>(rows: &Rows) {
    row!(rows, format!("hash of an array of {N} bytes"), side => {
        let array = rows.bytes.first_chunk::<N>().expect("so many bytes");
        move || side::komihash(&*hide(array), hide(0))
    });
}

fn streams(rows: &Rows, below: &[Lengths]) {
    for lengths in below.iter().chain(&[1, 4, 8, 16, 20, 32, 40, 63, 64].map(Lengths::one)) {
        row!(rows, format!("new, write and finish of {}", lengths.name), side => {
            let mut message = lengths.messages(rows.bytes, 1);
            move || {
                let mut stream = side::StreamedKomihash::new();
                stream.write(message());
                stream.finish()
            }
        });
    }
}

fn long_streams(rows: &Rows) {
    let random = [8, 64, 300].map(|greatest| Lengths::random(1..greatest + 1));
    let single = [1, 3, 8, 16, 32, 40, 100, 250, 1 << 10].map(Lengths::one);
    for lengths in random.iter().chain(&single) {
        row!(rows, format!("writes of {}", lengths.name), side => {
            let mut message = lengths.messages(rows.bytes, 1 << 12);
            let mut stream = side::StreamedKomihash::new();
            move || stream.write(message())
        });
    }
    for pending in [0, 16, 40, 63] {
        row!(rows, format!("finish with {pending} bytes pending"), side => {
            let mut stream = side::StreamedKomihash::new();
            stream.write(&rows.bytes[..64 + pending]);
            move || hide(&stream).finish()
        });
    }
}

fn maps(rows: &Rows) {
    let mut random = Random(1);
    let mut draw = || random.word();
    map(rows, "u64", &mut draw);
    map(rows, "u32", || draw() as u32);
    map(rows, "(u64, u32)", || (draw(), draw() as u32));
    map(rows, "16 bytes", || [0; 16].map(|_: u8| draw() as u8));
    for (least, greatest) in [(4, 12), (8, 40)] {
        let mut text = || {
            let length = least + draw() % (greatest - least + 1);
            (0..length).map(|_| char::from(b'a' + (draw() % 26) as u8)).collect::<String>()
        };
        map(rows, &format!("text of {least} to {greatest} bytes"), &mut text);
    }
}

/// Times lookups of random keys among 10,000.
fn map<K: Hash + Eq>(rows: &Rows, name: &str, mut key: impl FnMut() -> K) {
    let keys: Vec<K> = (0..10_000).map(|_| key()).collect();
    row!(rows, format!("lookup in a map by {name}"), side => {
        let pairs = keys.iter().map(|key| (key, ()));
        let map: HashMap<_, _, BuildHasherDefault<side::KomiHasher>> = pairs.collect();
        let (keys, mut turn) = (&keys, in_turn(&(0..keys.len())));
        move || contains(&map, &keys[turn()])
    });
}

/// Looks a key up. It isn't inlined, because the compiler would do so for one side alone.
#[inline(never)]
fn contains<K: Hash + Eq, S: BuildHasher>(map: &HashMap<&K, (), S>, key: &K) -> bool {
    map.contains_key(key)
}

fn generators(rows: &Rows, below: &[Lengths]) {
    row!(rows, "output of the generator", side => {
        let mut rand = side::Komirand::init(1);
        move || rand.next()
    });
    for lengths in below {
        row!(rows, format!("fill of {}", lengths.name), side => {
            let (mut rand, mut out) = (side::Komirand::init(1), [0; 256]);
            let mut length = in_turn(&lengths.range);
            move || rand.fill_bytes(&mut out[..length()])
        });
    }
}
