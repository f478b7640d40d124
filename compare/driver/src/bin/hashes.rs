//! Times the loops of ../../hashes.c, and prints a table with tabs between the columns.
#[allow(dead_code)] // speed.rs uses the rest.
#[path = "../timing.rs"]
mod timing;

use std::time::Instant;
use timing::{Column, Lengths, Rows, in_turn};

type Loop = unsafe extern "C" fn(bytes: *const u8, lengths: *const u32, count: u32);

unsafe extern "C" {
    // Five loops of hashes and four of writes, as in the array of ../../hashes.c.
    safe static HASHES_AND_WRITES: [Loop; 9];
}

/// Makes a column of a loop, for which lengths are drawn before each batch.
fn column(rows: &Rows, lengths: &Lengths, run: Loop) -> Column<'static> {
    let (bytes, mut length) = (rows.bytes, in_turn(&lengths.range));
    Box::new(move |count| {
        let lengths: Vec<_> = (0..count).map(|_| length() as u32).collect();
        let start = Instant::now();
        // SAFETY: there are so many lengths, and no message is longer than the bytes.
        unsafe { run(bytes.as_ptr(), lengths.as_ptr(), count) };
        start.elapsed()
    })
}

fn row(rows: &Rows, call: &str, lengths: &Lengths, loops: &[Loop]) {
    rows.row(&format!("{call} of {}", lengths.name), || {
        loops.iter().map(|run| column(rows, lengths, *run)).collect()
    });
}

fn main() {
    let rows = Rows::under("assembly\tlibrary\tinlined\tXXH3\twyhash");
    let below = [16, 64, 256].map(|limit| Lengths::random(0..limit));
    let short = [4, 7, 8, 16, 24, 32, 64, 100, 128].map(Lengths::one);
    let long = [8, 10, 12, 16, 20].map(|power| Lengths::one(1 << power));
    for lengths in below.iter().chain(&short).chain(&long) {
        row(&rows, "hash", lengths, &HASHES_AND_WRITES[..5]);
    }
    for lengths in below.iter().chain(&[8, 40, 1 << 10].map(Lengths::one)) {
        row(&rows, "writes", lengths, &HASHES_AND_WRITES[5..]);
    }
}
