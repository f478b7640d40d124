//! Prints the rows of a table of rust/tests, read from standard input, each with the value that
//! `komihash` gives. Comments and rows of calls that it lacks stay as they are.
#[allow(dead_code)] // Tests use the rest.
#[path = "../../../../rust/tests/by_name/mod.rs"]
mod by_name;

use by_name::{calls, row};
use std::io;

fn main() {
    let [v4, v5] = [calls!(komihash::v4), calls!(komihash::v5)];
    for line in io::stdin().lines() {
        let line = line.expect("a row");
        let value = row(&line).and_then(|(version, call, given, _)| {
            let calls = if version == "4" { v4 } else { v5 };
            calls(call, &given)
        });
        match (value, line.rsplit_once('\t')) {
            (Some(value), Some((given, _))) => println!("{given}\t{value}"),
            _ => println!("{line}"),
        }
    }
}
