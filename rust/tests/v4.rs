//! Tests version 4.
mod by_name;
mod by_version;

use komihash_rattle::v4 as version;

const NUMBER: &str = "4";
/// Of hashes by komihash 0.5.0.
const SUM: u64 = 0xd930_8356_554c_f475;
