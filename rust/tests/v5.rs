//! Tests version 5.
mod by_name;
mod by_version;

use komihash_rattle::v5 as version;

const NUMBER: &str = "5";
/// Of hashes by komihash 0.5.0.
const SUM: u64 = 0x481a_78b4_6b0e_db90;

#[test]
fn the_root_has_version_5() {
    use komihash_rattle::v5;
    let _: fn(v5::KomiHasher) -> komihash_rattle::KomiHasher = |hasher| hasher;
    let _: fn(v5::Komirand) -> komihash_rattle::Komirand = |generator| generator;
    let _: fn(v5::KomiBuildHasher) -> komihash_rattle::KomiBuildHasher = |build| build;
    let mut stream = komihash_rattle::StreamedKomihash::default();
    stream.write(&[0x80]);
    let hash = komihash_rattle::v5::komihash(&[0x80], 0);
    assert_eq!((stream.finish(), komihash_rattle::komihash(&[0x80], 0)), (hash, hash));
    assert_ne!(komihash_rattle::v4::komihash(&[0x80], 0), hash);
    let mut text = [0; komihash_rattle::stream::LONGEST_TEXT];
    let length = stream.save(&mut text);
    assert!(komihash_rattle::v4::StreamedKomihash::resume(&text[..length]).is_none());
}

#[test]
fn the_module_of_both_versions_has_all_types() {
    use komihash_rattle::version::*;
    use std::hash::{BuildHasher, Hasher};
    fn numbers<const V: u8>() -> [u64; 4]
    where
        Versions: IsVersion<V>,
    {
        [
            StreamedKomihash::<V>::new().finish(),
            KomiHasher::<V>::new(1).finish(),
            KomiBuildHasher::<V>::new(2).build_hasher().finish(),
            Komirand::<V>::new(3, 4).words().0,
        ]
    }
    assert_eq!(numbers::<4>(), [komihash::<4>(b"", 0), 1, 2, 3]);
    assert_eq!(numbers::<5>(), [komihash::<5>(b"", 0), 1, 2, 3]);
}

/// No type or function has another version. Nothing but its own text says which versions there are.
#[test]
fn there_are_two_versions() {
    let source = include_str!("../src/version.rs");
    assert_eq!(source.matches("> for Versions {").count(), 2);
}
