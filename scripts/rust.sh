#!/usr/bin/env bash
# Tests the crate for Rust as cargo packs it, also for other processors, and that a script makes
# it of the source in Rattle.
. "$(dirname "$0")/parts.sh"

# Whether the package for C makes its crate for Rust anew, but for files by hand.
erased() {
    cd "$scratch"/libkomihash_rattle-*/ && mkdir "$scratch/erased" &&
        python3 -B rust/erase.py crates/komihash/src "$scratch/erased" &&
        diff -r -x lib.rs -x version.rs -x traits.rs -x io.rs "$scratch/erased" rust/src &&
        grep -xF '#![forbid(unsafe_code)]' rust/src/lib.rs
}

without_std() {
    local target=wasm32-unknown-unknown
    bash scripts/sysroot.sh $target "$scratch/sysroot" && in_crate /usr/bin/rustc --target $target \
        --sysroot "$scratch/sysroot" --edition 2024 --crate-type lib --out-dir "$scratch" src/lib.rs
}
# Whether a program that links the crate and calls nothing has none of its code, in a debug build.
calls_nothing() {
    echo 'use komihash_rattle as _; fn main() {}' > "$scratch/nothing.rs" && in_crate cargo rustc \
        --offline --lib && rustc --edition 2024 -o "$scratch/nothing" "$scratch/nothing.rs" \
        --extern "komihash_rattle=$CARGO_TARGET_DIR/debug/libkomihash_rattle.rlib" &&
        nm -C "$scratch/nothing" > "$scratch/case" && ! grep komihash_rattle:: "$scratch/case"
}
# Whether a debug program compiles no call itself, but takes those that were compiled with the
# crate, which cargo may optimize alone.
calls_shared() {
    echo 'use komihash_rattle::*; fn main() { let mut stream = StreamedKomihash::new_with_seed(1);
        let (mut generator, mut bytes) = (Komirand::init(2), [0; 131]); stream.write(&bytes);
        generator.fill_bytes(&mut bytes); let _ = (komihash(&bytes, 3), generator.next(),
        stream.save(&mut bytes), StreamedKomihash::resume(&bytes), stream.finish()); }' \
        > "$scratch/shared.rs" && in_crate rustc --edition 2024 --crate-type lib -C opt-level=3 \
        -C debug-assertions --crate-name komihash_rattle --out-dir "$scratch" src/lib.rs &&
        rustc --edition 2024 --emit obj -o "$scratch/shared.o" "$scratch/shared.rs" \
            --extern "komihash_rattle=$scratch/libkomihash_rattle.rlib" &&
        nm -C "$scratch/shared.o" > "$scratch/case" &&
        ! grep -iE ' [tw] komihash_rattle::' "$scratch/case"
}
# Whether a program gets this crate for `komihash`, also in a dependency, as the page says.
for_dependencies() {
    local at=$scratch/patched
    mkdir -p "$at"/{komihash,dependency,program}/src && cd "$at" &&
        for package in *; do
            printf '[package]\nname = "%s"\nversion = "0.5.0"\nedition = "2024"\n[dependencies]\n' \
                $package > $package/Cargo.toml
        done &&
        sed -n 's|.*`src/lib.rs` is `\(#.*;\)`, and.*|\1|p' "$scratch/rust/README.md" \
            > komihash/src/lib.rs &&
        echo "komihash_rattle.path = '$scratch/rust'" >> komihash/Cargo.toml &&
        echo "komihash = '0.5'" | tee -a dependency/Cargo.toml >> program/Cargo.toml &&
        echo 'pub fn new() -> komihash::Komirand { komihash::Komirand::new(1, 2) }' \
            > dependency/src/lib.rs &&
        echo 'fn main() { let rand: komihash::Komirand = dependency::new();
            print!("{:?}", rand.words()) }' > program/src/main.rs &&
        printf "%s.path = '../%s'\n" dependency{,} '[patch.crates-io]
komihash' komihash >> program/Cargo.toml &&
        diff <(cargo run --offline --quiet --manifest-path program/Cargo.toml) <(printf '(1, 2)')
}
pages() {
    RUSTDOCFLAGS='-D warnings' in_crate cargo doc --offline --no-deps --all-features
}
# Runs the crate's tests for a target, with a standard library that is built from Debian's sources:
# tests_for TARGET LINKER [RUNNER..]
tests_for() {
    local target=CARGO_TARGET_$(tr a-z- A-Z_ <<< "$1")
    in_crate env RUSTC_BOOTSTRAP=1 RUSTC=/usr/bin/rustc "${target}_LINKER=$2" \
        "${target}_RUNNER=${*:3}" /usr/bin/cargo test --offline --all-features --tests \
        -Zbuild-std --target "$1" --config 'source.crates-io.replace-with="sources"' \
        --config 'source.sources.directory="/usr/lib/rustlib/src/rust/library/vendor"'
}

prepare unpack
needs python3 'erase.py is not misled' python3 -B rust/tests/erase.py
needs 'python3 rustfmt' 'rust/src is erased from the source' erased
always needs cargo 'the crate for Rust is packed, and builds as it is unpacked' unpack_crate
for features in '' --all-features; do
    needs cargo "the crate for Rust, with debug assertions $features" \
        in_crate cargo test --offline $features
done
RUSTFLAGS='-C target-cpu=native' needs cargo 'the crate for Rust, for this processor' \
    in_crate cargo test --offline --release --all-features --tests
needs cargo-clippy 'the crate for Rust, by clippy (optional)' \
    in_crate cargo clippy --offline --all-features --all-targets -- -D warnings \
    -D clippy::must_use_candidate
needs rustfmt 'the crate for Rust, by rustfmt' in_crate cargo fmt --check
needs 'cargo nm' 'a program has nothing of the crate for Rust uncalled' calls_nothing
needs 'cargo nm' 'a debug program compiles no call of the crate for Rust' calls_shared
needs cargo 'dependencies get the crate for Rust in place of the other one' for_dependencies
needs '/usr/bin/rustc /usr/lib/rustlib/src/rust/x.py' 'the crate for Rust needs core alone' \
    without_std
needs cargo 'the pages of the crate for Rust' pages
sources='/usr/bin/cargo /usr/lib/rustlib/src/rust/x.py'
for machine in s390x aarch64 i686; do
    [ $machine = i686 ] && runner=env || runner="qemu-$machine -L /usr/$machine-linux-gnu"
    needs "$machine-linux-gnu-gcc ${runner%% *} $sources" "the crate for Rust, for $machine" \
        tests_for $machine-unknown-linux-gnu $machine-linux-gnu-gcc $runner
done

counts='calls of the crate for Rust take the instructions and bytes of compare/counts.md'
if grep -qw avx2 /proc/cpuinfo; then
    by_its_compiler /usr/bin/rustc compare/counts.md \
        'python3 ld.lld i686-linux-gnu-gcc /usr/lib/rustlib/src/rust/x.py' "$counts" \
        python3 -B compare/counts.py "$scratch"
else
    skip "$counts (optional)" 'a processor with AVX2'
fi
finished "cargo, rustc, Python 3.10, emulators, and for these the sources of Rust in Debian"
