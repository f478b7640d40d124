#!/bin/sh
# Compiles the crate for Rust in a folder, with the names of the header, for verify to read:
# from_rust.sh FOLDER MACHINE FILE [OPTION..]. MACHINE is what C compilers print for -dumpmachine.
# FILE gets an object, or if it ends in .s, assembly. The options are for rustc. The environment may
# have RUSTC, also with options.
set -eu
unset MAKEFLAGS MFLAGS # whose job server is closed here
rustc=${RUSTC:-rustc} crate=$1 machine=$2 file=$3
shift 3
target=$(echo "$machine" | sed -E 's/-([a-z]*-)?linux/-unknown-linux/; s/-linux$/&-gnu/')
command -v "${rustc%% *}" > /dev/null ||
    { echo "komihash_rattle: there is no Rust compiler '$rustc'" >&2; exit 1; }

scratch=$(mktemp -d)
trap 'rm -rf "$scratch"' EXIT
case $file in
*.s) kind=asm ;;
*) kind=obj ;;
esac
# LLVM would make calls of memcpy from loops that copy, and on ARM64 use x18, in which platforms may
# keep something.
llvm='-disable-loop-idiom-memcpy'
case $target in aarch64*) llvm="$llvm -reserve-regs-for-regalloc=X18" ;; esac
compile() {
    $rustc --target "$target" --cap-lints allow --out-dir "$scratch" --cfg for_c -C opt-level=3 \
        -C codegen-units=1 -C panic=abort -C force-unwind-tables=yes -C "llvm-args=$llvm" "$@"
}
compile "$@" --edition "$(sed -n 's/^edition = "\(.*\)"/\1/p' "$crate/Cargo.toml")" \
    --crate-name komihash_rattle --crate-type rlib "$crate/src/lib.rs"
compile "$@" --edition 2021 -C lto=fat --crate-type staticlib -L "$scratch" \
    --emit "link=$scratch/all.a,$kind=$file" --extern komihash_rattle "$(dirname "$0")/exports.rs"
