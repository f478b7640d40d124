#!/usr/bin/env bash
# Builds a library for C of the Rust crate `komihash`, whose code stays as it is, and shows by
# ../c/verify that its machine code computes what the definition says: run.sh verify [OPTION..],
# which rust_crate.py has.
set -euo pipefail
crate=$(realpath "${KOMIHASH_CRATE:?must name the folder of the Rust crate}")
cd "$(dirname "${BASH_SOURCE[0]}")/../c"

# build LEVEL OPT. The crate names std, but uses only what core has too, so a crate of this name
# that is core stands in for it. `memcpy`, the only function that it calls outside of itself, is
# added; `as` marks the calls of it, so that `ld` makes them direct. The names of files that panics
# would print need the loader, so they are left out.
build() {
    local dir=../compare/out/verify/$1-$2 rustc=rustc target=x86_64-unknown-linux-gnu cross=
    local options=(-C "opt-level=$2" -C "target-cpu=$1")
    local memcpy='mov %rdi, %rax; mov %rdx, %rcx; rep movsb; ret'
    mkdir -p "$dir"
    if [ "$1" = armv8-a ]; then
        cross=aarch64-linux-gnu- target=aarch64-unknown-linux-gnu options=(-C "opt-level=$2")
        rustc="/usr/bin/rustc --sysroot $dir"
        memcpy='mov x3, 0; 1: cmp x3, x2; b.eq 2f; ldrb w4, [x1, x3]; strb w4, [x0, x3]'
        memcpy+='; add x3, x3, 1; b 1b; 2: ret'
        [ -d "$dir/lib" ] || bash ../scripts/sysroot.sh "$target" "$dir"
    fi
    echo '#![no_std] pub use core::*;' | $rustc --target "$target" -C panic=abort \
        --crate-name std --crate-type rlib -o "$dir/libstd.rlib" -
    RUSTC="$rustc --cfg rust_crate -L $dir --extern std=$dir/libstd.rlib" \
        sh from_rust.sh "$crate" "${target/-unknown/}" "$dir/crate.s" "${options[@]}"
    echo ".text; .globl memcpy; .hidden memcpy; memcpy: $memcpy" >> "$dir/crate.s"
    "${cross}as" --gdwarf-5 -o "$dir/crate.o" "$dir/crate.s"
    "${cross}objcopy" --remove-relocations='.data.rel.ro*' "$dir/crate.o"
    "${cross}ld" -shared -Bsymbolic --gc-sections -o "$dir/crate.so" "$dir/crate.o"
    echo "The crate in $crate, by $($rustc --version), for $1, opt-level $2"
    libraries+=("$1:$dir/crate.so")
}

libraries=()
for build in ${BUILDS:-x86-64-v2:3 x86-64-v2:s x86-64-v3:3 x86-64-v3:s}; do
    build "${build%:*}" "${build#*:}"
done
calls=('' _start _write _finish _rand_{init{,_with_extra_seed,_words},next,fill})
python=$(make -s python)
exec "$python" -B ../compare/rust_crate.py --some --red-zone \
    --function "${calls[@]/#/komihash_v4}" "${calls[@]/#/komihash_v5}" "$@" -- "${libraries[@]}"
