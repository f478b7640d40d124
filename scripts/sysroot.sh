#!/usr/bin/env bash
# Builds Rust's core library for a target that the compiler here has none for, or by other options,
# from Debian's packages rustc-web and rust-web-src: sysroot.sh TARGET FOLDER [OPTION..].
# `/usr/bin/rustc --sysroot FOLDER` then compiles for this target what needs neither std nor alloc.
set -euo pipefail
target=$1 folder=$(realpath -m "$2")/lib/rustlib/$1/lib
options=("${@:3}")
cd /usr/lib/rustlib/src/rust/library
mkdir -p "$folder"

# Only a compiler of the same version may compile the library, which uses unstable features. Cargo
# would set the cfg values.
export RUSTC_BOOTSTRAP=1 CFG_VERSION=none
compile() { # NAME SOURCE [OPTION..]
    /usr/bin/rustc --edition 2024 --target "$target" --sysroot "${folder%/lib/rustlib/*}" \
        --crate-type rlib --crate-name "$1" --out-dir "$folder" -C opt-level=3 -C panic=abort \
        --cap-lints allow -Z force-unstable-if-unmarked "${options[@]}" "${@:3}" "$2"
}
configured=(--cfg 'feature="compiler-builtins"' --cfg 'feature="unstable-intrinsics"'
    --cfg intrinsics_enabled --cfg arch_enabled --cfg optimizations_enabled)
case $target in wasm*) configured+=(--cfg 'feature="mem"') ;; esac
# Of core, bitcode is enough, because what is compiled is one module with it.
compile core core/src/lib.rs -C linker-plugin-lto
compile compiler_builtins compiler-builtins/compiler-builtins/src/lib.rs "${configured[@]}"
