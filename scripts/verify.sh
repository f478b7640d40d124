#!/usr/bin/env bash
# Verifies machine code of the library for C and of both crates for Rust, and tests this check.
. "$(dirname "$0")/parts.sh"

python=$(make -s -C c python) || python=python3-with-z3-and-capstone
arm=aarch64-linux-gnu
prepare unpack
# These are all builds of the assembly, some functions by a second solver too, one from the
# crate for Rust, and some functions of what clang and gcc make of the header.
part_with "$python" in_package verify
part_with "$arm-gcc $python" in_package verify "CROSS=$arm-"
part_with "cvc5 $python" in_package verify LEVEL=x86-64 SECOND=cvc5 \
    'FUNCTION=komihash_v5 komihash_v5_finish komihash_v5_save'
part_with "rustc $python" in_package verify FROM=rust
part_with "clang $python" in_package verify FROM=c OUT=out/clang CC=clang \
    CFLAGS='-O2 -fno-vectorize -fno-slp-vectorize' 'FUNCTION=komihash_v4_unpad komihash_v5_write'
part_with "gcc $python" in_package verify FROM=c OUT=out/gcc CC=gcc \
    'FUNCTION=komihash_v4 komihash_v5_write'
part_with "$arm-gcc $python" in_package verify FROM=c "CROSS=$arm-" \
    'FUNCTION=komihash_v5 komihash_v5_start'

tests=c/verify/tests out=$(echo "$scratch"/libkomihash_rattle-*/out) so=libkomihash_rattle.so.1
libraries=("x86-64:$out/$so" "x86-64-v3:$out/glibc-hwcaps/x86-64-v3/$so")
always run_case 'the libraries that are edited' in_package
always needs $arm-gcc 'the library for ARM64 that is edited' in_package "CROSS=$arm-"
[ ! -d "$out/$arm" ] || libraries+=("armv8-a:$out/$arm/$so")
for level in x86-64 x86-64-v3; do
    part_with "$python" "$python" -B $tests/bodies.py $level "${CC:-cc}"
done
needs "$python" 'calls that are left out, and other definitions, are noticed' \
    "$python" -B $tests/changes.py "${libraries[@]}"
part_with "$python $arm-gcc" "$python" -B $tests/bodies.py armv8-a $arm-gcc
needs "$python musl-gcc qemu-aarch64" 'edits of files are refused' \
    "$python" -B $tests/attacks.py "${libraries[@]}"
if grep -qw avx2 /proc/cpuinfo; then
    needs "$python" 'random instructions do in the model what they do on the processor' \
        "$python" -B $tests/instructions.py "x86-64-v3:$out/$so:${libraries[1]#*:}" "${CC:-cc}"
else
    skip 'random instructions (optional)' 'a processor with AVX2'
fi
needs "$python $arm-gcc qemu-aarch64" \
    'random instructions of ARM64 do in the model what they do in an emulator' \
    "$python" -B $tests/instructions.py "armv8-a:$out/$arm/$so" $arm-gcc \
    qemu-aarch64 -L /usr/$arm

# Of the Rust crate, a build is verified.
if [ "${KOMIHASH_CRATE:-}" ]; then
    BUILDS=x86-64-v2:3 part_with "rustc $python" bash compare/run.sh verify
    needs cargo 'random calls have the values of the Rust crate' bash compare/run.sh fuzz 1 2000
else
    skip 'what the Rust crate computes (optional)' 'its folder as KOMIHASH_CRATE'
fi
finished 'Python 3.10 with z3 and capstone, a compiler for ARM64, qemu, cvc5 and rustc'
