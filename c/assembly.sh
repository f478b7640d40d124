#!/usr/bin/env bash
# Compiles komihash_rattle.c to the assembly of the library for C, by Debian's package clang-19:
# assembly.sh FOLDER. Or to WebAssembly that exports some functions: assembly.sh FILE.wasm NAME..
# Without arguments, prints the SHA-256 of the header that is all of the library, without its
# comments and the library's version, and of this script, which the head of each file has too.
set -euo pipefail
made=$(realpath -m "${1:-.}") names=("${@:2}")
cd "$(dirname "${BASH_SOURCE[0]}")"
made_of=$(sed -e '/^ *\/\*.*\*\/$/d' -e '/^ *\/\*/,/\*\/$/d' -e /_RATTLE_VERSION/d \
    komihash_rattle_inline.h |
    cat - assembly.sh | sha256sum | cut -d ' ' -f 1)
[ $# != 0 ] || { echo "$made_of"; exit; }
scratch=$(mktemp -d)
trap 'rm -rf "$scratch"' EXIT

# No vectors, because few calls of the loops have many turns, and no calls of memcpy.
common=(-O2 -fno-vectorize -fno-slp-vectorize -mllvm -disable-loop-idiom-memcpy)

if [[ $made = *.wasm ]]; then
    clang-19 --target=wasm32-unknown-unknown "${common[@]}" -ffreestanding -mbulk-memory \
        -c -o "$scratch/module.o" komihash_rattle.c
    wasm-ld --no-entry --strip-all "${names[@]/#/--export=}" -o "$made" "$scratch/module.o"
    exit
fi

# assembly_for FILE PROCESSOR OPTION.. compiles twice: what the first time gives is compiled again.
# The first time, LLVM replaces comparisons of lengths before it inlines functions, and then sees no
# more that both sides of a test do the same. The second time, it sees that.
# - ext-tsp-block-placement and list-hybrid order blocks and instructions. Without the first, hashes
#   of 8 bytes take 7% longer for plain x86-64, and without the second, the loop over blocks for
#   x86-64-v3 takes 9% more instructions.
# - no-red-zone keeps values out of the memory below the stack pointer, so that verify can refuse
#   each access there.
# - cf-protection and branch-protection ask for what IBT, SHSTK and BTI demand: a note, and at the
#   start of each exported function an instruction.
# - align-functions lets functions begin where 64 bytes do. At other addresses, hashes of 8 bytes
#   for plain x86-64 may take 10% longer.
# - fixed-x18 leaves alone a register in which platforms may keep something.
assembly_for() {
    local options=("${common[@]}" -mllvm -enable-ext-tsp-block-placement -fPIC -ffunction-sections
        -falign-functions=64 -fno-addrsig -fno-ident -fno-verbose-asm "${@:3}")
    local compiler=(clang-19 "--target=$2-linux-gnu" "${options[@]}")
    "${compiler[@]}" -emit-llvm -c -o "$scratch/$1.bc" komihash_rattle.c
    cat > "$scratch/$1.S" << END
/* SPDX-License-Identifier: MIT
 * Copyright (c) 2026 the authors of komihash_rattle
 *
 * \`make assembly\` made this file from komihash_rattle_inline.h. Do not edit it.
 * Made of: SHA-256 $made_of
 * Options: ${options[*]}
 * Compiler: $(clang-19 --version | head -n 1)
 */
END
    "${compiler[@]}" -S -o - "$scratch/$1.bc" >> "$scratch/$1.S"
}
assembly_for x86_64 x86_64 -mno-red-zone -fcf-protection=full
assembly_for x86_64_v3 x86_64 -mno-red-zone -fcf-protection=full -march=x86-64-v3 \
    -mllvm -pre-RA-sched=list-hybrid
assembly_for aarch64 aarch64 -mbranch-protection=bti -ffixed-x18
mkdir -p "$made"
cp "$scratch"/*.S "$made/"
