#!/usr/bin/env bash
# Tests the library for C as its package is unpacked, with nothing beside it, also for other
# processors and systems, and that its assembly and its header are made of their sources.
. "$(dirname "$0")/parts.sh"

# Also whether no directive lets another build get other code.
names_its_sources() {
    local made_of
    made_of=$(bash c/assembly.sh) &&
        [ -z "$(grep -L "SHA-256 $made_of$" c/assembly/*.S js/komihash_rattle.js)" ] &&
        ! grep -nE '(^|:)\s*(#|\.(if|else|macro|inc|rept|irp|set|equ|org))|;|__' c/assembly/*.S
}
made_of_header() {
    in_package assembly "ASSEMBLY=$scratch/assembly" && diff -r "$scratch/assembly" c/assembly
}
inline_made_of_crate() {
    cd "$scratch"/libkomihash_rattle-*/ && python3 -B inline.py rust |
        cmp - komihash_rattle_inline.h
}
names_for_macos() {
    local library=$scratch/macos/libkomihash_rattle.1.dylib
    in_package "$library" "OUT=${library%/*}" CPPFLAGS=-ffreestanding LDFLAGS=-nostdlib \
        'CC=clang --target=arm64-apple-darwin23 -mmacosx-version-min=11 -fuse-ld=lld' &&
        diff <(grep -oE 'komihash_v\w+\(' c/komihash_rattle.h | tr -d '(' | sort) \
            <(grep -aoE '\b_komihash_v\w+' "$library" | cut -c2- | sort -u)
}

# Debian keeps wine64 outside of PATH.
export PATH="$PATH:/usr/lib/wine" WINEPREFIX="$scratch/wine" WINEDEBUG=-all
export WINEDLLOVERRIDES='mscoree,mshtml='
arm=aarch64-linux-gnu windows=x86_64-w64-mingw32

always run_case 'the package of the library for C is made again from itself' unpack
run_case 'the assembly and the WebAssembly name their sources' names_its_sources
by_its_compiler clang-19 c/assembly/x86_64.S bash 'the assembly is made of the header alone' \
    made_of_header
needs python3 'the header alone is made of the crate for Rust' inline_made_of_crate
part_with python3 python3 -B c/tests/inline.py rust
part in_package check
# Debian ends the server of wine with each program, and then one program in some 500 finds none.
mkdir "$WINEPREFIX" && wineserver -p3600 < /dev/null > "$scratch/case" 2>&1
part_with "$windows-gcc wine64 lld-link" in_package check "CROSS=$windows-" RUN=wine64
wineserver -k > "$scratch/case" 2>&1
part_with "$arm-gcc qemu-aarch64" in_package check "CROSS=$arm-" RUN=qemu-aarch64
part in_package check FROM=c
part_with 's390x-linux-gnu-gcc qemu-s390x' in_package check CROSS=s390x-linux-gnu- RUN=qemu-s390x
part_with i686-linux-gnu-gcc in_package check CROSS=i686-linux-gnu- \
    'CFLAGS=-O2 -flto=auto -ffat-lto-objects'
needs 'clang lld' 'the library for C links for macOS, with the names of the header' names_for_macos
finished 'make, a C compiler, Python 3.9, emulators, and for Windows MinGW-w64 and wine'
