# Tests the header that is all of the library, by the programs that test the library. check.sh
# sources this.
mkdir "$scratch/inline" && cat > "$scratch/inline/komihash_rattle.h" << 'END'
#include "komihash_rattle_inline.h"
END
inline="-I $scratch/inline -I ."

# Compiles calls.c with the header in place of the library, and these options: inlined OPTION..
inlined() {
    for number in 4 5; do
        rows $number | runs -std=c99 -D "VERSION=$number" $inline "$@" tests/calls.c || return
    done
}
# Makes an object of the header by $compiler, with these options, and without a warning.
made() {
    $compiler $inline -O2 -c -o "$scratch/made.o" -Wall -Wextra -Wpedantic -Wconversion -Wshadow \
        -Werror "$@" komihash_rattle.c
}
defined() { "$NM" -P "$scratch/made.o" | awk '$2 == "T" && !/get_pc_thunk/ { print $1 }' | sort; }
# Whether that has the functions of the header and needs nothing, and calls.c runs with it. clang
# for RISC-V clears and copies a stream by calls.
made_library() {
    others=_GLOBAL_OFFSET_TABLE_
    case $compiler in clang*riscv*) others='memset|memcpy' ;; esac
    made -std=c99 -ffreestanding &&
        ! "$NM" -P "$scratch/made.o" | grep -vxE "($others) U.*" | grep -E '^[^ ]* U' &&
        defined | diff "$scratch/declared" - && calls "$scratch/made.o"
}
# Whether all its names begin with a prefix, and a shared library of it exports none; calls.c runs
# with it by the same definitions.
prefixed_and_hidden() {
    options='-D KOMIHASH_RATTLE_PREFIX=mine_ -D KOMIHASH_RATTLE_HIDDEN'
    made -std=c99 -fPIC $options && defined | sed 's/^mine_//' | diff "$scratch/declared" - &&
        $compiler -shared -o "$scratch/made.so" "$scratch/made.o" &&
        ! "$NM" -D "$scratch/made.so" | grep komi &&
        inlined $options -D KOMIHASH_RATTLE_EXTERN "$scratch/made.o"
}
inlined_in_cpp() {
    made -x c++ -std=c++11 && defined | diff "$scratch/declared" - &&
        runs $inline -std=c++17 examples/example.cpp
}
# Compiles the header as MSVC reads it, and links it alone.
made_for_msvc() {
    own=$scratch/inline/msvc
    mkdir "$own" && echo 'void *memcpy(void *, const void *, size_t);' > "$own/string.h" &&
        cat > "$own/intrin.h" << 'END' || return
static __inline uint64_t _umul128(uint64_t x, uint64_t y, uint64_t *high) {
    const unsigned __int128 product = (unsigned __int128)x * y;
    *high = (uint64_t)(product >> 64);
    return (uint64_t)product;
}
END
    clang --target=x86_64-pc-windows-msvc -U__clang__ -U__SIZEOF_INT128__ -isystem "$own" -O2 \
        -std=c99 -Wall -Wextra -Werror $inline -c -o "$scratch/msvc.obj" "$scratch/msvc.c" &&
        lld-link -entry:start -subsystem:console -nodefaultlib "-out:$program" \
            "$scratch/msvc.obj" && $RUN "$program"
}
# Whether a compiler that sees a short array warns of nothing, and hashes of constant lengths are
# inlined, and take at most so many instructions.
short_for_constants() {
    printf '%s\n' '#include "komihash_rattle_inline.h"' \
        'void end(komihash_v5_stream *it) { komihash_v5_write(it, "\0", 1); }' |
        $compiler $inline -O2 -Wall -Werror -c -o "$scratch/made.o" -x c - || return
    for limit in 4:25 8:25 16:30 24:34; do
        $compiler $inline -std=c99 -O2 -S -o "$scratch/made.s" -x c - << END || return
#include "komihash_rattle_inline.h"
uint64_t hash(const void *key, uint64_t seed) { return komihash_v5(key, ${limit%:*}, seed); }
END
        ! grep call "$scratch/made.s" &&
            [ "$(grep -c '^[[:space:]][a-z]' "$scratch/made.s")" -le "${limit#*:}" ] || return
    done
}
# LTO compares what both headers declare.
joined_by_lto() { (inline='-I .' && inlined -O2 -flto komihash_rattle.c); }
inlined_cases() { # NAME
    run_case "calls.c with the header alone, by $1" prints "$values" inlined -O2
    run_case "calls.c with a library that the header makes, by $1" prints "$values" made_library
    [ ! "$CROSS" ] || return 0
    run_case "calls.c with a hidden library of the header and other names, by $1" \
        prints "$values" prefixed_and_hidden
    run_case "the example in C with the header alone, by $1" \
        prints $hash runs -I . "$scratch/inline/example.c"
    case $machine in
    x86_64*) run_case "hashes of constant lengths are short, by $1" short_for_constants ;;
    esac
    sanitizers= how='not optimized'
    case $1 in
    clang*) sanitizers='-fsanitize=address,undefined -fno-sanitize-recover=all' how=sanitized ;;
    *) run_case "calls.c and a library of the header, joined by LTO, by $1" \
        prints "$values" joined_by_lto ;;
    esac
    run_case "calls.c with the header alone, $how, without 128-bit products, by $1" \
        prints "$values" inlined -O0 -U__SIZEOF_INT128__ $sanitizers
}
