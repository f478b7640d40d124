#!/usr/bin/env bash
# Compares the crate for Rust and the library for C with others. README.md says more.
#
#   run.sh bench [REPEATS]      times all rows, and makes the tables and the picture anew
#   run.sh bench REPEATS WORD   times the rows whose name contains WORD, and prints them
#   run.sh fuzz SEED N          compares ours with the Rust crate, in N random calls
#   run.sh values < TABLE       prints a table of ../rust/tests anew, by the Rust crate
#   run.sh verify [OPTION..]    shows that the machine code of the Rust crate, in the folder
#                               KOMIHASH_CRATE, computes what the definition says: rust_crate.sh
#
# REPEATS is 151 if not given. LAYOUTS says in how many layouts of the machine code `bench` runs, 8
# if unset, and BUILDS names some of the builds plain, fat, gcc, gcc-v3, clang-19 and clang-19-v3:
# the others have the times of the runs before. KOMIHASH_CRATE is a folder with the Rust crate,
# where cargo has no registry, and RATTLE_CRATE one with another copy of ../rust. CC links, and
# RUSTFLAGS are for all Rust.
set -euo pipefail
cc=${CC:-cc} layouts=${LAYOUTS:-8}

# link PROGRAM ARGUMENT.. links a program in all layouts. The last -o counts.
link() {
    for ((layout = 1; layout <= layouts; layout++)); do
        "$cc" "${@:2}" -fuse-ld=lld "-Wl,--shuffle-sections=.text*=$layout" -o "$1-$layout"
    done
}
# If rustc runs this script as its linker, it also wants the program where it says.
[ -z "${LINK_TO:-}" ] || { link "$LINK_TO" "$@" && exec "$cc" "$@"; }

here=$(cd "$(dirname "${BASH_SOURCE[0]}")" && pwd)
[ "${1:-}" != verify ] || exec "$here/rust_crate.sh" "${@:2}"
options=(--quiet --release)
[ -z "${KOMIHASH_CRATE:-}" ] || options+=(
    --offline --config "patch.crates-io.komihash.path='$(realpath "$KOMIHASH_CRATE")'")
[ -z "${RATTLE_CRATE:-}" ] || options+=(--config "paths=['$(realpath "$RATTLE_CRATE")']")
cd "$here/driver"
export CARGO_TARGET_DIR=$here/out
case "$*" in
    bench | 'bench '*) ;;
    values) exec cargo run "${options[@]}" --bin values ;;
    'fuzz '*' '*)
        mkdir -p ../out
        cargo run --quiet --release --manifest-path ../../rust/Cargo.toml --example random_rows \
            "${@:2}" > ../out/rows
        ../run.sh values < ../out/rows | diff ../out/rows -
        exec echo 'There is no difference.' ;;
    *) sed -n '4,16s/^# \?//p' ../run.sh >&2 && exit 2 ;;
esac

# Builds a program of that name in all layouts.
build() {
    local bin=speed compiler=${1%-v3} flags=(-Clinker="$here/run.sh")
    local v3=${1#"$compiler"} library
    case $1 in
        plain) ;;
        fat) export CARGO_PROFILE_RELEASE_LTO=fat ;;
        *)
            bin=hashes
            make --silent -C ../../c >&2
            make --silent -C ../../c FROM=c "CC=$compiler" "OUT=$here/out/$1" \
                CPPFLAGS=-DKOMIHASH_RATTLE_PREFIX=library_ \
                "CFLAGS=-O2 -march=x86-64$v3 -ffunction-sections" "$here/out/$1/c.o" >&2
            "$compiler" -O2 "-march=x86-64$v3" -ffunction-sections -I../../c -c \
                -o "../out/$1/hashes.o" hashes.c
            library=$here/../c/out/libkomihash_rattle${v3/-/_}.a
            flags+=(-Clink-arg={"$here/out/$1/"{c,hashes}.o,"$library"}) ;;
    esac
    touch "src/bin/$bin.rs"
    LINK_TO=$here/out/$1 cargo rustc "${options[@]}" --bin "$bin" -- "${flags[@]}"
}

repeats=${2:-151} times=../out/times${3:+-of-some-rows}
[ -z "${3:-}" ] && [ "${BUILDS:-}" ] || rm -rf "$times"
for build in ${BUILDS:-plain fat gcc clang-19 gcc-v3 clang-19-v3}; do
    rm -rf "${times:?}/$build" && mkdir -p "$times/$build"
    (build "$build")
    for ((layout = 1; layout <= layouts; layout++)); do
        echo "$build, layout $layout" >&2
        "../out/$build-$layout" "$repeats" "${3:-}" > "$times/$build/$layout"
    done
done

# Where and when it was measured.
cpu() { LC_ALL=C lscpu | sed -n "s/^$1: *//p"; }
crate=$(sed -n 's/^version = "\(.*\)"/\1/p' ../../rust/Cargo.toml)
library=$(sed -n 's/.*RATTLE_VERSION "\(.*\)"/\1/p' ../../c/komihash_rattle.h)
measured="$(cpu 'Model name') (family $(cpu 'CPU family'), model $(cpu Model)),"
measured+=" $(cpu 'CPU(s)') CPUs; crate $crate, library $library, $(date -I);"
measured+=" $(rustc --version | cut -d ' ' -f -2); $(gcc --version | sed -n 1p);"
measured+=" $(clang-19 --version | sed -n 1p);"
headers=(libxxhash-dev libwyhash-dev)
measured+=$(dpkg-query -Wf ' ${Package} ${Version};' "${headers[@]}" 2> /dev/null || true)
../table.py "$measured $layouts layouts, $repeats repeats" "${3:-}" "$times"/*/*
