#!/bin/sh
# Installs the library, tests what is installed, or removes that: install.sh
# install|installcheck|uninstall. `make` runs it, with what it has built and the variables of its
# user in the environment.
set -eu
umask 022
prefix=${PREFIX-${prefix-/usr/local}}
bindir=${BINDIR-${bindir-$prefix/bin}}
libdir=${LIBDIR-${libdir-$prefix/lib}}
includedir=${INCLUDEDIR-${includedir-$prefix/include}}
docdir=${DOCDIR-${docdir-$prefix/share/doc/komihash_rattle}}
mandir=${MANDIR-${mandir-$prefix/share/man}}
for folder in "$prefix" "$bindir" "$libdir" "$includedir" "$docdir" "$mandir"; do
    case $folder in
    /*) ;;
    [A-Za-z]:/*) [ -d "${folder%%/*}/" ] ;; # a drive, which only Windows has
    *) false ;;
    esac || { echo "PREFIX, LIBDIR and the like are absolute paths, not '$folder'" >&2; exit 2; }
done

# The licence is beside this folder in the repository.
license=LICENSE
[ -f LICENSE ] || license=../LICENSE

# Calls a function with the mode, the source and the path of each file.
each_file() {
    "$1" 644 "$license" "$docdir/LICENSE"
    "$1" 644 komihashsum.1 "$mandir/man1/komihashsum.1"
    for file in $programs; do "$1" 755 "$OUT/$file" "$bindir/$file"; done
    [ "$(echo $libraries)" ] || return 0 # only the program was asked for
    "$1" 644 komihash_rattle.h "$includedir/komihash_rattle.h"
    "$1" 644 komihash_rattle_inline.h "$includedir/komihash_rattle_inline.h"
    "$1" 644 komihash_rattle/komihash.h "$includedir/komihash_rattle/komihash.h"
    for file in "$made"/*.pc; do "$1" 644 "$file" "$libdir/pkgconfig/${file##*/}"; done
    for file in "$made"/*.cmake; do
        "$1" 644 "$file" "$libdir/cmake/komihash_rattle/${file##*/}"
    done
    for file in $libraries; do
        # An older build for AVX2 may not stay, because glibc prefers it.
        rm -f "${DESTDIR-}$libdir/${file%.a}_v3.a" \
            "${DESTDIR-}$libdir/glibc-hwcaps/x86-64-v3/$file"
        case $file in
        *.dll) "$1" 755 "$OUT/$file" "$bindir/$file" ;;
        *.a | *.def) "$1" 644 "$OUT/$file" "$libdir/$file" ;;
        *) "$1" 755 "$OUT/$file" "$libdir/$file" ;;
        esac
        case $file in
        *.dylib) "$1" link "$file" "$libdir/${file%%.*}.dylib" ;;
        lib*.so.*) "$1" link "$file" "$libdir/${file%.*}" ;;
        esac
    done
}
install_file() {
    target=${DESTDIR-}$3
    mkdir -p "${target%/*}"
    rm -f "$target" # Programs may be using the old file, so it is not overwritten.
    if [ "$1" = link ]; then
        ln -s "$2" "$target"
    else
        cp "$2" "$target"
        chmod "$1" "$target"
    fi
}

# Removes a file, and its folder if that is empty and has the name of this library.
uninstall_file() {
    target=${DESTDIR-}$3
    rm -f "$target"
    case ${target%/*} in */komihash_rattle) rmdir "${target%/*}" 2> /dev/null || : ;; esac
}

# Runs the program, and the calls of the tests by the header and the library that are installed.
check_installed() {
    at=${DESTDIR-}$libdir
    export LD_LIBRARY_PATH="$at${LD_LIBRARY_PATH:+:$LD_LIBRARY_PATH}" DYLD_LIBRARY_PATH="$at" \
        WINEPATH="Z:${DESTDIR-}$bindir"
    printf a | $RUN "${DESTDIR-}$bindir/$(echo $programs)" | grep '^5117f5064cfd0faa  -'
    [ "$(echo $libraries)" ] || return 0 # only the program was asked for
    for file in $libraries; do
        case $file in
        *.dll | *.def) continue ;;
        *v3*) grep -qw avx2 /proc/cpuinfo || continue ;;
        esac
        alone=$made/${file%%/*}.folder # where the loader finds no other build
        mkdir "$alone"
        case $file in *.so.*) cp "$at/$file" "$alone" ;; esac
        for number in 4 5; do
            grep -hE "^([a-z_]+$tab)?$number$tab" "$crate"/tests/*.tsv > "$made/rows"
            $CC -D "VERSION=$number" -I "${DESTDIR-}$includedir" -o "$made/calls.exe" \
                tests/calls.c "$at/$file"
            LD_LIBRARY_PATH=$alone:$LD_LIBRARY_PATH $RUN "$made/calls.exe" < "$made/rows" |
                tr -d '\r' | cmp - "$made/rows"
        done
    done
    echo 'what is installed gives the right values'
}
tab=$(printf '\t')
made=$(mktemp -d)
trap 'rm -rf "$made"' EXIT
if [ "$1" = installcheck ]; then
    check_installed
    exit
fi

# Writes the files for pkg-config and CMake into a folder of their own, with the paths in them. For
# pkg-config, a backslash precedes some characters of the paths, which begin with its variable.
quoted() { printf '%s\n' "$1" | sed "s/$special/\\\\&/g; s/[\\\\&|]/\\\\&/g"; }
below_prefix() {
    case $file:$1 in
    *.pc:"$prefix"/*) printf '${prefix}%s' "$(quoted "${1#"$prefix"}")" ;;
    *) quoted "$1" ;;
    esac
}
for file in templates/*; do
    case $file in *.pc) special="[\"'\\\\# ]" ;; *) special='^$' ;; esac
    sed "s|@VERSION@|$version|; s|@CMAKE_SIZEOF_VOID_P@|${pointer_bytes-}|
        s|@PREFIX@|$(quoted "$prefix")|; s|@BINDIR@|$(quoted "$bindir")|
        s|@LIBDIR@|$(below_prefix "$libdir")|
        s|@INCLUDEDIR@|$(below_prefix "$includedir")|" "$file" > "$made/${file##*/}"
done

each_file "$1_file"
[ "$1" = install ] || exit 0
for file in $shared; do
    case " $libraries " in *" $file "*) continue ;; esac
    [ ! -e "${DESTDIR-}$libdir/$file" ] || echo "$libdir/$file stays as it was installed before"
done
